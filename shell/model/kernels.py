"""Which rules of a pair are those of FreeBSD's kernel, as far as we know them, in place of this project's profile."""
from __future__ import annotations

from dataclasses import dataclass
from typing import Collection, List, Tuple

from ..language.commands import KERNEL
from ..language.setups import EVERY_SWITCH, RESET, SWITCHES, WINDOW, Switch


@dataclass(frozen=True)
class Kernel:
    """The rules that are the kernel's, in the order of their table; each of the others is the profile's."""

    switches: Tuple[Switch, ...] = ()

    def with_words(self, words: Collection[str]) -> "Kernel":
        """With the rules of a line `kernel` besides."""
        said = SWITCHES if EVERY_SWITCH in words else words
        return Kernel(tuple(switch for switch in SWITCHES.values() if switch in self.switches or switch.word in said))

    def without(self, switch: Switch) -> "Kernel":
        """With the profile's rule in the place of one of the kernel's."""
        return Kernel(tuple(it for it in self.switches if it is not switch))

    def toggled(self, switches: Collection[Switch]) -> "Kernel":
        """With the other rule in each of these places: the kernel's for the profile's, and the profile's for the kernel's."""
        return Kernel(tuple(switch for switch in SWITCHES.values() if (switch in self.switches) != (switch in switches)))

    def apart(self, other: "Kernel") -> Tuple[Switch, ...]:
        """The places where another set of rules has another one."""
        return self.toggled(other.switches).switches

    def has(self, switch: Switch) -> bool:
        return switch in self.switches

    @property
    def is_profile(self) -> bool:
        return not self.switches

    @property
    def line(self) -> str:
        """The line of a setup that says it; no line is needed for the profile."""
        return " ".join([KERNEL.word, *(switch.word for switch in self.switches)])

    @property
    def words(self) -> List[str]:
        """The words for it, one for all."""
        return [EVERY_SWITCH] if len(self.switches) == len(SWITCHES) else [switch.word for switch in self.switches]

    @property
    def short(self) -> str:
        """The same, with one word for all."""
        return " ".join([KERNEL.word, *self.words])

    @property
    def by(self) -> str:
        """By which rules a pair goes: `by the profile`, or `by kernel window, loose`."""
        return "by the profile" if self.is_profile else f"by {KERNEL.word} {', '.join(self.words)}"

    @property
    def warnings(self) -> List[str]:
        """What to know about rules that are the kernel's without another one."""
        if self.has(WINDOW) and not self.has(RESET):
            known = "so it did before FreeBSD 13.2-RELEASE-p7, as far as we know its sources"
            return [f"by kernel window without reset a reset passes with any number: {known}"]
        if self.has(RESET) and not self.has(WINDOW):
            return ["no kernel that we know has the rule reset without window: it is for comparing"]
        return []


PROFILE = Kernel()
EVERY = PROFILE.with_words([EVERY_SWITCH])
