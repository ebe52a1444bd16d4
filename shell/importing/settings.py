"""What `set` of a pf.conf(5) does in the laboratory: timeouts, limits, and what the rules after it depend on."""
from __future__ import annotations

from dataclasses import dataclass, field
from typing import Dict, List, NamedTuple, Optional, Sequence, Tuple

from ..language.forms import GREATEST
from ..language.setups import AEND, ASTART, STATES
from .grammar import Setting
from .rules import CLASS_WORDS, Context
from .services import number_of

# pf's own, if a pf.conf sets none.
DEFAULT_LIMIT, DEFAULT_START, DEFAULT_END = 100_000, 60_000, 120_000
_START, _END = "adaptive.start", "adaptive.end"
# pfctl's profiles, by the classes that they set.
_OF_PROFILE = ("tcp.first", "tcp.opening", "tcp.established", "tcp.closing", "tcp.finwait", "tcp.closed")
_SATELLITE = (180, 35, 86400, 905, 50, 95)
_PROFILES: Dict[str, Tuple[int, ...]] = {
    "normal": (120, 30, 86400, 900, 45, 90),
    "satellite": _SATELLITE,
    "high-latency": _SATELLITE,
    "conservative": (3600, 900, 432000, 3600, 600, 180),
    "aggressive": (30, 5, 18000, 60, 30, 30),
}
_LEFT_OUT = {
    "interval": "`interval`: a purge is an event of the script",
    "frag": "`frag`: no packet of the laboratory is a fragment",
    "src.track": "`src.track`: sources are not counted",
    "tcp.tsdiff": "`tcp.tsdiff`: packets of the laboratory have no timestamps",
}
_NOT_SENT = "nothing is sent back where a pass rule can make no state: no RST, no ICMP error"
_OTHER_LIMITS = ("frags", "src-nodes", "tables", "table-entries")
# What does not affect the states of an interface.
_WITHOUT_EFFECT = (
    *("loginterface", "fingerprints", "debug", "ruleset-optimization", "require-order", "keepcounters", "state-policy"),
    *("skip", "state-defaults", "block-policy"),
)


class Set(NamedTuple):
    """What became of a setting: its lines, and what is lost, or why it is not taken in."""

    lines: List[str] = []
    lost: List[str] = []
    out: str = ""


@dataclass
class Settings:
    """What was set so far."""

    context: Context = field(default_factory=Context)
    limit: Optional[int] = None
    start: Optional[int] = None
    end: Optional[int] = None

    @property
    def limits(self) -> Tuple[Optional[int], Optional[int], Optional[int]]:
        """The limit of states, and between which numbers of them timeouts shrink, as far as they are set."""
        return self.limit, self.start, self.end

    def take(self, setting: Setting) -> Set:
        if setting.word in ("timeout", "limit"):
            return self._pairs(setting)
        if setting.word == "optimization":
            return _profile(setting.values)
        if setting.word == "block-policy":
            self.context.answer = setting.values[0] if setting.values else "drop"
        elif setting.word == "state-defaults":
            self.context.state_defaults = setting.options
        if setting.word in _WITHOUT_EFFECT:
            return Set()
        if setting.word == "hostid":
            return Set(lost=["`hostid`: a state's creator is the number of its node's boot"])
        if setting.word == "fail-policy":
            return Set(lost=[_NOT_SENT] if setting.values[:1] == ["return"] else [])
        if setting.word == "syncookies":
            return Set(lost=["`syncookies`: the ends shake hands with one another"])
        return Set(out=f"FreeBSD 13's pf has no `set {setting.word}`")

    def _pairs(self, setting: Setting) -> Set:
        """Names, each with its number."""
        lines: List[str] = []
        lost: List[str] = []
        for name, word in zip(setting.values[::2], setting.values[1::2]):
            number = number_of(word, GREATEST)
            if number is None:
                return Set(out=f"`{name} {word}` has no number up to {GREATEST}")
            if setting.word == "timeout" and name in CLASS_WORDS:
                lines.append(f"set timeout {name} {number}")
            elif name in (_START, _END) if setting.word == "timeout" else name == "states":
                lost += self._number(name, number)
            elif name in (_LEFT_OUT if setting.word == "timeout" else _OTHER_LIMITS):
                lost += [_LEFT_OUT[name]] if name in _LEFT_OUT else []
            else:
                return Set(out=f"pf has no {setting.word} `{name}`")
        return Set(lines, lost)

    def _number(self, name: str, number: int) -> List[str]:
        """Takes a number of states; returns what is lost if it is beyond the range here."""
        if name == _START:
            self.start = number
        elif name == _END:
            self.end = number
        else:
            self.limit = number
        most = STATES.most if name == "states" else AEND.most
        if number > most or (name == "states" and number == 0):
            return [f"`{name} {number}` becomes {most}, the maximum here"]
        return []

    def lines(self) -> List[str]:
        """The limits of states, and between which numbers timeouts shrink: pfctl's 60% and 120% of a limit that is set, unless either
        is set, too."""
        start, end = self._adaptive()
        numbers = {STATES: (DEFAULT_LIMIT if self.limit is None else self.limit) or STATES.most, ASTART: start, AEND: end}
        return [f"set {limit.word} {min(number, limit.most)}" for limit, number in numbers.items()]

    def _adaptive(self) -> Tuple[int, int]:
        """Between which numbers of states timeouts shrink in pf."""
        start, end = DEFAULT_START, DEFAULT_END
        if self.limit is not None and self.start is None and self.end is None:
            start, end = self.limit // 10 * 6, self.limit // 10 * 12
        return start if self.start is None else self.start, end if self.end is None else self.end

    def lost(self) -> List[str]:
        """What is lost by all limits together: with as many states as there are here, timeouts are those of pf; but pf may begin to
        shorten them only with more."""
        start, end = self._adaptive()
        is_reached = start < end and (not self.limit or start < self.limit)
        if start < STATES.most or not is_reached:
            return []
        return [f"timeouts never shrink here: pf shortens them with more than {start} states, and there are at most {STATES.most} here"]


def _profile(values: Sequence[str]) -> Set:
    name = values[0] if values else ""
    if name not in _PROFILES:
        return Set(out=f"pfctl has no optimization `{name}`")
    return Set([f"set timeout {it} {seconds}" for it, seconds in zip(_OF_PROFILE, _PROFILES[name])])
