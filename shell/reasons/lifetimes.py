"""Until when states live that a frame has brought or changed, by the kernel's rule `expiry` and without it."""
from __future__ import annotations

from dataclasses import replace
from typing import Dict, List, Sequence

from ..language.commands import KERNEL
from ..language.names import Name
from ..language.setups import EXPIRY
from ..model.explanations import TakenRecord
from ..model.frames import Frame
from ..model.kernels import Kernel
from ..model.pair import Node
from ..model.receiving import received
from ..model.setups import Setup
from ..shows.words import expires_at
from .kernel import PAGE, THE_KERNEL, rules_without

BY = f"{KERNEL.word} {EXPIRY.word}"
# Records have whole seconds, so that by so many milliseconds two times of last use are apart without any other reason.
SECOND = 1000
# So many states are named.
MOST = 3


def explain_lifetimes(setup: Setup, frame: Frame, fates: Sequence[TakenRecord], before: Node, after: Node) -> List[str]:
    """Until when the states live by the other rule, if that is another time; and with the kernel's rule, until when they live."""
    kernel, is_on = setup.kernel, setup.kernel.has(EXPIRY)
    other = kernel.without(EXPIRY) if is_on else kernel.with_words([EXPIRY.word])
    here, there = (_last_uses(setup, it, frame, fates, before) for it in (kernel, other))
    names = [name for name in sorted(here) if name in after.states and abs(here[name] - there[name]) > SECOND]
    if not names:
        return []

    def lives(name: Name, last: int) -> str:
        return f"until {expires_at(setup, after, replace(after.states[name], last=last))} ms"

    more = f"; and so on for {len(names) - MOST} more" * (len(names) > MOST)
    if is_on:
        said = (f"{it} lives {lives(it, here[it])}, and {rules_without(kernel, EXPIRY)} {lives(it, there[it])}" for it in names[:MOST])
        return [f"by {BY} {'; '.join(said)}{more}"]
    said = (f"{it} lives {lives(it, there[it])}, and not {lives(it, here[it])}" for it in names[:MOST])
    return [f"{THE_KERNEL} counts the last use differently: by {BY} {'; '.join(said)}{more} ({PAGE})"]


def _last_uses(setup: Setup, kernel: Kernel, frame: Frame, fates: Sequence[TakenRecord], node: Node) -> Dict[Name, int]:
    """When the states that the records make or change were used, at a node that was so before them."""
    return {it.state.name: it.state.last for it in received(setup, kernel, node, frame, fates) if it}
