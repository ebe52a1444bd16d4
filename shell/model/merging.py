"""What an update of the peer's does to the ends of a state, by the rules of the profile or of the kernel (pfl_merge/specs)."""
from __future__ import annotations

from dataclasses import replace
from typing import NamedTuple, Tuple, Union

from ..language.names import SYN_SENT
from ..language.packets import reaches
from ..language.setups import MERGE
from .frames import Carried, Changes
from .kernels import Kernel
from .states import End, Flow


class Merged(NamedTuple):
    """Which ends of the update are stale, which are taken, and the state after it but for its times. It gets the class of the update if an
    end is taken."""

    stale: Tuple[str, ...]
    taken: Tuple[str, ...]
    state: Flow


def merged(kernel: Kernel, held: Flow, came: Union[Carried, Changes]) -> Merged:
    """An update of a state that is held."""
    is_tcp = held.protocol == "tcp"
    is_stale = {
        "source": is_stale_source(held.source, came.source, is_tcp),
        "destination": is_stale_destination(held.destination, came.destination, is_tcp),
    }
    stale = tuple(end for end, it in is_stale.items() if it)
    # By the kernel the destination goes with the source.
    kept = stale if len(stale) == 2 or not kernel.has(MERGE) else tuple(it for it in stale if it != "destination")
    taken = tuple(end for end in is_stale if end not in kept)
    source = came.source if "source" in taken else held.source
    destination = came.destination if "destination" in taken else held.destination
    timeout_class = came.timeout_class if taken else held.timeout_class
    return Merged(stale, taken, replace(held, source=source, destination=destination, timeout_class=timeout_class))


def is_stale_source(held: End, came: End, is_tcp: bool) -> bool:
    """Whether a source end that came is behind the one that is held: in level, or for TCP in number at one level."""
    return came.level < held.level or is_tcp and came.level == held.level and is_after(held.lo, came.lo)


def is_stale_destination(held: End, came: End, is_tcp: bool) -> bool:
    """Whether a destination end is behind: in level, or for TCP in number once the one that is held has begun."""
    return came.level < held.level or is_tcp and held.level >= SYN_SENT and is_after(held.lo, came.lo)


def is_after(one: int, two: int) -> bool:
    """Whether a sequence number is after another one."""
    return one != two and reaches(one, two)
