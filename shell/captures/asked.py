"""What a `capture` is asked for: which flow, from when to when, and how much of it."""
from __future__ import annotations

import argparse
import re
from datetime import date, datetime, timedelta
from ipaddress import ip_address
from typing import List, NamedTuple, Optional

from .files import NANOSECONDS

# How many frames and states are shown if not all are asked for; and how many steps of a state.
MOST_FRAMES, MOST_STATES, MOST_STEPS = 40, 20, 20

# An address of IPv6 with its port in brackets, as pfctl prints it, or itself in brackets, as the laboratory does; or one of IPv4.
_FLOW = re.compile(
    r"\[(?P<v6>[^\]]+)\]:(?P<p6>\d{1,5})|(?P<bare6>[^\[\]]*:[^\[\]]*:[^\[\]]*)(?:\[(?P<b6>\d{1,5})\])?"
    r"|(?P<v4>[^:\[\]]+)(?::(?P<p4>\d{1,5}))?",
    re.ASCII,
)
_TIME = re.compile(r"(?:(\d{4})-(\d\d)-(\d\d)[T ])?(\d\d?):(\d\d)(?::(\d\d)(?:\.(\d{1,9}))?)?", re.ASCII)


class FlowAsked(NamedTuple):
    """An address as a state record has it, and a port if one is named."""

    address: bytes
    port: Optional[bytes]

    def is_in(self, keys: bytes) -> bool:
        """Whether an end of a flow, on the wire or in the stack, has the address and the port."""
        for begin in (0, 36):
            for nth in (0, 1):
                port = keys[begin + 32 + 2 * nth : begin + 34 + 2 * nth]
                if keys[begin + 16 * nth : begin + 16 * nth + 16] == self.address and self.port in (None, port):
                    return True
        return False


class Moment(NamedTuple):
    """A time of a day, and the day if it is named."""

    day: Optional[date]
    nanoseconds: int

    def since_1970(self, first: int) -> int:
        """The moment in nanoseconds, in the zone of this machine; without a day, of the day of the first packet."""
        day = self.day or datetime.fromtimestamp(first // NANOSECONDS).date()
        seconds, rest = divmod(self.nanoseconds, NANOSECONDS)
        local = datetime(day.year, day.month, day.day) + timedelta(seconds=seconds)
        return int(local.timestamp()) * NANOSECONDS + rest


class CaptureOptions(argparse.Namespace):
    """The words of a command line."""

    captures: List[str]
    address_of_a: Optional[str]
    asked_flow: Optional[FlowAsked]
    since: Optional[Moment]
    until: Optional[Moment]
    shows_states: bool
    all: bool


def add_options(words: argparse.ArgumentParser) -> None:
    """The captures and the options."""
    files = "a capture of the sync interface at node a, and one at node b; a single capture is that of a"
    words.add_argument("captures", nargs="+", metavar="FILE", help=files)
    words.add_argument("--a", dest="address_of_a", type=_address, metavar="ADDRESS", help="the address of node a on the sync interface")
    words.add_argument(
        "--flow",
        dest="asked_flow",
        type=flow_asked,
        metavar="ADDRESS[:PORT]",
        help="only the states with this address, and this port, at an end",
    )
    words.add_argument("--from", dest="since", type=moment, metavar="TIME", help="from this time on: HH:MM[:SS], or YYYY-MM-DDTHH:MM[:SS]")
    words.add_argument("--to", dest="until", type=moment, metavar="TIME", help="up to this time")
    words.add_argument("--states", dest="shows_states", action="store_true", help="also shows each state with what was sent of it")
    words.add_argument("--all", action="store_true", help="lists every frame and every finding, not only the first ones")


def _address(word: str) -> str:
    try:
        return str(ip_address(word))
    except ValueError as error:
        raise argparse.ArgumentTypeError(f"{word} is not an address") from error


def flow_asked(word: str) -> FlowAsked:
    """An address, with a port if one is named: of IPv6 `[ADDRESS]:PORT`, or as pfctl prints it."""
    found = _FLOW.fullmatch(word)
    try:
        if not found:
            raise ValueError
        packed = ip_address(found["v6"] or found["bare6"] or found["v4"]).packed.ljust(16, b"\0")
        port = found["p6"] or found["b6"] or found["p4"]
        return FlowAsked(packed, int(port).to_bytes(2, "big") if port else None)
    except (ValueError, OverflowError) as error:
        raise argparse.ArgumentTypeError(f"{word} is not ADDRESS[:PORT], such as 192.0.2.80:443 or [2001:db8::80]:443") from error


def moment(word: str) -> Moment:
    """A time of the first day, or of the day that is named."""
    found = _TIME.fullmatch(word)
    try:
        if not found:
            raise ValueError
        day = date(*map(int, found.groups()[:3])) if found[1] else None
        hours, minutes, seconds = int(found[4]), int(found[5]), int(found[6] or 0)
        if hours > 23 or minutes > 59 or seconds > 59 or day and not 1970 < day.year < 9999:
            raise ValueError
        return Moment(day, ((hours * 60 + minutes) * 60 + seconds) * NANOSECONDS + int((found[7] or "").ljust(9, "0")))
    except ValueError as error:
        raise argparse.ArgumentTypeError(f"{word} is not a time: HH:MM[:SS[.f]], or YYYY-MM-DDTHH:MM[:SS[.f]]") from error


class Selection(NamedTuple):
    """What is looked at: a flow, from when to when, as times in nanoseconds."""

    flow: Optional[FlowAsked] = None
    since: Optional[int] = None
    until: Optional[int] = None

    @classmethod
    def of(cls, options: CaptureOptions, first: int) -> Selection:
        """What the words say of a capture that begins at this time."""
        since, until = (it.since_1970(first) if it else None for it in (options.since, options.until))
        return cls(options.asked_flow, since, until)

    @property
    def is_all(self) -> bool:
        return self == Selection()

    def has_time(self, time: int) -> bool:
        return (self.since is None or self.since <= time) and (self.until is None or time <= self.until)

    def has_flow(self, keys: Optional[bytes]) -> bool:
        """Whether a flow is looked at; one that is not known is only where all are."""
        return self.flow is None or keys is not None and self.flow.is_in(keys)
