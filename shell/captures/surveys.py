"""The first reading of a capture: whose messages it has, from when to when, and a sample of them to compare with the other capture."""
from __future__ import annotations

from dataclasses import dataclass, field
from typing import Dict, Iterator, List, Optional, Tuple
from zlib import crc32

from .files import NANOSECONDS, BadCapture, Packet, packets
from .links import PFSYNC_LINKS, Message, messages

# How many messages are kept of a capture, and how many senders are counted by their addresses.
MOST_KEPT = 8192
MOST_SENDERS = 256
# The shortest part of a message that may say which one it is: its header and the subheader of its first group.
LEAST_COMPARED = 24
# Within what time a capture that has a message twice may have it from two interfaces; and how many there are then at least.
AT_ONCE, _LEAST_DOUBLES = NANOSECONDS // 1000, 8
WHOLE = 1 << 20

# What a message is known by: its sender, its bytes as sent, and a checksum of those captured.
Mark = Tuple[str, int, int]


@dataclass
class Kept:
    """A message that was kept: when it was seen first and last, and how often."""

    time: int
    last: int
    often: int = 1


@dataclass
class Survey:
    """What a reading of a capture comes to."""

    path: str
    name: str
    # How many bytes of a message are compared.
    compared: int = WHOLE
    packets: int = 0
    # The earliest and the latest time, and those of the first and the last packet: others where a clock was set back.
    first: int = 0
    last: int = 0
    begun: int = 0
    ended: int = 0
    # How many messages each sender has, in the order of their first ones; those of pfsync's own link have none.
    senders: Dict[str, int] = field(default_factory=dict)
    more_senders: int = 0
    # How many messages are the one before once more, at once.
    doubles: int = 0
    # The shortest message that was not captured whole.
    shortest: int = WHOLE
    fault: str = ""
    # Of the checksums of messages, those that have none of these bits are kept.
    mask: int = 0
    kept: Dict[Mark, Kept] = field(default_factory=dict)

    @property
    def messages(self) -> int:
        return sum(self.senders.values()) + self.more_senders

    @property
    def is_own(self) -> bool:
        """Whether it is a capture of pfsync itself, which has what the node sends alone."""
        return [*self.senders] == [""]

    @property
    def is_doubled(self) -> bool:
        """Whether it has most messages twice, as one of two interfaces has: a node may send a few twice itself."""
        return self.doubles >= _LEAST_DOUBLES and self.doubles * 4 >= self.messages

    @property
    def addresses(self) -> List[str]:
        return [sender for sender in self.senders if sender]

    def keep(self, message: Message, checksum: int) -> None:
        """Keeps a message whose checksum has none of the bits of the mask."""
        mark = (message.sender, message.length, checksum)
        its = self.kept.get(mark)
        if its:
            its.often += 1
            its.last = message.time
        elif len(self.kept) < 2 * MOST_KEPT:
            self.kept[mark] = Kept(message.time, message.time)
        while len(self.kept) > MOST_KEPT and self.mask < 0xFFFFFFFF:
            self.thin(self.mask << 1 | 1)

    def thin(self, mask: int) -> None:
        """Keeps only those messages that this mask lets be kept."""
        self.mask = mask
        self.kept = {mark: its for mark, its in self.kept.items() if not mark[2] & mask}


def surveyed(path: str, name: str, compared: int = WHOLE) -> Survey:
    """Reads a capture once. What came before a fault counts."""
    survey = Survey(path, name, compared)
    senders, before, before_time, before_sender = survey.senders, b"", 0, ""
    for message in messages(_watched(survey)):
        time, sender, _, length, payload = message
        is_double = payload == before and sender == before_sender and 0 <= time - before_time <= AT_ONCE
        before, before_time, before_sender = payload, time, sender
        if sender in senders:
            senders[sender] += 1
        elif len(senders) < MOST_SENDERS:
            senders[sender] = 1
        else:
            survey.more_senders += 1
        if len(payload) < length:
            survey.shortest = min(survey.shortest, len(payload))
        if is_double:
            survey.doubles += 1
            continue
        checksum = crc32(payload if compared == WHOLE else payload[:compared])
        if not checksum & survey.mask:
            survey.keep(message, checksum)
    return survey


def _watched(survey: Survey) -> Iterator[Packet]:
    """The packets of a capture, as they are counted."""
    first, last, number = 1 << 100, 0, 0
    begun: Optional[int] = None
    try:
        for packet in packets(survey.path, survey.name):
            time = packet[0]
            number += 1
            if time > last:
                last = time
            if time < first:
                first = time
            if begun is None:
                begun = time
            yield packet
    except BadCapture as why:
        survey.fault = str(why)
    if begun is not None:
        survey.packets, survey.first, survey.last, survey.begun, survey.ended = number, first, last, begun, time


def read_again(survey: Survey) -> Iterator[Message]:
    """The messages of a capture that was surveyed, up to its fault. Where it has messages with addresses, those of pfsync's own link are
    the node's own once more, and are left out."""
    has_both = "" in survey.senders and not survey.is_own
    try:
        for message in messages(_with_addresses(survey) if has_both else packets(survey.path, survey.name)):
            yield message
    except BadCapture:
        return


def _with_addresses(survey: Survey) -> Iterator[Packet]:
    return (packet for packet in packets(survey.path, survey.name) if packet.link not in PFSYNC_LINKS)
