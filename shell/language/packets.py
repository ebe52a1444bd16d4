"""The packet of a `packet` event, from the event's words."""
from __future__ import annotations

from dataclasses import dataclass
from typing import Optional

CIRCLE = 2**32


def reaches(one: int, two: int) -> bool:
    """Whether a sequence number is the other one, or after it: ahead of it by less than half the circle."""
    return (one - two) % CIRCLE < CIRCLE // 2


@dataclass(frozen=True)
class Key:
    """The two ends of a flow, each `ADDRESS:PORT`, far from the node or near to it."""

    far: str
    near: str


@dataclass(frozen=True)
class PacketEvent:
    """A packet that comes to a node; a protocol without sequence numbers has 0 in their place."""

    node: str
    direction: str
    protocol: str
    source: str
    destination: str
    length: int
    flags: str = "-"
    seq: int = 0
    ack: int = 0
    window: int = 0
    scale: Optional[int] = None

    @classmethod
    def read(cls, plain: str) -> "PacketEvent":
        """The packet of an event as a log has it."""
        _, node, direction, protocol, source, destination, *rest = plain.split()
        if protocol != "tcp":
            return cls(node, direction, protocol, source, destination, int(rest[0]))
        flags, *numbers = rest
        seq, ack, window, length, *scale = map(int, numbers)
        return cls(node, direction, protocol, source, destination, length, flags, seq, ack, window, *scale)

    @property
    def line(self) -> str:
        """The event as a log has it."""
        words = ["packet", self.node, self.direction, self.protocol, self.source, self.destination]
        if self.is_tcp:
            scale = () if self.scale is None else (self.scale,)
            words += [self.flags, *map(str, (self.seq, self.ack, self.window, self.length, *scale))]
        else:
            words.append(str(self.length))
        return " ".join(words)

    @property
    def is_tcp(self) -> bool:
        return self.protocol == "tcp"

    @property
    def is_request(self) -> bool:
        """Whether it asks for a connection: SYN without ACK."""
        return "S" in self.flags and "A" not in self.flags

    @property
    def end(self) -> int:
        """The sequence number that follows the packet: SYN and FIN take one each (RFC 9293, 3.4)."""
        return (self.seq + self.length + ("S" in self.flags) + ("F" in self.flags)) % CIRCLE

    @property
    def key(self) -> Key:
        """The flow as a state has it: far is the source on the way in, and the destination on the way out."""
        if self.direction == "in":
            return Key(self.source, self.destination)
        return Key(self.destination, self.source)

    @property
    def flow(self) -> str:
        return f"{self.protocol} {self.source} > {self.destination}"
