"""Files of tcpdump(1): pcap and pcapng, plain or packed by gzip, read packet by packet."""
from __future__ import annotations

import struct
import zlib
from typing import BinaryIO, Iterator, List, NamedTuple

from ..scripts.kinds import CAPTURE, GZIP, PCAP, SECTION, looks_like_capture, other_kind

NANOSECONDS = 10**9
# The longest packet that libpcap reads, and with it the longest block of a packet. Other blocks may have any length.
MOST_CAPTURED = 262144
MOST_OF_BLOCK = 2 * MOST_CAPTURED
# How much is read or unpacked at once.
_PIECE = 1 << 18
# The last day of the year 9999: no clock of a capture is past it, in any zone.
_PAST_ALL = 253402214400
_MOST_INTERFACES = 65536

_INTERFACE, _OLD_PACKET, _SIMPLE_PACKET, _ENHANCED_PACKET = 1, 2, 3, 6
_READ = (_INTERFACE, _OLD_PACKET, _SIMPLE_PACKET, _ENHANCED_PACKET)
# The byte orders of a pcapng section.
_ORDERS = {b"\x4d\x3c\x2b\x1a": "<", b"\x1a\x2b\x3c\x4d": ">"}
_FILE_HEADER, _PACKET_HEADER, _BLOCK_HEADER = 24, 16, 8
_NEITHER = "the file is neither pcap nor pcapng"
_OPTION_RESOLUTION, _OPTION_OFFSET = 9, 14


def looks_like_one(begin: bytes) -> bool:
    """Whether a file that begins with these bytes may be a capture."""
    return looks_like_capture(begin) or begin.startswith(GZIP)


class BadCapture(Exception):
    """A file that is no capture, or that cannot be read on; it says where."""


class Packet(NamedTuple):
    """A packet: when it was seen in nanoseconds since 1970, its LINKTYPE_ number, its bytes on the wire, and those captured."""

    time: int
    link: int
    length: int
    data: bytes


def packets(path: str, name: str = "") -> Iterator[Packet]:
    """The packets of a file, which faults call by its path or another name. Those before a fault come first; memory grows neither with the
    file nor with a length in it."""
    with open(path, "rb") as raw:
        source = _Source(raw, name or path)
        begin = source.take(4)
        if begin == SECTION:
            yield from _Blocks(source).packets()
        elif begin in PCAP:
            yield from _pcap(source, *PCAP[begin])
        else:
            raise source.fault("the file is empty" if not begin else str(other_kind(source.first, CAPTURE) or _NEITHER))


class _Source:
    """The bytes of a file, unpacked if it is packed, from the first to the last."""

    def __init__(self, raw: BinaryIO, name: str):
        self._raw, self._name = raw, name
        self._piece, self._at = b"", 0
        # How many bytes came before the piece.
        self._before = 0
        self._packed = b""
        begin = raw.read(_PIECE)
        self._unpacker = zlib.decompressobj(31) if begin.startswith(GZIP) else None
        if self._unpacker:
            self._packed = begin
        else:
            self._piece = begin
        self._trouble = ""

    @property
    def first(self) -> bytes:
        """The first bytes, as long as only a few of them were taken."""
        return self._piece

    @property
    def place(self) -> int:
        """How many bytes were taken."""
        return self._before + self._at

    def take(self, size: int) -> bytes:
        """The next bytes; fewer if the file ends before."""
        end = self._at + size
        if end > len(self._piece):
            self._fill(size)
            end = self._at + size
        taken = self._piece[self._at : end]
        self._at += len(taken)
        return taken

    def rest(self, piece: bytes, at: int, size: int) -> bytes:
        """What is left of a piece from a place on, and what comes after it: this many bytes or more, if the file has as many."""
        parts, length = [piece[at:]], len(piece) - at
        while length < size:
            part = self._piece[self._at :] or self._next()
            self._before, self._piece, self._at = self._before + self._at + len(part), b"", 0
            if not part:
                break
            parts.append(part)
            length += len(part)
        return b"".join(parts)

    def place_of(self, piece: bytes, at: int) -> int:
        """Where something stands in the file that is at a place of the last piece."""
        return self.place - len(piece) + at

    def skip(self, size: int) -> bool:
        """Passes over bytes; returns whether all of them are there."""
        while size > 0:
            taken = len(self.take(min(size, _PIECE)))
            if not taken:
                return False
            size -= taken
        return True

    def _fill(self, size: int) -> None:
        """Puts what is left and what comes next into one piece of this size or more, if the file has as many."""
        parts, length = [self._piece[self._at :]], len(self._piece) - self._at
        while length < size:
            part = self._next()
            if not part:
                break
            parts.append(part)
            length += len(part)
        self._before += self._at
        self._piece, self._at = b"".join(parts), 0

    def _next(self) -> bytes:
        """The next part of the file; empty at its end, or where it cannot be unpacked."""
        if not self._unpacker:
            return self._raw.read(_PIECE)
        while not self._trouble:
            if self._unpacker.eof:
                self._packed = self._unpacker.unused_data
                if len(self._packed) < len(GZIP):
                    self._packed += self._raw.read(_PIECE)
                if not self._packed.startswith(GZIP):
                    return b""
                self._unpacker = zlib.decompressobj(31)
            elif not self._packed:
                self._packed = self._raw.read(_PIECE)
                if not self._packed:
                    self._trouble = "its gzip data end too early"
                    break
            part = self._unpacked()
            if part:
                return part
        return b""

    def _unpacked(self) -> bytes:
        assert self._unpacker
        try:
            part = self._unpacker.decompress(self._packed, _PIECE)
        except zlib.error:
            self._trouble = "its gzip data are damaged"
            return b""
        self._packed = self._unpacker.unconsumed_tail
        return part

    def fault(self, what: str) -> BadCapture:
        """What is wrong with the file."""
        return BadCapture(f"{self._name}: {what}{f': {self._trouble}' * bool(self._trouble)}")

    def cut(self, what: str) -> BadCapture:
        """A part of the file that is not whole."""
        return self.fault(f"{what} goes beyond the end of the file")

    def end(self) -> None:
        """Reports that the file could not be unpacked to its end."""
        if self._trouble:
            raise self.fault(f"the capture ends at byte {self.place}")


def _pcap(source: _Source, order: str, units: int) -> Iterator[Packet]:
    """The packets of a pcap after its first four bytes."""
    header = source.take(_FILE_HEADER - 4)
    if len(header) < _FILE_HEADER - 4:
        raise source.cut("the header of the file")
    link = struct.unpack_from(f"{order}I", header, 16)[0] & 0xFFFF
    read, factor, new = struct.Struct(f"{order}IIII").unpack_from, NANOSECONDS // units, tuple.__new__
    piece, at = b"", 0
    while True:
        # (most packets are whole in what was read last)
        begin = at + _PACKET_HEADER
        if begin > len(piece):
            piece, at, begin = source.rest(piece, at, _PACKET_HEADER), 0, _PACKET_HEADER
            if begin > len(piece):
                break
        seconds, part, size, length = read(piece, at)
        if size > MOST_CAPTURED:
            raise source.fault(f"the packet at byte {source.place_of(piece, at)} claims {size} bytes, more than any packet has")
        end = begin + size
        if end > len(piece):
            piece, at = source.rest(piece, at, _PACKET_HEADER + size), 0
            begin, end = _PACKET_HEADER, _PACKET_HEADER + size
            if end > len(piece):
                raise source.cut(f"the packet at byte {source.place_of(piece, at)}")
        yield new(Packet, (seconds * NANOSECONDS + part * factor, link, length, piece[begin:end]))
        at = end
    if piece:
        raise source.cut(f"the header of the packet at byte {source.place_of(piece, at)}")
    source.end()


class _Interface(NamedTuple):
    """An interface of a pcapng section: its link type, how many packets' bytes it keeps, its units of a second, and the seconds that
    are added to its times."""

    link: int
    kept: int
    units: int
    offset: int


class _Blocks:
    """The blocks of a pcapng, after its first four bytes."""

    def __init__(self, source: _Source):
        self._source = source
        self._order = "<"
        self._interfaces: List[_Interface] = []
        # The time of the last packet, for simple packets, which have none.
        self._last = 0

    def packets(self) -> Iterator[Packet]:
        """The packets of all sections."""
        kind = SECTION
        while kind:
            at = self._source.place - len(kind)
            if len(kind) < 4:
                raise self._source.cut(f"the block at byte {at}")
            yield from self._block(kind, at)
            kind = self._source.take(4)
        self._source.end()

    def _block(self, kind: bytes, at: int) -> Iterator[Packet]:
        """The packet of a block, if it has one."""
        size, taken = self._source.take(4), _BLOCK_HEADER
        if kind == SECTION:
            # (the byte order of the length comes after it)
            self._begin(at)
            taken += 4
        if len(size) < 4:
            raise self._source.cut(f"the block at byte {at}")
        number, length = struct.unpack(f"{self._order}II", kind + size)
        if length % 4 or length < taken + 4:
            raise self._source.fault(f"the block at byte {at} claims {length} bytes, which no such block has")
        body = self._body(number, length - taken - 4, at)
        end = self._source.take(4)
        if len(end) < 4:
            raise self._source.cut(f"the block at byte {at}")
        if end != size:
            raise self._source.fault(f"the block at byte {at} has another length at its end than at its beginning")
        if number == _INTERFACE:
            self._add(body, at)
        elif number in _READ:
            yield self._packet(number, body, at)

    def _body(self, number: int, size: int, at: int) -> bytes:
        """What is between the lengths of a block; nothing of a block that is not read."""
        if number not in _READ:
            if not self._source.skip(size):
                raise self._source.cut(f"the block at byte {at}")
            return b""
        if size > MOST_OF_BLOCK:
            raise self._source.fault(f"the block at byte {at} claims {size + _BLOCK_HEADER + 4} bytes, more than any packet has")
        body = self._source.take(size)
        if len(body) < size:
            raise self._source.cut(f"the block at byte {at}")
        return body

    def _begin(self, at: int) -> None:
        """Begins a section, whose third word says its byte order."""
        magic = self._source.take(4)
        if magic not in _ORDERS:
            what = f"the section at byte {at}"
            raise self._source.fault(f"{what} has no byte order") if len(magic) == 4 else self._source.cut(what)
        self._order, self._interfaces = _ORDERS[magic], []

    def _add(self, body: bytes, at: int) -> None:
        """Adds an interface to the section."""
        if len(body) < 8 or len(self._interfaces) == _MOST_INTERFACES:
            why = "is too short" if len(body) < 8 else f"comes after {_MOST_INTERFACES} others"
            raise self._source.fault(f"the interface at byte {at} {why}")
        link, kept = struct.unpack_from(f"{self._order}HxxI", body)
        units, offset, place = 10**6, 0, 8
        while place + 4 <= len(body):
            code, size = struct.unpack_from(f"{self._order}HH", body, place)
            value, place = body[place + 4 : place + 4 + size], place + 4 + (size + 3) // 4 * 4
            if code == 0:
                break
            if code == _OPTION_RESOLUTION and len(value) == 1:
                units = 2 ** (value[0] & 127) if value[0] & 128 else 10 ** value[0]
            elif code == _OPTION_OFFSET and len(value) == 8:
                (offset,) = struct.unpack(f"{self._order}q", value)
        self._interfaces.append(_Interface(link, kept, units, offset))

    def _packet(self, number: int, body: bytes, at: int) -> Packet:
        """The packet of a block."""
        if number == _SIMPLE_PACKET:
            return self._simple(body, at)
        form = f"{self._order}{'HxxIIII' if number == _OLD_PACKET else 'IIIII'}"
        if len(body) < struct.calcsize(form):
            raise self._source.fault(f"the packet at byte {at} is shorter than its header")
        which, high, low, size, length = struct.unpack_from(form, body)
        if which >= len(self._interfaces):
            raise self._source.fault(f"the packet at byte {at} is of interface {which}, which the file does not describe before it")
        data = body[struct.calcsize(form) :][:size]
        if len(data) < size:
            raise self._source.fault(f"the packet at byte {at} goes beyond the end of its block")
        interface = self._interfaces[which]
        time = (high << 32 | low) * NANOSECONDS // interface.units + interface.offset * NANOSECONDS
        if not 0 <= time < _PAST_ALL * NANOSECONDS:
            raise self._source.fault(f"the packet at byte {at} has a time before 1970 or at the end of the year 9999")
        self._last = time
        return Packet(time, interface.link, length, data)

    def _simple(self, body: bytes, at: int) -> Packet:
        """A packet that has no time: it gets that of the packet before it."""
        if len(body) < 4 or not self._interfaces:
            why = "is shorter than its header" if self._interfaces else "comes before any interface"
            raise self._source.fault(f"the packet at byte {at} {why}")
        (length,) = struct.unpack_from(f"{self._order}I", body)
        interface = self._interfaces[0]
        size = min(length, interface.kept or length)
        data = body[4:][:size]
        if len(data) < size:
            raise self._source.fault(f"the packet at byte {at} goes beyond the end of its block")
        return Packet(self._last, interface.link, length, data)
