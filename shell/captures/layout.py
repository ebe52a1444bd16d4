"""The messages of pfsync(4) version 5 as FreeBSD 13 lays them out: `sys/net/if_pfsync.h` and `sys/net/pfvar.h`, from memory. No machine
with FreeBSD was at hand, so each field says how sure we are; docs/FIELD-DETAILS.md has this table."""
from __future__ import annotations

from dataclasses import dataclass
from typing import Dict, NamedTuple, Tuple

VERSION = 5
# The number of the protocol in an IP header (/etc/protocols).
PROTOCOL = 240


class Field(NamedTuple):
    """A field: its name in the kernel, its bytes, how sure we are in percent, and what it has. Numbers are in network order."""

    name: str
    size: int
    sure: int
    what: str = ""


@dataclass(frozen=True)
class Layout:
    """The fields of a part of a message, in their order."""

    name: str
    fields: Tuple[Field, ...]

    @property
    def size(self) -> int:
        return sum(field.size for field in self.fields)

    def at(self, name: str) -> int:
        """Where a field begins."""
        names = [field.name for field in self.fields]
        return sum(field.size for field in self.fields[: names.index(name)])


HEADER = Layout(
    "pfsync_header",
    (
        Field("version", 1, 99, "5"),
        Field("_pad", 1, 97),
        Field("len", 2, 95, "bytes of header and records, without the IP header"),
        Field("pfcksum", 16, 97, "MD5 of the rules"),
    ),
)
SUBHEADER = Layout(
    "pfsync_subheader",
    (Field("action", 1, 99, "the kind of the records that follow"), Field("_pad", 1, 90), Field("count", 2, 97, "how many of them")),
)
PEER = Layout(
    "pfsync_state_peer",
    (
        Field("scrub.pfss_flags", 2, 90),
        Field("scrub.pfss_ttl", 1, 85),
        Field("scrub.scrub_flag", 1, 85, "1 if the two beside it count"),
        Field("scrub.pfss_ts_mod", 4, 88),
        Field("seqlo", 4, 95, "the next sequence number"),
        Field("seqhi", 4, 95, "the greatest that the other end allows"),
        Field("seqdiff", 4, 95, "what is added to sequence numbers (`modulate state`)"),
        Field("max_win", 2, 93, "the greatest window, not scaled"),
        Field("mss", 2, 93),
        Field("state", 1, 93, "the level"),
        Field("wscale", 1, 93, "the shift, with 0x80 where the end has offered one (PF_WSCALE_FLAG)"),
        Field("pad", 6, 85),
    ),
)
STATE = Layout(
    "pfsync_state",
    (
        Field("id", 8, 97),
        Field("ifname", 16, 97, "the interface, or `all` for a floating state"),
        Field("key[0].addr[2]", 32, 95, "on the wire (PF_SK_WIRE): the far address, then the near one"),
        Field("key[0].port[2]", 4, 95, "the far port, then the near one"),
        Field("key[1].addr[2]", 32, 95, "on the stack (PF_SK_STACK), alike"),
        Field("key[1].port[2]", 4, 92),
        Field("src", 32, 95, "the end that sent the first packet, a pfsync_state_peer"),
        Field("dst", 32, 95, "the other end"),
        Field("rt_addr", 16, 93),
        Field("rule", 4, 95, "the number of the rule, or all ones"),
        Field("anchor", 4, 95),
        Field("nat_rule", 4, 95),
        Field("creation", 4, 95, "the age in seconds"),
        Field("expire", 4, 97, "the seconds left"),
        Field("packets[2][2]", 16, 90, "two numbers of 64 bits"),
        Field("bytes[2][2]", 16, 90, "the same"),
        Field("creatorid", 4, 95),
        Field("af", 1, 95, "2 for IPv4, 28 for IPv6"),
        Field("proto", 1, 95),
        Field("direction", 1, 95, "1 in, 2 out"),
        Field("__spare[2]", 2, 85, "later versions have state_flags of 16 bits here"),
        Field("log", 1, 85),
        Field("state_flags", 1, 85, "0x10 asks for an acknowledgement (PFSTATE_ACK)"),
        Field("timeout", 1, 88, "the class of the timeout, PFTM_*"),
        Field("sync_flags", 1, 85),
        Field("updates", 1, 85),
    ),
)
SHORT_UPDATE = Layout(
    "pfsync_upd_c",
    (
        Field("id", 8, 95),
        Field("src", 32, 93, "a pfsync_state_peer"),
        Field("dst", 32, 93, "another"),
        Field("creatorid", 4, 93),
        Field("expire", 4, 93, "the seconds left"),
        Field("timeout", 1, 93, "the class of the timeout"),
        Field("_pad", 3, 90),
    ),
)
NAME = Layout(
    "pfsync_ins_ack, pfsync_upd_req, pfsync_del_c",
    (Field("id", 8, 95, "in a request 0 and 0 ask for all states"), Field("creatorid", 4, 95)),
)
CLEAR = Layout("pfsync_clr", (Field("ifname", 16, 93, "empty for all"), Field("creatorid", 4, 93)))
BULK_STATUS = Layout(
    "pfsync_bus",
    (
        Field("creatorid", 4, 93),
        Field("endtime", 4, 93, "the sender's uptime in seconds, or how long the update took"),
        Field("status", 1, 93, "1 start, 2 end"),
        Field("_pad", 3, 90),
    ),
)
TDB = Layout(
    "pfsync_tdb",
    (
        Field("spi", 4, 80),
        Field("dst", 28, 70, "a sockaddr_union"),
        Field("rpl", 4, 80),
        Field("cur_bytes", 8, 80),
        Field("sproto", 1, 80),
        Field("updates", 1, 80),
        Field("_pad", 2, 80),
    ),
)


class Action(NamedTuple):
    """A kind of records: its number, its name in the kernel, and the layout of a record."""

    number: int
    name: str
    layout: Layout


# The group that ends a message has a count and no records.
END = Action(12, "EOF", Layout("none", ()))
ACTIONS: Dict[int, Action] = {
    action.number: action
    for action in (
        Action(0, "CLR", CLEAR),
        Action(1, "INS", STATE),
        Action(2, "INS_ACK", NAME),
        Action(3, "UPD", STATE),
        Action(4, "UPD_C", SHORT_UPDATE),
        Action(5, "UPD_REQ", NAME),
        Action(6, "DEL", STATE),
        Action(7, "DEL_C", NAME),
        Action(10, "BUS", BULK_STATUS),
        Action(11, "TDB", TDB),
        END,
    )
}
