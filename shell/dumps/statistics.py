"""The counters that `netstat -s -p pfsync` prints: `pfsync_stats` of FreeBSD 13, as recalled from its sources."""
from __future__ import annotations

import re
from itertools import chain, product
from typing import Dict, List, NamedTuple, Sequence, Tuple

from ..console.colours import Paint
from ..language.names import COUNTERS
from ..shows.words import counted

SECTION = "pfsync:"
COUNT = re.compile(r"(\d{1,20})\s+([a-zA-Z].*)", re.ASCII)
# The words that have a plural when counted: `1 packet received`, `0 packets received`.
_PLURAL = re.compile(r"\b(packet|state|insert|ack|update|request|delete|mark|failure|error)s\b", re.ASCII)
_FAMILIES = ("IPv4", "IPv6")
_WAYS = (("a", "b"), ("b", "a"))


def title(text: str) -> str:
    """The singular of a counter's text; a bracket may be misplaced."""
    return _PLURAL.sub(r"\1", re.sub(r"[(){}]", "", text)).strip()


class Counter(NamedTuple):
    """What a counter above 0 means; the laboratory's counter for it, if there is one; and a lesson."""

    meaning: str
    counts: str = ""
    lesson: str = ""


_FOREIGN = "the frame was not read, and what it said is lost"
COUNTED: Dict[str, Counter] = {
    "packet discarded for bad interface": Counter("frames came in on an interface other than `syncdev`"),
    "packet discarded for bad ttl": Counter("frames came with a TTL other than 255, so they were routed, or forged"),
    "packet shorter than header": Counter(f"frames were cut: {_FOREIGN}", "broken", "lost-insertion.pfl"),
    "packet discarded for bad version": Counter(f"the peer sends another version of pfsync: {_FOREIGN}", "broken"),
    "packet discarded for bad HMAC": Counter(f"the frame's authentication was wrong: {_FOREIGN}"),
    "packet discarded for bad authentication": Counter(f"the frame's authentication was wrong: {_FOREIGN}"),
    "packet discarded for bad action": Counter(f"frames had a message of an unknown kind: {_FOREIGN}", "broken"),
    "packet discarded for short packet": Counter(f"frames ended within a message: {_FOREIGN}", "broken", "lost-insertion.pfl"),
    "state discarded for bad values": Counter("a message had values that no state has, such as an unknown level", "broken"),
    "stale state": Counter("updates were older than the state, which stayed as it was", "stale", "asymmetric-routing.pfl"),
    "failed state lookup/insert": Counter(
        "messages were about a state that the node did not have, or brought one that it could not take", "bad", "split-brain.pfl"
    ),
    "failure due to mbuf memory error": Counter("frames were not sent for want of memory: they are lost", lesson="lost-insertion.pfl"),
    "send failed due to mbuf memory error": Counter("frames were not sent for want of memory: they are lost", lesson="lost-insertion.pfl"),
    "send error": Counter("frames could not be sent: they are lost", lesson="lost-insertion.pfl"),
}
_NAMES = {it.name: it.counts for it in COUNTERS}


def report(counters: Dict[str, Dict[str, int]], paint: Paint) -> List[str]:
    """What the counters of both nodes say, by node; nothing if neither has any."""
    if not any(counters.values()):
        return []
    lines = [paint.head("pfsync counters of a and b")]
    lines += [f"  {node} has none in its files" for node, its in counters.items() if not its]
    lines += chain.from_iterable(_on_the_way(family, way, counters, paint) for family, way in product(_FAMILIES, _WAYS))
    said = [it for it in COUNTED if any(its.get(it) for its in counters.values())]
    lines += [f"  {_numbers(it, counters)}: {_meaning(COUNTED[it])}" for it in said]
    if not said:
        lines.append("  no counter of a fault is above 0")
    return lines


def _on_the_way(family: str, way: Tuple[str, str], counters: Dict[str, Dict[str, int]], paint: Paint) -> List[str]:
    """How many frames one node sent and the other received."""
    sender, receiver = way
    sent, received = counters[sender].get(f"packet sent {family}"), counters[receiver].get(f"packet received {family}")
    if sent is None or received is None or not sent | received:
        return []
    line = f"  {counted(sent, 'frame')} sent by {sender} over {family}, {received} received by {receiver}"
    lost = f"{sent - received} fewer: lost, if both count since the same time (lesson lost-insertion.pfl)"
    return [line + (f"; {paint.note(lost)}" if sent > received else "")]


def _numbers(name: str, counters: Dict[str, Dict[str, int]]) -> str:
    """A counter of both nodes, as diff prints what differs."""
    texts: Sequence[str] = [str(its[name]) if name in its else "not there" for its in counters.values()]
    return f"{' | '.join(texts)} {name}"


def _meaning(counter: Counter) -> str:
    known = f"; in the laboratory \"{_NAMES[counter.counts]}\" (`{counter.counts}`)" if counter.counts else ""
    return counter.meaning + known + (f"; lesson {counter.lesson}" if counter.lesson else "")
