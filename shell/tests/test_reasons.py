"""`why`: the reason of each kind of reply to an event. The numbers are worked out by hand from docs/FORMATS.md."""
from __future__ import annotations

import unittest
from typing import Dict, List, Tuple
from unittest import mock

from ..console.colours import PLAIN
from ..depends.why import why_event, why_last
from ..language.events import read_packet
from ..link.laboratory import Unknown
from . import laboratory, reasons

WALLS = "rule a block any\nrule a pass out\nrule b block any\nrule b pass out\nopen\n"
OPEN = "rule a pass any flags any\nrule b pass any flags any\nopen\n"
QUERY = "step main packet a out udp 10.0.0.1:1000 192.0.2.9:53 40\n"
SECOND = "step main packet a out udp 10.0.0.2:1000 192.0.2.9:53 40\n"
# Flows of one far end to several addresses.
REDIRECTED = "step main packet a in udp 192.0.2.7:5000 203.0.113.{}:80 40\n"
ANSWER_AT_B = "step main packet b in udp 192.0.2.9:53 10.0.0.1:1000 80\n"
FLUSH = "step main flush a\n"
SYNC = "step main flush a\nstep main deliver 1\n"
# A connection: the source's lo is 5000 and its hi 5002; then the destination's lo is 9001, and the source's hi 5001 + 60000.
SYN = "step main packet a out tcp 10.0.0.1:1000 192.0.2.9:80 S 5000 0 65535 0 2\n"
SYN_ACK = "step main packet a in tcp 192.0.2.9:80 10.0.0.1:1000 SA 9000 5001 60000 0 3\n"
ACK = "step main packet a out tcp 10.0.0.1:1000 192.0.2.9:80 A {} {} 100 1000\n"
RESET = "step main packet a out tcp 10.0.0.1:1000 192.0.2.9:80 RA 5001 9001 100 0\n"
FIN = "step main packet a out tcp 10.0.0.1:1000 192.0.2.9:80 FA 5001 9001 100 0\n"
FAR_FIN = "step main packet a in tcp 192.0.2.9:80 10.0.0.1:1000 FA 9001 5002 60000 0\n"
LAST_ACK = "step main packet a out tcp 10.0.0.1:1000 192.0.2.9:80 A 5002 9002 100 0\n"
ANSWER = "step main packet a in udp 192.0.2.9:53 10.0.0.1:1000 80\n"
EXPIRED = (
    "state 1.1 expired at 60000 ms (last used at 0 ms, and udp.first is 60 s); "
    "the clock of a is at {} ms, and the state is still there because no purge has deleted it"
)
FLOW = "state 1.1 (udp 10.0.0.1:1000 -> 192.0.2.9:53)"
TCP_FLOW = "state 1.1 (tcp 10.0.0.1:1000 -> 192.0.2.9:80)"
# B restarts and asks for all states; the update goes out in frame 3.
BULK = "step main restart b\nstep main flush b\nstep main deliver 2\nstep main turn a\nstep main flush a\n"
ABSENT = f"node a has {FLOW} for this flow; b does not: "

# Of each case: a script, and lines of the reason of its last reply.
Cases = Dict[str, Tuple[str, List[str]]]

DROPS: Cases = {
    "block, the last rule": (WALLS + ANSWER_AT_B, ["rule 0 of b (block any) decided: it is the last rule that matches"]),
    "block, quick": (
        "rule a block in quick proto udp\nrule a pass any\nopen\nstep main packet a in udp 1.2.3.4:5 2.3.4.5:6 7",
        ["rule 0 of a (block in quick proto udp) decided: it is the first `quick` rule that matches"],
    ),
    "block, a rule with words that have no effect": (
        "rule a pass any\nrule a block out no-sync max 1 nat 203.0.113.1:9\nopen\n" + QUERY,
        ["rule 1 of a (block out no-sync max 1 nat 203.0.113.1:9) decided: it is the last rule that matches"],
    ),
    "block, but for its flags": (
        WALLS + "step main packet b out tcp 10.0.0.1:1000 192.0.2.9:80 A 1 2 3 4",
        [
            "rule 0 of b (block any) decided: it is the last rule that matches",
            "rule 1 of b (pass out) would pass it, but for its flags A",
            "a pass rule without `flags any` takes only a TCP packet that begins a connection: SYN without ACK",
        ],
    ),
    "block, the insertion was lost": (
        WALLS + QUERY + FLUSH + "step main lose 1\n" + ANSWER_AT_B,
        [ABSENT + "its insertion was lost in frame 1 (event 3)"],
    ),
    "block, the insertion is in flight": (
        WALLS + QUERY + FLUSH + ANSWER_AT_B,
        [ABSENT + "frame 1, which brings it (event 2), is still in flight"],
    ),
    "block, the insertion is queued": (
        WALLS + QUERY + ANSWER_AT_B,
        [ABSENT + "a has it on its insert queue, and has not sent it yet (`flush a`)"],
    ),
    "block, the frame of the insertion clears the state, by the kernel": (
        "kernel clear\n" + WALLS + QUERY + SYNC + "step main clear a\n" + SECOND + FLUSH + "step main deliver 2\n"
        + ANSWER_AT_B.replace("0.1:", "0.2:"),
        [
            ABSENT.replace("1.1", "1.2").replace("0.1:", "0.2:") + "its insertion in frame 2 was delivered (event 7): new: inserted; last used at 0 "
            "ms; then record 2 of that frame, a clear, cleared it (by kernel clear)"
        ],
    ),
    "block, the frame of the update clears the state": (
        # Its deletion is lost, and b's update makes a ask for it. Before that answer comes a clears its states; then b restarts, and asks for all.
        # Frame 7 has the state, the start and the end of the bulk update, and the clear.
        WALLS + QUERY + SYNC + "step main kill a 1.1\nstep main flush a\nstep main lose 2\n" + ANSWER_AT_B
        + "step main flush b\nstep main deliver 3\nstep main flush a\nstep main deliver 4\nstep main flush b\nstep main clear a\n"
        + "step main deliver 5\nstep main restart b\nstep main flush b\nstep main deliver 6\nstep main turn a\nstep main flush a\n"
        + "step main deliver 7\n" + ANSWER_AT_B,
        [
            ABSENT + "its update in frame 7 was delivered (event 20): new: inserted, since b did not know the state; last used at 0 ms; then "
            "record 4 of that frame, a clear, cleared it; before that it was there until event 15, `restart b` (boot 3)"
        ],
    ),
    "block, the insertion was cut": (
        WALLS + QUERY + FLUSH + "step main cut 1 50\nstep main deliver 1\n" + ANSWER_AT_B,
        [ABSENT + "frame 1, which brought it, could not be read (event 4: broken 3)"],
    ),
    "block, the state was killed": (
        WALLS + QUERY + SYNC + "step main kill b 1.1\n" + ANSWER_AT_B,
        [ABSENT + "it was there until event 4, `kill b 1.1` (killed)"],
    ),
    "block, the insertion was bad": (
        "set states 1\nrule a pass out\nrule b block in\nrule b pass out\nopen\n"
        + (QUERY + SECOND.replace(" a ", " b ") + SYNC)
        + ANSWER_AT_B,
        [
            ABSENT + "its insertion in frame 1 was delivered (event 4): "
            "bad: the state table of b is full: the limit `states` is 1"
        ],
    ),
    "block, the insertion came before a restart, and the update was lost": (
        WALLS + QUERY + SYNC + BULK + "step main lose 3\n" + ANSWER_AT_B,
        [ABSENT + "its update was lost in frame 3 (event 9); " "before that it was there until event 4, `restart b` (boot 3)"],
    ),
    "block, the update after a restart is in flight": (
        WALLS + QUERY + SYNC + BULK + ANSWER_AT_B,
        [
            ABSENT + "frame 3, which brings it (event 8), is still in flight; "
            "before that it was there until event 4, `restart b` (boot 3)"
        ],
    ),
    "block, the update after a restart is queued": (
        WALLS + QUERY + SYNC + BULK.replace("step main flush a\n", "") + ANSWER_AT_B,
        [
            ABSENT + "a has it on its update queue, and has not sent it yet (`flush a`); "
            "before that it was there until event 4, `restart b` (boot 3)"
        ],
    ),
    "block, two frames were lost": (
        # B hears neither the insertion nor what it asked for when the next update came.
        WALLS
        + QUERY
        + FLUSH
        + QUERY
        + FLUSH
        + "step main lose 1\nstep main deliver 2\nstep main flush b\nstep main deliver 3\nstep main flush a\nstep main lose 4\n"
        + ANSWER_AT_B,
        [ABSENT + "its update was lost in frame 4 (event 10)", "before that, its insertion was lost in frame 1 (event 5)"],
    ),
    "block, the copy of the insertion was lost after a kill": (
        WALLS + QUERY + FLUSH + "step main repeat 1\nstep main deliver 1\nstep main kill b 1.1\nstep main lose 2\n" + ANSWER_AT_B,
        [ABSENT + "its insertion was lost in frame 2 (event 6); before that it was there until event 5, `kill b 1.1` (killed)"],
    ),
    "block, the state expired, and then one to the same far end": (
        "rule a pass out\nrule b block in\nrule b pass out timeout udp.first 5\nopen\n"
        + (QUERY + SECOND).replace(" a ", " b ")
        + "step main kill b 2.1\nstep main tick b 5000\nstep main purge b\n"
        + ANSWER_AT_B,
        [f"node b had {FLOW.replace('1.1', '2.1', 1)} for this flow until event 3, `kill b 2.1` (killed); no node has one now"],
    ),
    "block, a translated state was killed": (
        # The answer comes to the end that the rule writes in the stead of the near one.
        "rule b block in\nrule b pass out nat 203.0.113.1:999\nopen\n"
        + QUERY.replace(" a ", " b ")
        + "step main kill b 2.1\n"
        + ANSWER_AT_B.replace("10.0.0.1:1000", "203.0.113.1:999"),
        [
            "node b had state 2.1 (udp 203.0.113.1:999 (10.0.0.1:1000) -> 192.0.2.9:53) for this flow until event 2, "
            "`kill b 2.1` (killed); no node has one now"
        ],
    ),
    "block, the peer gave it up": (
        WALLS + QUERY + SYNC + "step main clear a\nstep main flush a\nstep main deliver 2\n" + ANSWER_AT_B,
        [f"node b had {FLOW} for this flow until event 6, `deliver 2` (taken 1); no node has one now"],
    ),
    "block, the state is not told": (
        "rule a pass out no-sync\nrule b block any\nopen\n" + QUERY + ANSWER_AT_B,
        [ABSENT + "rule 0 of a (pass out no-sync) made it with `no-sync`, so a never sends it"],
    ),
    "block, the state expired at both": (
        "rule a pass out timeout udp.first 5\nrule b block any\nopen\n"
        + (QUERY + SYNC + "step main tick b 60000\nstep main purge b\nstep main flush b\nstep main deliver 2\n")
        + ANSWER_AT_B,
        [f"node b had {FLOW} for this flow until event 5, `purge b` (purged 1); no node has one now"],
    ),
    "block, the other way": (
        WALLS + QUERY + "step main packet a in udp 10.0.0.1:1000 192.0.2.9:53 40",
        [f"{FLOW} of a has these ends, but matches this packet only on its way out"],
    ),
    "max": (
        "rule a pass out max 1\nopen\n" + QUERY + SECOND,
        ["rule 0 of a (pass out max 1) decided: it may have 1 state, and has 1 now: 1.1"],
    ),
    "full": (
        "set states 1\nrule a pass out\nopen\n" + QUERY + SECOND,
        [
            "the state table of a has 1 entry, and the limit `states` is 1",
            "rule 0 of a (pass out) decided, and would make a state",
        ],
    ),
    "key": (
        "rule a pass out nat 203.0.113.1:999\nopen\n" + QUERY + SECOND,
        [
            "state 1.1 (udp 203.0.113.1:999 (10.0.0.1:1000) -> 192.0.2.9:53) of a has its wire key already: "
            "203.0.113.1:999 and 192.0.2.9:53"
        ],
    ),
    "key, all ports of a pool": (
        "rule a pass out nat 203.0.113.1:998:999\nopen\n" + QUERY + SECOND + SECOND.replace("10.0.0.2", "10.0.0.3"),
        [
            "all ports of the pool 203.0.113.1:998:999 are taken: with the last, state 1.2 (udp 203.0.113.1:999 (10.0.0.2:1000) -> "
            "192.0.2.9:53) of a has its wire key already: 203.0.113.1:999 and 192.0.2.9:53",
            "rule 0 of a (pass out nat 203.0.113.1:998:999) decided, and would make a state",
        ],
    ),
    "key, a pool and a protocol without ports": (
        "rule a pass out nat 203.0.113.1:998:999\nopen\n"
        + "step main packet a out 47 10.0.0.1:0 192.0.2.9:0 40\nstep main packet a out 47 10.0.0.2:0 192.0.2.9:0 40\n",
        [
            "state 1.1 (47 203.0.113.1:0 (10.0.0.1:0) -> 192.0.2.9:0) of a has its wire key already: 203.0.113.1:0 and 192.0.2.9:0",
            "rule 0 of a (pass out nat 203.0.113.1:998:999) decided, and would make a state",
        ],
    ),
    "key, a redirection": (
        "rule a pass in rdr 10.0.0.80:8080\nopen\n" + REDIRECTED.format(1) + REDIRECTED.format(2),
        [
            "state 1.1 (udp 10.0.0.80:8080 (203.0.113.1:80) <- 192.0.2.7:5000) of a has its stack key already: "
            "10.0.0.80:8080 and 192.0.2.7:5000"
        ],
    ),
    "key, all ports of a redirection": (
        "rule a pass in rdr 10.0.0.80:8080:8081\nopen\n" + "".join(REDIRECTED.format(it) for it in (1, 2, 3)),
        [
            "all ports of the pool 10.0.0.80:8080:8081 are taken: with the last, state 1.2 (udp 10.0.0.80:8081 (203.0.113.2:80) <- "
            "192.0.2.7:5000) of a has its stack key already: 10.0.0.80:8081 and 192.0.2.7:5000",
        ],
    ),
    "window, the right edge": (
        WALLS + SYN + SYN_ACK + ACK.format(126001, 9001),
        [
            "seq 126001 ends at 127001, 62000 above 65001 (hi of the source end)",
            f"{TCP_FLOW} of a matches it, and it comes from the source end",
            "packet: flags A seq 126001 ack 9001 win 100 len 1000",
            "source end: ESTABLISHED lo 5000 hi 65001 win 65535 wscale 2",
        ],
    ),
    "window, the left edge": (
        # 60000 at scale 3 is 480000, and 5000 less 480000 is 4294492296 in 32 bits.
        WALLS + SYN + SYN_ACK + ACK.format((5000 - 480000 - 100) % 2**32, 9001),
        [
            "seq 4294492196 begins 100 below 4294492296 (lo 5000 of the source end less the window 480000 (60000 at scale 3) "
            "of the destination end, mod 2^32)"
        ],
    ),
    "window, an acknowledgement ahead": (
        WALLS + SYN + SYN_ACK + ACK.format(5001, 9001 + 67036),
        ["ack 76037 is 1 above 76036 (lo 9001 of the destination end and 67035 more)"],
    ),
    "window, an acknowledgement behind": (
        # At the sender's scale 2 it may be 268140 behind.
        WALLS + SYN + SYN_ACK + ACK.format(5001, (9001 - 268141) % 2**32),
        ["ack 4294708156 is 1 below 4294708157 (lo 9001 of the destination end less 268140)"],
    ),
    "window, of a state that has expired": (
        WALLS + SYN + "step main tick a 120001\n" + ACK.format(126001, 9001),
        [
            "state 1.1 expired at 120000 ms (last used at 0 ms, and tcp.first is 120 s); "
            "the clock of a is at 120001 ms, and the state is still there because no purge has deleted it"
        ],
    ),
    "window, an update was lost": (
        WALLS
        + (SYN + SYNC + SYN_ACK + ACK.format(5001, 9001) + FLUSH + "step main lose 2\n")
        + ACK.format(6001, 9001).replace(" a ", " b "),
        [
            "seq 6001 ends at 7001, 1999 above 5002 (hi of the source end)",
            "node a has other numbers for state 1.1: the same packet at a gives `pass 1.1`",
            "the newest that a sent about it: its short update was lost in frame 2 (event 7)",
        ],
    ),
}

PASSES: Cases = {
    "a new state": (WALLS + QUERY, ["no state matched; rule 1 of a (pass out) passed it, and made state 1.1"]),
    "a known state": (
        WALLS + QUERY + QUERY,
        [f"{FLOW} of a matches it by its stack key; a packet of a state is not tested against rules"],
    ),
    "no rule": (
        "rule a block in\nopen\n" + QUERY,
        ["no rule of a matches it (a has 1 rule): a packet that no rule matches passes, without a state"],
    ),
    "no rule, but for its flags": (
        "rule a pass out\nopen\nstep main packet a out tcp 10.0.0.1:1000 192.0.2.9:80 A 1 2 3 4",
        [
            "no rule of a matches it (a has 1 rule): a packet that no rule matches passes, without a state",
            "rule 0 of a (pass out) would pass it, but for its flags A",
            "a pass rule without `flags any` takes only a TCP packet that begins a connection: SYN without ACK",
        ],
    ),
    "an answer from the end before a redirection": (
        "rule a pass in rdr 10.0.0.80:8080\nopen\n" + REDIRECTED.format(1) + "step main packet a out udp 203.0.113.1:80 192.0.2.7:5000 80",
        [
            "no rule of a matches it (a has 1 rule): a packet that no rule matches passes, without a state",
            "state 1.1 (udp 10.0.0.80:8080 (203.0.113.1:80) <- 192.0.2.7:5000) of a is translated: "
            "on the way out its stack key counts, with 10.0.0.80:8080, and the packet has 203.0.113.1:80",
        ],
    ),
    "a new connection": (
        OPEN + SYN + SYN_ACK + RESET + SYN,
        [f"{TCP_FLOW} was closed at both ends, and this packet begins a new connection, so the state was deleted first"],
    ),
    "a reset closes the state": (
        OPEN + SYN + SYN_ACK + RESET,
        ["it closes the state: ESTABLISHED:SYN_SENT -> TIME_WAIT:TIME_WAIT"],
    ),
    "the first FIN": (OPEN + SYN + SYN_ACK + FIN, ["it begins to close the state: ESTABLISHED:SYN_SENT -> CLOSING:ESTABLISHED"]),
    "the second FIN": (
        OPEN + SYN + SYN_ACK + FIN + FAR_FIN,
        ["it continues to close the state: CLOSING:ESTABLISHED -> FIN_WAIT_2:CLOSING"],
    ),
    "the acknowledgement of the second FIN": (
        OPEN + SYN + SYN_ACK + FIN + FAR_FIN + LAST_ACK,
        ["it closes the state: FIN_WAIT_2:CLOSING -> FIN_WAIT_2:FIN_WAIT_2"],
    ),
    "a state that has expired": (WALLS + QUERY + "step main tick a 60000\n" + ANSWER, [EXPIRED.format(60000)]),
    # With two states half of each timeout is left.
    "a state that has expired among two": (
        "set astart 1\nset aend 3\n" + WALLS + QUERY + SECOND + "step main tick a 30000\n" + QUERY,
        [
            "state 1.1 expired at 30000 ms (last used at 0 ms, and udp.first is 60 s, scaled to 30 s); "
            "the clock of a is at 30000 ms, and the state is still there because no purge has deleted it"
        ],
    ),
    "the peer would block it, since the state was not sent": (
        WALLS + QUERY + ANSWER,
        [
            "the same packet at b gives `drop block`; b does not have state 1.1: "
            "a has it on its insert queue, and has not sent it yet (`flush a`)"
        ],
    ),
    "the peer would block it, since the state has not arrived": (
        WALLS + QUERY + FLUSH + ANSWER,
        ["the same packet at b gives `drop block`; b does not have state 1.1"],
    ),
    "the peer would block it, since the state is not told": (
        "rule a pass out no-sync\nrule b block any\nopen\n" + QUERY + ANSWER,
        ["the same packet at b gives `drop block`; b does not have state 1.1: its rule says `no-sync`"],
    ),
    "the peer would make a state of its own": (
        OPEN + QUERY + FLUSH + ANSWER,
        ["the same packet at b gives `pass 2.1`; b does not have state 1.1"],
    ),
    "the peer has older numbers": (
        # There the source's hi is 5002, and the second segment ends at 7001.
        WALLS + SYN + SYNC + SYN_ACK + ACK.format(5001, 9001) + ACK.format(6001, 9001),
        [
            "node b has other numbers for state 1.1: the same packet at b gives `drop window`",
            "a has it on its short update queue, and has not sent it yet (`flush a`)",
        ],
    ),
    "the peer's rules would block it": (
        "rule a pass out\nrule b block any\nopen\n" + QUERY,
        ["the same packet at b gives `drop block`: rule 0 of b (block any) decides there"],
    ),
    "held": (
        "set defer 1\n" + WALLS + "step main tick a 100\n" + QUERY,
        ["or it goes out with the next packet of the state, or once it is due: `release a` from 120 ms on a's clock"],
    ),
    "held, and another let go": (
        "set defer 1\nset held 1\n" + WALLS + QUERY + SECOND,
        ["the packet of 1.1 went out at once: a held 1, and the limit `held` is 1"],
    ),
}

REFUSALS: Cases = {
    "no such frame": (
        WALLS + QUERY + FLUSH + "step main lose 1\nstep main deliver 1",
        ["no frame in flight has the ticket 1; in flight: none", "frame 1 was lost by event 3"],
    ),
    "not sent yet": (
        WALLS + QUERY + FLUSH + "step main deliver 7",
        [
            "no frame in flight has the ticket 7; in flight: 1 (to b)",
            "frame 7 has not been sent yet: the next frame gets the ticket 2",
        ],
    ),
    "nothing to send": (
        WALLS + FLUSH,
        ["node a has nothing to send: no state is queued, and no request, bulk status or clear is listed"],
    ),
    "nothing held": (WALLS + "step main release a", ["node a holds no packet, so there is none to release"]),
    "no such state": (WALLS + QUERY + "step main kill a 1.2", ["node a has no state 1.2", "it has 1.1; nearest: 1.1"]),
    "a state of the peer": (WALLS + QUERY + "step main kill b 1.1", ["its table is empty", "node a has a state 1.1"]),
    "link full": (
        "set frames 1\n" + WALLS + QUERY + FLUSH + SECOND + FLUSH,
        ["the link carries 1 frame, and the limit `frames` is 1"],
    ),
    "queue full": (
        "set queue 1\n" + WALLS + QUERY + SECOND,
        [
            "during the event more would be pending at a than allowed: the limit `queue` is 1",
            "pending before it: 1 (1 state, 0 requests, 0 bulk statuses, 0 clears)",
        ],
    ),
    "clock full": (
        WALLS + "step main tick a 999999999999\nstep main tick a 2",
        [
            "the clock of a is at 999999999999 ms, and 2 ms more would pass its maximum, 1000000000000 ms",
            "it can advance by 1 ms at most",
        ],
    ),
    "serving nobody": (
        WALLS + "step main turn a",
        ["node a serves no bulk update: nobody has asked it for all its states, or all are sent"],
    ),
    "waiting for nothing": (
        WALLS + "step main retry a",
        ["node a waits for no bulk update: it has asked for none, or the end of the update has come"],
    ),
    "too early to release": (
        "set defer 1\n" + WALLS + QUERY + "step main tick a 15\nstep main release a",
        [
            "the oldest packet that a holds (of state 1.1) is due at 20 ms: it has waited since 0 ms, and `defer_ms` is 20 ms",
            "the clock of a is at 15 ms: `tick a 5` first",
        ],
    ),
    "too early to retry": (
        WALLS + "step main restart a\nstep main tick a 1\nstep main retry a",
        [
            "a can ask for all states again at 10000 ms: it has waited since 0 ms, and `bulk_ms` is 10000 ms",
            "the clock of a is at 1 ms: `tick a 9999` first",
        ],
    ),
}

COMMANDS: Cases = {
    "no branch": (WALLS + "step man flush a", ["there is no branch man; did you mean main?", "the branches: main"]),
    "name taken": (WALLS + "fork main 0 main", ["there is a branch main already"]),
    "bad name, its first letter": (WALLS + "fork main 0 X", ["`X` begins with `X`"]),
    "bad name, another letter": (WALLS + "fork main 0 a_b", ["`a_b` has a `_`"]),
    "bad name, too long": (WALLS + "fork main 0 abcdefghijklmnopq", ["`abcdefghijklmnopq` has 17 characters"]),
    "too far back": (WALLS + QUERY + "back main 3", ["3 events cannot be undone: main has 1 event before the cursor"]),
    "nothing forward": (
        WALLS + QUERY + "back main 1\nforward main 2",
        ["2 events cannot happen again: 1 undone event of main is after the cursor"],
    ),
    "a fork of too many": (WALLS + QUERY + "fork main 2 x", ["main has 1 event, which is less than 2"]),
    "a place after all events": (WALLS + QUERY + "past main 2", ["main has 1 event, which is less than 2"]),
    "last branch": (WALLS + "drop main", ["main is the only branch, and one has to remain: fork another one first"]),
    "branches full": (
        WALLS + "".join(f"fork main 0 b{it}\n" for it in range(16)),
        ["there are 16 branches, and at most 16 are possible: `drop` one first"],
    ),
    "no event 0": (WALLS + QUERY + "excise main 0", ["events are counted from 1"]),
    "no event": (WALLS + QUERY + "excise main 2", ["main has 1 event: there is no event 2"]),
    "no frame": (WALLS + QUERY + FLUSH + "frame main 2", ["no event of main sent a frame under the ticket 2: its events sent 1 frame, the last under the ticket 1"]),
    "no frame at all": (WALLS + "frame main 1", ["no event of main sent a frame under the ticket 1: its events sent none"]),
    "nothing excised": (
        WALLS + "restore main",
        ["main has nothing to bring back: no event was taken out, or an event was accepted or restored since"],
    ),
    "an excision": (
        WALLS + QUERY + FLUSH + "step main deliver 1\nexcise main 1",
        [
            "without event 1, events 2 and 3 of main (by their places in the list as it was) would be refused, and fell out too",
            "`restore main` brings all of them back, until an event is accepted",
        ],
    ),
    "an excision alone": (
        WALLS + QUERY + SECOND + "excise main 1",
        ["every other event of main was accepted without event 1 as well, so none fell out with it"],
    ),
    "a faulty line": (WALLS + "step main flush c", ["expected `a` or `b`, found `c`", "expected: step BRANCH flush NODE"]),
}

# Three flows, of which the second one has five seconds.
HALVED = "set astart 2\nset aend 4\nrule a pass out\nrule a pass out from 10.0.0.2/32 timeout udp.first 5\nopen\n"
THIRD = "step main packet a out udp 10.0.0.3:1000 192.0.2.9:53 40\n"

PURGES: Cases = {
    "nothing has expired": (
        WALLS + QUERY + "step main tick a 59999\nstep main purge a",
        ["the clock of a is at 59999 ms", "1 state remains; it expires at 60000 ms"],
    ),
    "the last state": (
        WALLS + QUERY + "step main tick a 60000\nstep main purge a",
        [f"{FLOW} expired at 60000 ms: last used at 0 ms, and udp.first is 60 s", "no states remain"],
    ),
    "timeouts of a rule and of the setup": (
        "set timeout udp.first 7\n" + HALVED.replace("aend 4", "aend 0") + QUERY + SECOND + "step main tick a 7000\nstep main purge a",
        [
            "state 1.2 (udp 10.0.0.2:1000 -> 192.0.2.9:53) expired at 5000 ms: "
            "last used at 0 ms, and udp.first is 5 s (rule 1 of a)",
            f"{FLOW} expired at 7000 ms: last used at 0 ms, and udp.first is 7 s (`set timeout`)",
        ],
    ),
    # Half of five seconds is two whole ones. The two that are left have all of their 60.
    "three states, whose timeouts are halved": (
        HALVED + QUERY + SECOND + THIRD + "step main tick a 2000\nstep main purge a",
        [
            "timeouts of a are scaled by 1/2: it has 3 states, `astart` is 2, `aend` 4",
            "state 1.2 (udp 10.0.0.2:1000 -> 192.0.2.9:53) expired at 2000 ms: "
            "last used at 0 ms, and udp.first is 5 s (rule 1 of a), scaled to 2 s",
            "2 states remain; the next expires at 60000 ms",
            "timeouts of a are no longer scaled: it has 2 states",
        ],
    ),
    # Behind the purge there are two states in place of three: two thirds are left, where it was one.
    "fewer states, and timeouts still scaled": (
        HALVED.replace("astart 2", "astart 1") + QUERY + SECOND + THIRD + "step main tick a 1000\nstep main purge a",
        [
            "timeouts of a are scaled by 1/3: it has 3 states, `astart` is 1, `aend` 4",
            "2 states remain; the next expires at 40000 ms",
            "timeouts of a are scaled by 2/3: it has 2 states, `astart` is 1, `aend` 4",
        ],
    ),
    "as many states as the limit says": (
        "set states 1\n" + WALLS + QUERY + "step main purge a",
        [
            "timeouts of a are all 0 s: it has 1 state, `astart` is 0, `aend` 1",
            f"{FLOW} expired at 0 ms: last used at 0 ms, and udp.first is 60 s, scaled to 0 s",
            "no states remain",
        ],
    ),
}

LOST = "dropped, and counted (held packets lost with their state)"
# What becomes of the packets that node a holds.
HELD: Cases = {
    "purged": (
        "set defer 1\n" + WALLS + QUERY + "step main tick a 60000\nstep main purge a",
        [f"the held packet of 1.1 is {LOST}"],
    ),
    "killed": ("set defer 1\n" + WALLS + QUERY + SECOND + "step main kill a 1.2", [f"the held packet of 1.2 is {LOST}"]),
    "cleared": ("set defer 1\n" + WALLS + QUERY + SECOND + "step main clear a", [f"the held packets of 1.1, 1.2 are {LOST}"]),
}

SENDS: Cases = {
    "a clear of no state": (
        WALLS + "step main clear a",
        ["a has no state to clear", "a clear is listed: b is to clear those of boot 1 up to id 0"],
    ),
    "a clear, by the kernel": (
        "kernel clear\n" + WALLS + QUERY + "step main clear a",
        ["a clear is listed: b is to clear all of boot 1, by kernel clear also past id 1"],
    ),
    "a third clear before a flush": (
        WALLS + QUERY + "step main clear a\nstep main clear a\nstep main clear a",
        [
            "a clear is listed: b is to clear those of boot 1 up to id 1; "
            "it comes after 2 clears that a has not sent yet, and each is a record of its own"
        ],
    ),
    # The header and an insertion fill a frame of 148 bytes.
    "what a flush leaves": (
        "set mtu 148\n" + WALLS + QUERY + SECOND + "step main clear b\nstep main kill a 1.2\n" + SECOND + FLUSH,
        ["still pending, for the next frame: insert 1.3; the limit `mtu` is 148"],
    ),
}

WITHOUT_SETUP: Cases = {
    "block": (
        WALLS + QUERY + FLUSH + "step main lose 1\n" + ANSWER_AT_B,
        ["rule 0 of b decided", ABSENT + "its insertion was lost in frame 1 (event 3)"],
    ),
    "no rule": ("open\n" + QUERY, ["no rule of a matches it: a packet that no rule matches passes, without a state"]),
    "max": (
        "rule a pass out max 1\nopen\n" + QUERY + SECOND,
        ["rule 0 of a decided: it may have 1 state, and has 1 now: 1.1"],
    ),
    "held": (
        "set defer 1\n" + WALLS + "step main tick a 100\n" + QUERY,
        [
            "no state matched; rule 1 of a passed it, and made state 1.1",
            "`defer` is on: the packet of a new state waits on its way out until the peer acknowledges the insertion",
            "or it goes out with the next packet of the state, or once it is due: `release a` from `defer_ms` after 100 ms on a's clock",
        ],
    ),
}


class Reasons(unittest.TestCase):
    def check(self, cases: Cases) -> None:
        for name, (script, expected) in cases.items():
            with self.subTest(name):
                lines = reasons(script)
                for line in expected:
                    self.assertIn(line, lines)
                self.assertNotRegex(" ".join(lines), "cannot say|knows no more")

    def test_drops(self) -> None:
        self.check(DROPS)

    def test_passes(self) -> None:
        self.check(PASSES)

    def test_held_packets_of_states_that_go(self) -> None:
        self.check(HELD)

    def test_what_is_listed_and_left(self) -> None:
        self.check(SENDS)

    def test_a_packet_that_the_peer_passes_by_the_same_state(self) -> None:
        """Nothing is said of the peer, nor of a timeout that has a millisecond left."""
        known = [f"{FLOW} of a matches it by its stack key; a packet of a state is not tested against rules"]
        self.assertEqual(reasons(WALLS + QUERY + SYNC + "step main tick a 59999\n" + QUERY), known)

    def test_refusals(self) -> None:
        self.check(REFUSALS)

    def test_commands(self) -> None:
        self.check(COMMANDS)

    def test_purges(self) -> None:
        self.check(PURGES)

    def test_a_purge_tells_the_first_to_expire_first(self) -> None:
        told = [reason.split(" (")[0] for reason in reasons(HALVED + QUERY + SECOND + "step main tick a 60000\nstep main purge a")]
        self.assertEqual(told, ["the clock of a is at 60000 ms", "state 1.2", "state 1.1", "no states remain"])
        # A fourth state: each timeout is 0, and all expire at one time.
        told = reasons(HALVED + QUERY + SECOND + THIRD + THIRD.replace("10.0.0.3", "10.0.0.4") + "step main purge a")
        self.assertEqual([it.split(" (")[0] for it in told[2:]], [*(f"state 1.{it}" for it in range(1, 5)), "no states remain"])

    def test_the_outcome_comes_first(self) -> None:
        lab = laboratory(WALLS + ANSWER_AT_B)
        self.addCleanup(lab.close)
        self.assertEqual(why_last(lab, PLAIN)[0], "packet b in udp 192.0.2.9:53 10.0.0.1:1000 80: drop block")

    def test_an_event_in_the_middle_is_explained_as_it_was(self) -> None:
        lab = laboratory(WALLS + ANSWER_AT_B + QUERY + SYNC + ANSWER_AT_B)
        self.addCleanup(lab.close)
        branch = lab.branch("main")
        self.assertEqual(why_event(lab, branch, 1, PLAIN)[0].split(": ")[1], "drop block")
        self.assertEqual(why_event(lab, branch, 5, PLAIN)[0].split(": ")[1], "pass 1.1")
        self.assertRaises(Unknown, why_event, lab, branch, 6, PLAIN)

    def test_an_event_that_came_since_is_told(self) -> None:
        lab = laboratory(WALLS + QUERY)
        self.addCleanup(lab.close)
        lab.branch("main")
        assert lab.session
        # As another session of a server does it.
        lab.session.ask("step main flush a")
        first, second, *_ = why_last(lab, PLAIN)
        self.assertEqual(first, "another session has changed main since; its newest event is this:")
        self.assertEqual(second, "flush a: sent 1 148")

    def test_a_new_connection_misses_no_state(self) -> None:
        lab = laboratory(OPEN + SYN + SYNC + SYN_ACK + RESET + SYN)
        self.addCleanup(lab.close)
        self.assertNotIn("other keys", "\n".join(why_last(lab, PLAIN)))

    def test_refusals_of_a_server_without_its_setup(self) -> None:
        """The program says which numbers stand against them, limits too."""
        cases: Cases = {
            "deliver": (WALLS + FLUSH.replace("flush a", "deliver 9"), ["no frame in flight has the ticket 9; in flight: none"]),
            "flush": REFUSALS["nothing to send"],
            "kill": REFUSALS["a state of the peer"],
            "retry": REFUSALS["too early to retry"],
            "packet": REFUSALS["queue full"],
        }
        for name, (script, expected) in cases.items():
            with self.subTest(name):
                lab = laboratory(script)
                lab.knows_setup, lab.is_own = False, False
                lines = [it.strip() for it in why_last(lab, PLAIN)]
                lab.close()
                for line in [*expected, "this is from the branch as it is now, which other sessions may have changed since"]:
                    self.assertIn(line, lines)

    def test_an_accepted_event_of_a_server_without_its_setup(self) -> None:
        """All but the words of rules, and what only another run could tell."""
        for name, (script, expected) in WITHOUT_SETUP.items():
            with self.subTest(name):
                lab = laboratory(script)
                lab.knows_setup = False
                with mock.patch.object(lab, "run") as ran:
                    self.assertEqual([it.strip() for it in why_last(lab, PLAIN)[1:]], expected)
                ran.assert_not_called()
                lab.close()

    def test_a_new_flow_after_many_events_is_not_looked_for_in_shows(self) -> None:
        lab = laboratory(WALLS + (QUERY + SECOND) * 20 + ANSWER_AT_B.replace("192.0.2.9", "192.0.2.77"))
        self.addCleanup(lab.close)
        with mock.patch.object(lab, "past", wraps=lab.past) as shown:
            self.assertEqual(why_last(lab, PLAIN)[1:], ["  rule 0 of b (block any) decided: it is the last rule that matches"])
        self.assertEqual([it.args for it in shown.call_args_list], [("main", 40)])

    def test_nothing_was_asked(self) -> None:
        self.assertRaises(Unknown, why_last, laboratory("open"), PLAIN)


class Many(unittest.TestCase):
    """A packet after many others."""

    def test_packets_of_other_flows_to_the_same_far_end_are_not_read(self) -> None:
        others = "".join(QUERY.replace(":1000", f":{port}") for port in range(2000, 2050))
        with mock.patch("shell.reasons.absence.read_packet", side_effect=read_packet) as reads:
            its = reasons(WALLS + others + QUERY)
        self.assertEqual((its[0], reads.call_count), ("no state matched; rule 1 of a (pass out) passed it, and made state 1.51", 0))


if __name__ == "__main__":
    unittest.main()
