"""Words of a pf.conf(5) that the language does not have, and what to write instead."""
from __future__ import annotations

from .forms import ACTION, ANY, NET

# The words that begin a rule of a pf.conf.
RULES = ("pass", "block", "match")
_OPTIONS = {
    "port": "a port is `fport PORTS` after `from`, `tport PORTS` after `to`",
    "nat-to": "the translation is `nat POOL`, on a rule that is `out`",
    "rdr-to": "the redirection is `rdr POOL`, on a rule that is `in`",
    "keep": "a pass rule always keeps state",
    "on": "a node has no interfaces",
    "log": "nothing is logged",
    "inet": "the family is that of the nets",
    "inet6": "the family is that of the nets",
    "return": "a block rule sends nothing back",
    "all": "a rule without `from` and `to` is for all",
}


def hint(word: str, wanted: str = "") -> str:
    """What to write instead of a word of a pf.conf, when a form of this name is expected, or if none is named, an option of a rule;
    empty if nothing is known about the word."""
    if word.startswith("{"):
        return "there are no lists; write a rule for each member"
    if wanted == NET.name:
        return _of_nets(word)
    if wanted == ACTION.name and word == "match":
        return "a rule here passes or blocks"
    if wanted == ANY.name and "/" in word:
        return "leave it out for `flags S/SA`; of TCP, a rule without `flags` matches only a SYN without ACK"
    return "" if wanted else _OPTIONS.get(word, "")


def _of_nets(word: str) -> str:
    if word == "any":
        return "leave out `from any` and `to any`; a rule without them is for all"
    if word.startswith("!"):
        return "there is no `!`; write a rule for all, and after it one for the net, since the last rule that matches decides"
    return "there are no tables; write a rule for each net" if word.startswith("<") else ""
