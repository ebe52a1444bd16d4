"""The comments that an import writes above the lines of a setup, each with its place in the pf.conf: FILE:LINE, and pf's number @N; and
if a translation comes first, its kind and place."""
from __future__ import annotations

import re

LONGEST_TEXT = 100
_KIND = "(?:no )?(?:nat|rdr|binat)"
_TRANSLATED = rf"(?:, {_KIND} \S+:[0-9]+:)?"
_STATEMENT = r"(?:pass|block|antispoof)\b"
# In an anchor the number is after those of the rules that the anchor is.
_NUMBER = r"@[0-9]+(?:\.[0-9]+)*"
_ORIGIN = re.compile(rf"# (?P<place>\S+:[0-9]+ {_NUMBER}{_TRANSLATED}) {_STATEMENT}")
_OF_NO_RULE = "where no rule matches: "
_ORIGIN_OF_TRANSLATION = re.compile(rf"# (?P<place>\S+:[0-9]+) (?:{_OF_NO_RULE})?(?:{_KIND}|match)\b")
_OF_RULE = rf"{_NUMBER}{_TRANSLATED} (?:matches nothing: )?{_STATEMENT}"
_OTHERS = rf"set |approximated: |out: |ifconfig_pfsync0=|pfsync_ifconfig=|{_OF_NO_RULE}|match\b|{_KIND}\b"
_OURS = re.compile(rf"# \S+:[0-9]+ (?:{_OF_RULE}|{_OTHERS})")


def origin(line: str) -> str:
    """Where the rules below a comment are from, as `pf.conf:21 @7`, `pf.conf:21 @7, nat pf.conf:12` or, if no rule of the filter is
    asked or matches, `pf.conf:12`; empty for any other line."""
    found = _ORIGIN.match(line) or _ORIGIN_OF_TRANSLATION.match(line)
    return found["place"].rstrip(":") if found else ""


def is_of_import(line: str) -> bool:
    """Whether an import wrote a comment, above a line of a setup or instead of one."""
    return _OURS.match(line) is not None


def of_rule(where: str, number: str, text: str, matches: bool = True) -> str:
    """The comment above the lines of one of pf's rules, or instead of them if it matches nothing."""
    return f"# {where} @{number} {'' if matches else 'matches nothing: '}{short(text)}"


def of_translated(where: str, number: str, text: str, kind: str, translation: str) -> str:
    """The comment above the lines of one of pf's rules for the packets of a translation."""
    return f"# {where} @{number}, {kind} {translation}: {short(text)}"


def of_no_rule(where: str, text: str) -> str:
    """The comment above the lines of a translation for what no rule matches."""
    return f"# {where} {_OF_NO_RULE}{short(text)}"


def of_statement(where: str, text: str) -> str:
    """The comment above what a statement sets."""
    return f"# {where} {short(text)}"


def of_reason(where: str, verdict: str, reason: str) -> str:
    """The comment that says what is lost, or why a statement is out."""
    return f"# {where} {verdict}: {reason}"


def short(text: str) -> str:
    return text if len(text) <= LONGEST_TEXT else f"{text[: LONGEST_TEXT - 2]}.."
