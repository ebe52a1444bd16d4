"""Reads the proofs of a script: which of its lines are faulty or refused, each with the reason in words."""
from __future__ import annotations

from contextlib import closing
from dataclasses import dataclass
from typing import Dict, List, Mapping, Sequence, Set

from ..console.colours import PLAIN
from ..language.lines import content_of, opens
from ..link.laboratory import Laboratory, Unknown
from ..link.programs import Ended, SetupFault, run_lines, setup_fault
from ..model.setups import Setup

BAD, REFUSED = KINDS = ("bad", "refused")


@dataclass(frozen=True)
class Slip:
    """A line of a script that is faulty or refused, by its number, and why."""

    line: int
    why: str

    def __str__(self) -> str:
        return f"line {self.line}: {self.why}"


def _fault_in_words(line: str, fault: str) -> str:
    """What is wrong with a faulty line."""
    # (what explains is imported where something is wrong)
    from ..reasons.faulty import explain_fault

    return explain_fault(line, fault)[0]


def setup_slip(fault: SetupFault, script: Sequence[str]) -> Slip:
    """A fault of the setup of a script."""
    line = content_of(script[fault.line - 1]) if 1 <= fault.line <= len(script) else ""
    return Slip(fault.line, _fault_in_words(line, fault.fault))


def faulty(program: str, script: Sequence[str]) -> List[Slip]:
    """The lines of a script that the program finds faulty, which are known before any of it happens."""
    checked = run_lines(program, script, "check")
    fault = setup_fault(checked.faults)
    found = [setup_slip(fault, script)] if fault else []
    for reply in checked.replies:
        kind, number, *words = reply[0].split()
        if kind == "line":
            found.append(Slip(int(number), _fault_in_words(content_of(script[int(number) - 1]), " ".join(words))))
    return found


def kind_of(reply: Sequence[str]) -> str:
    """Whether a reply says that its line is faulty, or refused; empty if it says neither."""
    word = reply[0].split(" ")[0] if reply else ""
    return word if word in KINDS else ""


def slips(program: str, script: Sequence[str], replies: Mapping[int, Sequence[str]], known: Set[int]) -> List[Slip]:
    """The lines that were answered as faulty or refused, by the replies to lines of the script; not those that are known to be so."""
    wrong = {number: reply[0] for number, reply in replies.items() if kind_of(reply) and number not in known}
    refused = [number for number, reply in wrong.items() if kind_of([reply]) == REFUSED]
    why = _why_refused(program, script, max(refused), {*refused}) if refused else {}
    for number, reply in wrong.items():
        if number not in why:
            why[number] = _fault_in_words(content_of(script[number - 1]), reply) if kind_of([reply]) == BAD else reply
    return [Slip(number, why[number]) for number in sorted(wrong)]


def _why_refused(program: str, script: Sequence[str], last: int, asked: Set[int]) -> Dict[int, str]:
    """Why lines of a script are refused: it is run up to the last of them, and asked after each. A line that cannot be explained is left
    out."""
    from ..reasons.explained import explained_last

    found: Dict[int, str] = {}
    begin = next(number for number, line in enumerate(script, 1) if opens(line))
    with closing(Laboratory(program, setup=Setup.of([content_of(line) for line in script[: begin - 1]]))) as lab:
        lab.open()
        for number, line in enumerate(script[begin:last], begin + 1):
            try:
                lab.ask(content_of(line))
                if number in asked:
                    found[number] = explained_last(lab, PLAIN)[1].strip()
            except (Ended, Unknown, IndexError):
                return found
    return found
