"""`./lab import`: a pf.conf as a setup of the laboratory."""
from __future__ import annotations

import sys
from typing import Iterable, List, Optional

from ..console.characters import legible
from ..console.endings import STRICT_STATUS
from ..console.fitting import columns_of, fitted
from ..language.names import NODES
from .asked import ImportOptions
from .firewall import Firewall
from .importer import imported
from .judged import Verdict
from .rc import Rc, of_rc
from .sources import Sources
from .writing import first_too_many, report, setup_lines


def carry_out(words: ImportOptions) -> int:
    """Writes the setup, and reports on standard error what is not exact; returns the status."""
    rc = of_rc(words.rc) if words.rc else Rc()
    its = imported(firewall_of(words), list(Sources().lines(words.conf)), words.about)
    too_many = first_too_many(its)
    if too_many:
        say([too_many])
        return 1
    say([*report(its, words.conf), *rc.said])
    if words.strict and (rc.is_out or any(it.verdict is Verdict.OUT for it in its.judged)):
        say([f"{legible(words.conf)}: nothing is written, since statements are left out (--strict)"])
        return STRICT_STATUS
    write(words.output, setup_lines(its, NODES if words.node == "both" else [words.node], rc.lines, not words.unopened))
    return 0


def say(lines: Iterable[str]) -> None:
    for line in fitted(lines, columns_of(sys.stderr)):
        print(line, file=sys.stderr)


def firewall_of(words: ImportOptions) -> Firewall:
    """What the command line says about the firewall."""
    groups = words.group or []
    firewall = Firewall(words.on, groups={name: {member for group, member in groups if group == name} for name, _ in groups})
    for interface, own in words.address or []:
        firewall.add_address(interface or words.on, own)
    return firewall


def write(path: Optional[str], lines: List[str]) -> None:
    """Writes lines to a file, or to standard output if none is named. A fault names the file, even that of a full disk."""
    text = "".join(f"{line}\n" for line in lines)
    try:
        if path:
            with open(path, "w", encoding="utf-8") as it:
                it.write(text)
        else:
            print(text, end="", flush=True)
    except BrokenPipeError:
        raise
    except OSError as error:
        raise OSError(error.errno, error.strerror, path or "standard output") from error
