"""The command `pfl_shell`: the shell as one file, which `./lab install` puts next to the program."""
from __future__ import annotations

import os
import shutil
import sys

from .arguments import needs_program
from .link.chosen import NoProgram, chosen
from .main import main as shell

NAME = "pfl_shell"
PROGRAM = "pfl_lab"
NO_PROGRAM_STATUS = 125


def main() -> int:
    """Carries out the words of the command line, or `shell` if there are none, with the program next to it or that of PFL_LAB."""
    words = sys.argv[1:] or ["shell"]
    try:
        program = program_of(os.path.dirname(os.path.realpath(sys.argv[0]))) if needs_program(words) else ""
    except NoProgram as why:
        print(f"{NAME}: {why}", file=sys.stderr)
        return NO_PROGRAM_STATUS
    return shell(["--program", program, *words], NAME)


def program_of(folder: str) -> str:
    """The program that PFL_LAB names, else the one in this folder."""
    beside = os.path.join(folder, PROGRAM)
    program = chosen() or shutil.which(beside)
    if not program:
        raise NoProgram(f"there is no program at {beside}; PFL_LAB can name another one")
    return program
