"""What is installed: each file's name below the chosen folder, its mode and its bytes."""
from __future__ import annotations

from pathlib import Path
from typing import Iterator, List, NamedTuple

from shell.language.setups import SWITCHES

from .archive import archive

TOP = Path(__file__).resolve().parent.parent
COMMANDS = ("pfl_lab", "pfl_shell")
EXAMPLES = "share/pfl_lab/examples"
DISSECTOR = "share/pfl_lab/wireshark/pfsync.lua"
START = """import sys

if sys.version_info < (3, 8):
    print("pfl_shell: this needs Python 3.8 or later, and this is Python %d.%d" % sys.version_info[:2], file=sys.stderr)
    sys.exit(125)

from shell.installed import main

sys.exit(main())
"""
RUNNABLE, READABLE = 0o755, 0o644
# The scripts among the examples and what stands beside them; captures and a pf.conf are installed as they are.
_WRITTEN, _FOUND = (".pfl", ".md", ".svg", ".html"), (".pcap", ".conf")
_OF_SHELL = ("shell", "verify", "annotate", "chart", "page", "sheet", "frames", "whatif", "depends", "compare", "capture", "import")
# The commands of a checkout, as the examples have them, and what replaces them if there is no checkout.
INSTALLED_WORDS = (
    *((f"./lab {word}", f"pfl_lab {word}") for word in ("run", "check", "serve")),
    *((f"./lab {word}", f"pfl_shell {word}") for word in _OF_SHELL),
    ("[docs/FORMATS.md](../docs/FORMATS.md)", "pfl_lab(1)"),
    ("[page](../docs/PAGE.md)", "page"),
    ("[docs/FIELD.md](../docs/FIELD.md#captures-of-a-night)", "pfl_shell(1)"),
    ("[docs/KERNEL.md](../docs/KERNEL.md)", "`help kernel` of pfl_shell"),
    *((f"[`{word}`](../docs/REAL.md#{word})", f"`{word}`") for word in SWITCHES),
    ("docs/KERNEL.md", "`help kernel` of pfl_shell"),
    ("; docs/REAL.md)", ")"),
)


class File(NamedTuple):
    """A file to install."""

    name: str
    mode: int
    content: bytes


def files(program: str) -> List[File]:
    """Everything that is installed, with this proved program."""
    return [
        File("bin/pfl_lab", RUNNABLE, Path(program).read_bytes()),
        File("bin/pfl_shell", RUNNABLE, archive(TOP / "shell", TOP / "page", START)),
        *(File(f"share/man/man1/{command}.1", READABLE, (TOP / f"docs/man/{command}.1").read_bytes()) for command in COMMANDS),
        *completions(),
        *examples(),
        File(DISSECTOR, READABLE, (TOP / "wireshark/pfsync.lua").read_bytes()),
    ]


def completions() -> Iterator[File]:
    """The completions of bash and zsh, in the places where these look for them."""
    folder = TOP / "installing/completions"
    for command in COMMANDS:
        yield File(f"share/bash-completion/completions/{command}", READABLE, (folder / f"bash/{command}").read_bytes())
        yield File(f"share/zsh/site-functions/_{command}", READABLE, (folder / f"zsh/_{command}").read_bytes())


def examples() -> Iterator[File]:
    """The examples with their pictures, pages and descriptions, in the words of the installed commands, and the files of firewalls."""
    for path in sorted((TOP / "examples").iterdir()):
        content = path.read_bytes()
        if path.suffix in _WRITTEN:
            for old, new in INSTALLED_WORDS:
                content = content.replace(old.encode(), new.encode())
        if path.suffix in (*_WRITTEN, *_FOUND):
            yield File(f"{EXAMPLES}/{path.name}", READABLE, content)
