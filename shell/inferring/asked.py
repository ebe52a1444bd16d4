"""What a `capture` asks for besides what it prints: a script, and the files that say more of the night."""
from __future__ import annotations

import argparse
from typing import List, Optional, Tuple

from ..language.names import NODES

SCRIPT = "--script"


class ScriptOptions(argparse.Namespace):
    """The words of a command line about a script."""

    script: Optional[str]
    rules: Optional[str]
    log_a: Optional[str]
    log_b: Optional[str]
    data_a: Optional[str]
    data_b: Optional[str]


def of_nodes(words: ScriptOptions, kind: str) -> List[Tuple[str, str]]:
    """The files of a kind, `log` or `data`, each with its node."""
    files = [(node, getattr(words, f"{kind}_{node}")) for node in NODES]
    return [(node, path) for node, path in files if path]


def add_options(words: argparse.ArgumentParser) -> None:
    """The options about a script."""
    words.add_argument(SCRIPT, metavar="NIGHT.pfl", help="also writes a script of the laboratory, which is inferred from the captures")
    words.add_argument("--rules", metavar="PAIR.pfl", help=f"with {SCRIPT}: the setup of the pair, as `import --unopened` writes it")
    for node in NODES:
        words.add_argument(f"--log-{node}", metavar="PFLOG", help=f"with {SCRIPT}: a capture of pflog0 at {node}")
        words.add_argument(f"--data-{node}", metavar="PCAP", help=f"with {SCRIPT}: a capture of {node}'s interface that the rules are for")


def script_fault(words: ScriptOptions) -> str:
    """What is wrong with the words, which do not all go together; empty if nothing is."""
    alone = ["--rules"] * bool(words.rules) + [f"--{kind}-{node}" for kind in ("log", "data") for node, _ in of_nodes(words, kind)]
    return f"{alone[0]} goes with {SCRIPT}" if alone and not words.script else ""
