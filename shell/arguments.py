"""The command-line arguments of `./lab` and of the installed `pfl_shell`."""
from __future__ import annotations

import argparse
import os
from itertools import takewhile
from typing import TYPE_CHECKING, Any, Callable, Dict, List, NoReturn, Optional, Sequence

from .console.endings import STRICT_STATUS
from .console.outputs import print_help

# (the options of a word import what they need when they are read, so that none waits for what others need)
if TYPE_CHECKING:
    from .captures.asked import CaptureOptions
    from .dumps.asked import About
    from .importing.asked import ImportOptions
    from .inferring.asked import ScriptOptions
    from .language.names import Name
    from .link.visits import Address
    from .whatif.asked import Options

    class Read(Options, CaptureOptions, ScriptOptions, ImportOptions):
        """What the options of these words were read as."""

else:
    Read = argparse.Namespace


class Words(Read):
    """The parsed command line. Only the attributes of its own word are set."""

    name: str
    program: str
    word: str
    files: List[str]
    port: Optional[int]
    setup: Optional[str]
    at: Optional[Address]
    person: Optional[str]
    echo: bool
    strict: bool
    dry_run: bool
    all_replies: bool
    replies: bool
    version: bool
    file: str
    picture: Optional[str]
    script: Optional[str]
    page: str
    serve: Optional[int]
    flow: Optional[Name]
    notes: bool
    dumps: List[str]
    stats: List[str]
    apart: Optional[int]
    all: bool
    rules: Optional[str]
    of_flow: Optional[About]
    capture_a: str
    capture_b: str
    pfsync: bool


# The words that run no program, besides those that ask for help; each with its option that does run it, if there is one, which is not
# to be abbreviated.
WITHOUT_PROGRAM = {"compare": "--out", "capture": "--script", "import": ""}


def needs_program(words: Sequence[str]) -> bool:
    """Whether the words of a command line run the program."""
    option = WITHOUT_PROGRAM.get(words[0], words[0])
    return not {"-h", "--help"} & {*words} and bool(option) and (
        option == words[0] or any(it.partition("=")[0] == option for it in takewhile(lambda it: it != "--", words))
    )


class Parser(argparse.ArgumentParser):
    """A parser that reports help which could not be written, as on a full device. Those of the words are such parsers too."""

    def print_help(self, file: object = None) -> None:
        # (help is asked for on standard output alone)
        status = print_help(self.format_help().rstrip("\n"), os.path.basename(self.prog.split(" ")[0]))
        if status:
            self.exit(status)


class WordParser(Parser):
    """The parser of one word: its options may be between its other words, and each fault is answered with its own usage."""

    _is_reading = False

    # (Any, as argparse has several forms of this)
    def parse_known_args(self, args: Any = None, namespace: Any = None) -> Any:
        # (to Python 3.11, argparse takes `--` away too early where options may be anywhere)
        if self._is_reading or "--" in args:
            return super().parse_known_args(args, namespace)
        self._is_reading = True
        try:
            words, others = self.parse_known_intermixed_args(args, namespace)
        finally:
            self._is_reading = False
        if others:
            # (a word after an option that is unknown may be its value, or not)
            wrong = [it for it in others if it.startswith("-")] or others
            self.error(f"unrecognized arguments: {' '.join(wrong)}")
        return words, others


class CommandParser(Parser):
    """The parser of the command, with those of its words."""

    def __init__(self, **given: Any) -> None:
        super().__init__(**given)
        self.words: Dict[str, WordParser] = {}

    def fault(self, word: str, message: str) -> NoReturn:
        """Ends with what is wrong with the words after a word, and with their usage."""
        self.words[word].error(message)


def parser(name: str = "./lab", arguments: Optional[Sequence[str]] = None) -> CommandParser:
    """The parser of what follows the command's name. Messages use that name without its folder. If the arguments are given, only words that
    are among them have options."""
    words = CommandParser(prog=name, description="The shell and the other tools around the laboratory's program.")
    words.set_defaults(name=os.path.basename(name))
    words.add_argument("--program", required=True, help=argparse.SUPPRESS)
    _version(words, False)
    kinds = words.add_subparsers(dest="word", parser_class=WordParser)
    words.words = kinds.choices

    def add(word: str, add_options: Callable[[argparse.ArgumentParser], None], **how: Any) -> None:
        its = kinds.add_parser(word, **how)
        if arguments is None or word in arguments:
            add_options(its)

    _of_scripts(add, name)
    _of_questions(add)
    _of_firewalls(add, name)
    return words


def _of_scripts(add: Callable[..., None], name: str) -> None:
    """The words for a dialogue, and for what happens in scripts."""
    add(
        "shell",
        _shell,
        help="opens a dialogue with the laboratory",
        description="Opens a dialogue with the laboratory; `help` in it lists its words.",
    )
    add("verify", _scripts, help="compares the replies with the lines `#>` of scripts")
    add(
        "annotate",
        _annotate,
        help="writes the replies into scripts, as lines `#>`",
        description="Writes the replies into scripts, as lines `#>`. It reports each line that is faulty or refused and had no such reply"
        " before, with the reason; then the status is 1. The replies are written all the same, since a story may be about a refusal.",
    )
    add("chart", _chart, help="draws what happened in a script")
    add(
        "page",
        _page,
        help="shows what happens in a script as a page for a browser",
        usage=f"{name} page SCRIPT OUT.html\n       {name} page --serve PORT [SCRIPT | --port P [--setup FILE]]",
        description="Writes what happens in a script as a page: one file that needs nothing else. With --serve, it serves a page to"
        " browsers on this machine, which shows a pair as it changes, and steps it.",
    )
    add(
        "sheet",
        _sheet,
        help="writes a script as a sheet of paper for students or their teacher",
        description="Writes a script as a sheet to print: its comments, its rules and its events, with room to write the outcomes that"
        " a student expects. With --replies it is the teacher's.",
    )


def _of_questions(add: Callable[..., None]) -> None:
    """The words that ask what else might have happened."""
    add(
        "whatif",
        _whatif,
        help="tries each single fault of what happened in a script",
        description="Replays what happened in a script with each single fault by itself, such as a lost frame or a restart, and"
        " groups the faults by what they change.",
    )
    add(
        "depends",
        _depends,
        help="shows which replies of scripts depend on the choice of rules, the profile's or the kernel's",
        description="Plays scripts again with each word of `kernel` and with all of them. It shows which replies change, the first of"
        " them with its reason. Status: 0 if none changes, 1 if any does, 2 if a script could not be played.",
    )


def _of_firewalls(add: Callable[..., None], name: str) -> None:
    """The words that read files of real firewalls, or write files like theirs."""
    add(
        "compare",
        _compare,
        help="compares the state tables of two firewalls, as pfctl printed them",
        usage=f"{name} compare A B [--stats A B] [--apart S] [--all] [--out PAIR.pfl [--rules SETUP.pfl] [--flow ADDRESS[:PORT]]]",
        description="Compares two files with the output of `pfctl -ss -vv`, one from each firewall of a pair. It shows the states that"
        " only one has, and those that differ, field by field. Status: 0 if they agree, 1 if they differ, 2 if a file could not be"
        " read or the script could not be written.",
        allow_abbrev=False,
    )
    add(
        "frames",
        _frames,
        help="writes the frames of a script as captures, in the layout of FreeBSD's messages",
        description="Writes the frames of a script as two captures: what tcpdump(1) would have written at each node, had the frames"
        " been messages of FreeBSD 13.",
    )
    add(
        "capture",
        _capture,
        help="reads captures of the sync interface: what the nodes of a pair sent each other, and what needs attention",
        usage=f"{name} capture A [B] [--a ADDRESS] [--flow ADDRESS[:PORT]] [--from TIME] [--to TIME] [--states] [--all]"
        " [--script NIGHT.pfl [--rules PAIR.pfl] [--log-a PFLOG] [--log-b PFLOG] [--data-a PCAP] [--data-b PCAP]]",
        description="Reads captures of a pair's sync interface, of one node or of both: pcap or pcapng files, as `tcpdump -s 0 -w FILE ip"
        " proto 240` writes them. It shows frames that are not in the other capture, requests, bulk updates and the like, and a"
        " timeline. Status: 0 if nothing is found, 1 if something is, 2 if a file could not be read to its end or the script could"
        " not be written.",
        allow_abbrev=False,
    )
    add(
        "import",
        _import,
        help="imports the rules of an interface from a pf.conf",
        description="Writes the rules that a pf.conf(5) has for one interface as a setup of the laboratory, and reports on standard"
        " error what is approximated or left out.",
    )


def _version(words: argparse.ArgumentParser, default: object) -> None:
    """The version is the program's: the shell that comes with it has none of its own."""
    words.add_argument("-V", "--version", action="store_true", default=default, help="prints the version of the program that is run")


def _shell(words: argparse.ArgumentParser) -> None:
    _version(words, argparse.SUPPRESS)
    words.add_argument("files", nargs="*", metavar="FILE", help="scripts to read first")
    words.add_argument("--port", type=port, metavar="P", help="joins the server at this port, with no pair of its own")
    words.add_argument("--setup", metavar="FILE", help="with --port: the setup that the server read, if it does not report it")
    words.add_argument(
        "--page",
        type=page_address,
        dest="at",
        metavar="URL",
        help="joins the pair of a served page by one of its addresses, or with --port exchanges names there; with - the address is asked for",
    )
    words.add_argument("--name", type=person, dest="person", metavar="NAME", help="your name for the others, with --page")
    words.add_argument("--echo", action="store_true", help="shows each line before its reply")
    words.add_argument(
        "--strict", action="store_true", help=f"stops at the first refused or faulty line, with status {STRICT_STATUS}"
    )


def _scripts(words: argparse.ArgumentParser) -> None:
    words.add_argument("files", nargs="+", metavar="FILE")


def _annotate(words: argparse.ArgumentParser) -> None:
    from .scripts.annotating import DRY_RUN

    _scripts(words)
    words.add_argument(*DRY_RUN, action="store_true", help="shows what would change, as `diff -u` does, and writes nothing")


def _chart(words: argparse.ArgumentParser) -> None:
    words.add_argument("file", metavar="FILE")
    words.add_argument(
        "picture", nargs="?", type=picture, metavar="FILE.svg", help="the picture's file; without it the chart is printed as text"
    )
    words.add_argument("--branch", default="main", metavar="BRANCH", help="draws this branch instead of `main`")
    words.add_argument("--from", dest="first", type=event, default=1, metavar="K", help="draws from the K-th event on")
    words.add_argument("--to", dest="last", type=event, metavar="L", help="draws up to the L-th event")
    words.add_argument("--flow", type=flow, metavar="NAME", help="draws only what is about the state NAME, such as 1.3")
    words.add_argument("--notes", action="store_true", help="also draws the script's comments, each above its event")


def _page(words: argparse.ArgumentParser) -> None:
    words.add_argument("script", nargs="?", metavar="SCRIPT", help="the script; a served page continues after it")
    words.add_argument("page", nargs="?", type=page_name, metavar="OUT.html", help="the page's file")
    words.add_argument(
        "--serve", type=port, metavar="PORT", help="serves the page at this port of 127.0.0.1, and prints its addresses"
    )
    words.add_argument(
        "--port", type=port, metavar="P", help="with --serve: joins the server at this port, with no pair of its own"
    )
    words.add_argument("--setup", metavar="FILE", help="with --port: the setup that the server read, if it does not report it")


def _sheet(words: argparse.ArgumentParser) -> None:
    words.add_argument("file", metavar="SCRIPT")
    words.add_argument(
        "page", nargs="?", type=page_name, metavar="OUT.html", help="the sheet's file; without it the sheet goes to standard output"
    )
    words.add_argument(
        "--replies", action="store_true", help="has the replies with their reasons, the charts, and the state tables at the end"
    )


def _whatif(words: argparse.ArgumentParser) -> None:
    from .whatif.asked import add_options

    words.add_argument("file", metavar="SCRIPT")
    words.add_argument("--branch", default="main", metavar="BRANCH", help="tries the events of this branch instead of `main`")
    add_options(words)


def _capture(words: argparse.ArgumentParser) -> None:
    from .captures.asked import add_options as add_capture
    from .inferring.asked import add_options as add_script

    add_capture(words)
    add_script(words)


def _frames(words: argparse.ArgumentParser) -> None:
    from .captures.run_options import add_options as add_frames

    add_frames(words)


def _import(words: argparse.ArgumentParser) -> None:
    from .importing.asked import add_options as add_import

    add_import(words)


def _depends(words: argparse.ArgumentParser) -> None:
    from .depends.asked import add_options as add_depends

    words.add_argument("files", nargs="+", metavar="SCRIPT")
    add_depends(words)


def _compare(words: argparse.ArgumentParser) -> None:
    from .dumps.asked import add_options as add_compare
    from .dumps.comparing import Tolerance

    words.add_argument("dumps", nargs=2, metavar="FILE", help="the output of `pfctl -ss -vv` at one firewall and at the other")
    words.add_argument(
        "--stats", nargs=2, default=[], metavar="FILE", help="the output of `netstat -s -p pfsync`, if those files do not have it too"
    )
    words.add_argument(
        "--apart",
        type=tolerance,
        metavar="S",
        help="by how many seconds ages and expiry times may differ; without it ages are not compared, and expiry times may differ by"
        f" {Tolerance().seconds} seconds",
    )
    words.add_argument("--all", action="store_true", help="lists every state, not only the first of those that have something in common")
    add_compare(words)


def tolerance(word: str) -> int:
    if not word.isdecimal() or len(word) > 6:
        raise argparse.ArgumentTypeError("S is a number of seconds from 0 to 999999")
    return int(word)


def event(word: str) -> int:
    """The place of an event in its branch."""
    from .charts.windows import read_place
    from .link.laboratory import Unknown

    try:
        return read_place(word)
    except Unknown as why:
        raise argparse.ArgumentTypeError(str(why)) from why


def flow(word: str) -> Name:
    """The name of a state."""
    from .charts.windows import read_flow
    from .link.laboratory import Unknown

    try:
        return read_flow(word)
    except Unknown as why:
        raise argparse.ArgumentTypeError(str(why)) from why


def port(word: str) -> int:
    if not word.isdecimal() or len(word) > 5 or not 1 <= int(word) <= 65535:
        raise argparse.ArgumentTypeError("a port is a number from 1 to 65535")
    return int(word)


def page_address(word: str) -> Address:
    """The address of a page, which may be asked for: arguments can be seen in the list of processes."""
    from .link.visits import ASKED_FOR, NO_ADDRESS, Address

    address = ASKED_FOR if word == "-" else Address.read(word)
    if address is None:
        # (the token in it is not repeated)
        raise argparse.ArgumentTypeError(NO_ADDRESS)
    return address


def person(word: str) -> str:
    """A name, as others are shown it."""
    from .link.visits import cleaned

    name = cleaned(word)
    if not name:
        raise argparse.ArgumentTypeError("a name has a character that prints")
    return name


def shell_fault(words: Words) -> str:
    """What is wrong with the words of a shell, which do not all go together; empty if nothing is."""
    if words.setup and not words.port:
        return "--setup says what a server read, and needs --port; a pair of your own gets its setup from lines"
    return "--name is for the others at a pair, and needs --port or --page" if words.person and not words.port and not words.at else ""


def page_name(word: str) -> str:
    if not word.endswith((".html", ".htm")):
        raise argparse.ArgumentTypeError(f"{word}: the name of a page must end in .html")
    return word


def picture(word: str) -> str:
    if not word.endswith(".svg"):
        raise argparse.ArgumentTypeError(f"{word}: the name of a picture must end in .svg")
    return word


def page_fault(words: Words) -> str:
    """What is wrong with the words of a page, which do not all go together; empty if nothing is."""
    if not words.serve:
        return "a page needs SCRIPT and OUT.html, or --serve PORT" if not words.page or words.port or words.setup else ""
    if words.page:
        return "--serve serves a page and writes none: leave out OUT.html"
    if words.port and words.script:
        return "--port joins a server, which has its own pair, and takes no script"
    return "--setup is what a server read, and needs --port" if words.setup and not words.port else ""
