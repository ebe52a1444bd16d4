"""The words that need the shell, of `./lab` and of the installed `pfl_shell`: shell, verify, annotate, chart, page, sheet, frames,
whatif, depends, compare, capture and import."""
from __future__ import annotations

import io
import os
import stat
import subprocess
import sys
from contextlib import closing
from functools import partial
from itertools import takewhile
from typing import TYPE_CHECKING, Callable, Dict, Iterable, Optional, Sequence

from .arguments import Words, page_fault, parser, shell_fault
from .console.colours import PLAIN, Paint
from .console.endings import INTERRUPTED_STATUS, STRICT_STATUS, TROUBLE, NotDone
from .console.fitting import columns_of, fitted
from .console.outputs import discard_output
from .console.paging import paged

# (a word imports what it needs when it is carried out, so that none waits for what others need)
if TYPE_CHECKING:
    from .charts.chart import Texts
    from .charts.rows import Chart
    from .charts.windows import Window
    from .dialogue.shell import Shell
    from .link.laboratory import Laboratory
    from .link.programs import Client
    from .link.visits import Address, Page
    from .model.branches import Branch
    from .model.setups import Setup
    from .scripts.stories import Story

HISTORY = "~/.pfl_lab_history"


def main(arguments: Sequence[str], name: str = "./lab") -> int:
    """Carries out the words after the command's name; returns the status."""
    kinds = parser(name, arguments)
    words = kinds.parse_args(arguments, Words())
    if not words.word and not words.version:
        from .language.forms import one_of

        kinds.error(f"a word is missing: {one_of(WORDS)}")
    fault = words_fault(words)
    if fault:
        kinds.fault(words.word, fault)
    for stream in (sys.stdin, sys.stdout):
        if isinstance(stream, io.TextIOWrapper):
            # A line may have any bytes: the program judges them.
            stream.reconfigure(errors="surrogateescape")
    try:
        return (version if words.version else WORDS[words.word])(words)
    except KeyboardInterrupt:
        return INTERRUPTED_STATUS
    except BrokenPipeError:
        # (the reader has had enough)
        discard_output()
    except OSError as error:
        say(words, f"{error.filename}: {error.strerror}" if error.filename else error)
    except NotDone as why:
        say(words, why.told)
    return TROUBLE if words.word in ("compare", "depends", "capture") else 1


def words_fault(words: Words) -> str:
    """What is wrong with words that do not all go together; empty if nothing is."""
    if words.word == "shell":
        return shell_fault(words)
    if words.word == "compare" and not words.out and (words.rules or words.of_flow):
        return "--rules and --flow say what the script of --out has, and need --out"
    if words.word == "capture":
        from .inferring.asked import script_fault

        return script_fault(words)
    return page_fault(words) if words.word == "page" else ""


def say(words: Words, what: object) -> None:
    """Writes a line to standard error, after the command's name."""
    print("\n".join(fitted([f"{words.name}: {what}"], columns_of(sys.stderr))), file=sys.stderr)


def show(lines: Sequence[str]) -> None:
    """Prints lines for people, fitted to the terminal."""
    show_whole(fitted(lines, columns_of(sys.stdout)))


def show_whole(lines: Sequence[str]) -> None:
    """Prints lines that must not be broken, through a pager if the terminal has no room for them all."""
    if not paged(lines, sys.stdout):
        print("\n".join(lines), flush=True)


def version(words: Words) -> int:
    """Prints the version of the program."""
    return subprocess.run([words.program, "--version"]).returncode


def verify(words: Words) -> int:
    from .scripts import verifying

    found = verifying.verified(words.program, words.files)
    show(found.shown(sys.stdout.isatty()))
    return int(found.differing > 0)


def annotate(words: Words) -> int:
    """Writes the replies into scripts; the status is 1 if a line looks like a slip."""
    from .scripts import annotating

    found = 0
    for written in annotating.annotate(words.program, words.files, words.dry_run):
        # (lines of a script are as they are)
        (show_whole if words.dry_run else show)(written.lines)
        for it in written.slips:
            say(words, f"{written.path}: {it}")
        found += len(written.slips)
    if found:
        say(words, annotating.about_slips(found))
    return int(found > 0)


def chart(words: Words) -> int:
    from .charts.picture import draw
    from .charts.text import WIDEST, text as chart_text
    from .charts.windows import Window
    from .language.lines import lines_of
    from .scripts import texts

    script = lines_of(texts.read(words.file))
    if says_faults(words, words.file, script):
        return 1
    drawn = drawn_from(words.program, script, words.branch, Window(words.first, words.last, words.flow), words.notes)
    if words.picture:
        save(words.picture, draw(drawn, texts.title_of(script) or os.path.basename(words.file)))
    else:
        width = min(WIDEST, columns_of(sys.stdout) or WIDEST)
        show_whole(chart_text(drawn, paint(sys.stdout.isatty()), width))
    return 0


def page(words: Words) -> int:
    """Writes the run of a script as a page, or serves the page of a pair."""
    from .language.lines import lines_of
    from .pages.live import OPENING, begun, joined, serve
    from .pages.packing import page as page_of
    from .pages.runs import run_of
    from .scripts import texts

    script: Sequence[str] = lines_of(texts.read(words.script)) if words.script else OPENING
    if words.script and says_faults(words, words.script, script):
        return 1
    name = os.path.basename(words.script) if words.script else "A pair of firewalls"
    if words.serve:
        setup = setup_from(words.program, words.setup) if words.setup else None
        pair = joined(words.program, words.port, setup, sys.stdout) if words.port else begun(words.program, script, name)
        serve(words.program, words.serve, pair, sys.stdout)
    with closing(run_of(words.program, script, name)) as run:
        save(words.page, page_of(run.as_data()))
    return 0


def sheet(words: Words) -> int:
    """Writes a script as a sheet of paper."""
    from .language.lines import lines_of
    from .scripts import texts
    from .sheets.lesson import lesson_of
    from .sheets.sheet import sheet as sheet_of

    script = lines_of(texts.read(words.file))
    if says_faults(words, words.file, script):
        return 1
    text = sheet_of(lesson_of(words.program, script, os.path.basename(words.file), words.replies))
    if words.page:
        save(words.page, text)
    else:
        # (in ASCII, which any encoding of standard output has)
        print(text.encode("ascii", "xmlcharrefreplace").decode(), end="", flush=True)
    return 0


def frames(words: Words) -> int:
    """Writes the frames of a script as captures, one at each node."""
    from .captures import runs
    from .language.lines import lines_of
    from .link.laboratory import Laboratory
    from .scripts import texts
    from .scripts.stories import story_of

    paths = (words.capture_a, words.capture_b)
    runs.refuse_same_files(words.file, paths)
    script = lines_of(texts.read(words.file))
    if says_faults(words, words.file, script):
        return 1
    with closing(Laboratory(words.program)) as lab:
        story_of(lab, script)
        show([runs.written(lab, lab.branch(words.branch), paths, words.pfsync)])
    return 0


def whatif(words: Words) -> int:
    """Tries the faults of what happened in a script."""
    from .language.lines import lines_of
    from .link.laboratory import Laboratory, Unknown
    from .scripts import texts
    from .scripts.stories import story_of
    from .whatif.answers import Counter, answer
    from .whatif.asked import asked

    text = texts.read(words.file)
    if words.out and os.path.realpath(words.out) == os.path.realpath(words.file):
        raise Unknown(f"{words.out} is the script itself: --out writes a copy of it under another name")
    if says_faults(words, words.file, lines_of(text)):
        return 1
    with closing(Laboratory(words.program)) as lab:
        story_of(lab, lines_of(text))
        counter = Counter(sys.stderr)
        try:
            found = answer(lab, lab.branch(words.branch), asked(words), paint(sys.stdout.isatty()), counter, lambda: text)
        finally:
            counter.clear()
    show(found.lines)
    if found.written and words.out:
        texts.write(words.out, found.written.text)
        show([found.written.message(words.out)])
    if found.fault:
        say(words, found.fault)
    return INTERRUPTED_STATUS if found.is_interrupted else int(bool(found.fault))


def depends(words: Words) -> int:
    """Plays scripts by other rules than their own; the status is that of diff(1)."""
    from .depends.answers import of_script
    from .language.lines import lines_of
    from .scripts import texts

    status = 0
    for number, path in enumerate(words.files):
        script = lines_of(texts.read(path))
        if says_faults(words, path, script):
            status = TROUBLE
            continue
        found = of_script(words.program, script, path, words.all_replies, paint(sys.stdout.isatty()))
        show([*[""] * (number > 0), *found.lines])
        status = max(status, int(found.depends))
    return status


def compare(words: Words) -> int:
    """Compares two dumps; the status is that of diff(1)."""
    from .dumps.command import compared
    from .dumps.comparing import Tolerance
    from .dumps.report import Shown

    tolerance = Tolerance() if words.apart is None else Tolerance(words.apart, True)
    how = Shown(paint(sys.stdout.isatty()), tolerance, words.all)
    answer = compared(words.dumps, words.stats, how, partial(say, words), bool(words.out))
    said: Sequence[str] = ()
    try:
        if words.out:
            from .dumps.opening import Asked, opening
            from .language.names import NODES
            from .scripts import texts

            asked_for = Asked(words.out, words.rules, words.of_flow)
            made = opening(words.program, answer.found, dict(zip(NODES, words.dumps)), tolerance, asked_for)
            texts.write(words.out, made.text)
            said = made.said
    finally:
        # (whoever reads the answer may have had enough of it before the script is written)
        show_answer(answer.lines)
    for it in said:
        say(words, f"{words.out}: {it}")
    return answer.status


def capture(words: Words) -> int:
    """Reads captures of the sync interface; the status is 1 where something is found, and 2 where a file cannot be read, or a script that
    is asked for cannot be written."""
    from .captures.command import captured

    answer = captured(words, paint(sys.stdout.isatty()), partial(say, words))
    if not words.script:
        show_answer(answer.lines)
        return answer.status
    lines = answer.lines
    from .inferring.command import Captured, infer
    from .inferring.night import Part
    from .scripts import texts

    try:
        asked_for = Captured(answer.overlay, Part.of(answer.selection), answer.times)
        made = infer(words, words.program, words.captures, asked_for, words.all)
        texts.write(words.script, "".join(f"{line}\n" for line in made.lines))
        # (what was blocked is the last part, before the line about what no frame says, and the frames, which an empty line begins)
        at = lines.index("") - 1
        lines = [*lines[:at], *made.blocked, *lines[at:]]
    finally:
        # (whoever reads it may stop reading: the script is written by then)
        show_answer(lines)
    for it in made.said:
        say(words, f"{words.script}: {it}")
    return answer.status


def show_answer(lines: Sequence[str]) -> None:
    """Prints an answer; a fault names standard output."""
    try:
        show(lines)
    except BrokenPipeError:
        raise
    except OSError as error:
        discard_output()
        raise OSError(error.errno, error.strerror, "standard output") from error


def save(path: str, text: str) -> None:
    """Writes a file. A fault names the file, even one after it was opened, such as a full disk."""
    try:
        with open(path, "w", encoding="utf-8") as it:
            it.write(text)
    except OSError as error:
        raise OSError(error.errno, error.strerror, path) from error


def says_faults(words: Words, path: str, script: Sequence[str]) -> bool:
    """Reports what the program finds faulty in a script; returns whether there is something."""
    from .scripts.proofreading import faulty

    found = faulty(words.program, script)
    for it in found:
        say(words, f"{path}: {it}")
    return bool(found)


def drawn_from(program: str, script: Sequence[str], branch: str, window: Optional[Window] = None, with_notes: bool = False) -> Chart:
    """A chart of what a script makes of a branch; with notes also the comments of the script, and what comes of its events by other
    rules."""
    from .charts.chart import NO_TEXTS, chart as chart_of
    from .charts.windows import WHOLE
    from .link.laboratory import Laboratory
    from .scripts.stories import story_of

    lab = Laboratory(program)
    try:
        story = story_of(lab, script)
        notes = noted(lab, story, lab.branch(branch)) if with_notes else NO_TEXTS
        return chart_of(lab, lab.branch(branch), notes, story.forks(branch), window or WHOLE)
    finally:
        lab.close()


def noted(lab: Laboratory, story: Story, branch: Branch) -> Texts:
    """The paragraphs about a branch, by how many of its events come before them, and below these what is said of other rules."""
    from .depends.otherwise import marks_of, notes_of

    stands, notes = branch.events[: branch.cursor], story.above(branch.name)
    for place, paragraphs in notes_of(marks_of(lab.program, lab.setup, stands), lab.setup.kernel, len(stands)).items():
        notes.setdefault(place, []).extend(paragraphs)
    return notes


def paint(is_terminal: bool) -> Paint:
    """Colours for a terminal, unless NO_COLOR is set (https://no-color.org)."""
    return Paint(on=True) if is_terminal and not os.environ.get("NO_COLOR") else PLAIN


def shell(words: Words) -> int:
    from .console.characters import without_mark
    from .dialogue.shell import Shell, Stopped
    from .language.lines import lines_of
    from .scripts import texts

    is_typed = sys.stdin.isatty()
    lab = laboratory_of(words)
    loop = Shell(lab, sys.stdout, paint(sys.stdout.isatty()), words.strict, is_typed)
    try:
        ended = any(loop.take(lines_of(without_mark(texts.read(path))), echo=is_typed or words.echo) for path in words.files)
        if not ended and is_typed:
            (loop.suggest if words.files else loop.greet)()
            dialogue(loop)
        elif not ended:
            loop.take(lines_of_input(), words.echo)
    except Stopped as why:
        say(words, f"stopped at {why}")
        return STRICT_STATUS
    finally:
        lab.close()
    return int(loop.has_faults and not is_typed)


def laboratory_of(words: Words) -> Laboratory:
    """The laboratory of a shell: its pair is that of a server, that of a page, or its own."""
    from .link.laboratory import Laboratory

    page = page_at(words.at) if words.at else None
    if words.port:
        return joined_to(words, words.port, page)
    if page:
        from .link.seats import seated

        return seated(words.program, page, words.person or "", partial(say, words))
    return Laboratory(words.program)


def page_at(address: Address) -> Page:
    """The page at an address, which is asked for where that is wanted: arguments can be seen in the list of processes."""
    from .link.laboratory import Unknown
    from .link.visits import ASKED_FOR, NO_ADDRESS, Address, Page

    if address == ASKED_FOR:
        print("address of the page: ", end="", file=sys.stderr, flush=True)
    given = Address.read(sys.stdin.readline()) if address == ASKED_FOR else address
    if given is None:
        raise Unknown(NO_ADDRESS)
    return Page(given)


def joined_to(words: Words, port: int, page: Optional[Page]) -> Laboratory:
    """A laboratory whose pair is that of a server, with what there is to say about that."""
    from .link.laboratory import Laboratory
    from .link.programs import Client, Ended

    setup = setup_from(words.program, words.setup) if words.setup else None
    try:
        lab = Laboratory(words.program, port, setup)
    except ConnectionRefusedError:
        raise Ended(nobody_listens(words, port)) from None
    assert isinstance(lab.session, Client)
    say(words, "connected; the server answers once all its sessions are")
    wait(lab.session, nobody_listens(words, port))
    said = [lab.join()]
    if page or words.person:
        from .link.seats import introduced

        said.append(introduced(lab, page, words.person or "", command_of(words)))
    for it in filter(None, said):
        say(words, it)
    return lab


def lines_of_input() -> Iterable[str]:
    """The lines of standard input: all together from a file, and from a pipe as they come."""
    from .scripts.kinds import refuse_other_input

    refuse_other_input(sys.stdin.fileno())
    lines = (line.rstrip("\n") for line in sys.stdin)
    return list(lines) if stat.S_ISREG(os.fstat(sys.stdin.fileno()).st_mode) else lines


def wait(session: Client, gone: str) -> None:
    """Waits for the other sessions of a server; an interrupt gives up."""
    from .link.programs import Ended

    try:
        session.wait()
    except KeyboardInterrupt:
        session.close()
        raise Ended("given up before all sessions were connected") from None
    except Ended:
        session.close()
        raise Ended(gone) from None


def nobody_listens(words: Words, port: int) -> str:
    """Why nothing can connect to a port, and how to join a pair all the same."""
    command = command_of(words)
    there = f"a page of the seminar (`{command} page --serve`) takes late comers: `{command} shell --page URL`"
    return f"nobody listens at {port}, or all seats of its server are taken: {there}"


def command_of(words: Words) -> str:
    """The command as it is typed."""
    return "./lab" if words.name == "lab" else words.name


def setup_from(program: str, path: str) -> Setup:
    """The setup in a file, up to `open` if that is there, if the program finds no fault in it."""
    from .language.lines import lines_of, opens
    from .link.laboratory import Unknown
    from .link.programs import check_setup
    from .model.setups import Setup
    from .scripts import texts
    from .scripts.proofreading import setup_slip

    lines = list(takewhile(lambda line: not opens(line), lines_of(texts.read(path))))
    fault = check_setup(program, lines)
    if fault:
        raise Unknown(f"{path}: {setup_slip(fault, lines)}")
    return Setup.of(lines)


def dialogue(loop: Shell) -> None:
    """Takes lines from a terminal, with a history; an interrupt gives up only the line."""
    history = os.path.expanduser(os.environ.get("PFL_LAB_HISTORY", HISTORY))
    keep_history(history)
    loop.watch()
    while True:
        try:
            loop.cmdloop()
            return
        except KeyboardInterrupt:
            print("^C")


def keep_history(path: str) -> None:
    """Reads the lines of earlier dialogues, and has those of this one written when it ends."""
    try:
        import atexit
        import readline
    except ImportError:
        return
    readline.set_completer_delims(" \t")
    if not path:
        return
    try:
        readline.read_history_file(path)
    except OSError:
        pass
    readline.set_history_length(1000)
    atexit.register(write_history, path)


def write_history(path: str) -> None:
    import readline

    try:
        readline.write_history_file(path)
    except OSError:
        pass


def import_(words: Words) -> int:
    """Takes in the rules of an interface from a pf.conf."""
    from .importing.command import carry_out

    return carry_out(words)


WORDS: Dict[str, Callable[[Words], int]] = {
    "shell": shell,
    "verify": verify,
    "annotate": annotate,
    "chart": chart,
    "page": page,
    "sheet": sheet,
    "frames": frames,
    "whatif": whatif,
    "depends": depends,
    "compare": compare,
    "capture": capture,
    "import": import_,
}
