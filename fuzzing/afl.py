"""AFL++ with a build of the program that reports which of its branches a script takes."""
from __future__ import annotations

import glob
import os
import shutil
import subprocess
from typing import Dict, Iterator, List

from .corpora import corpus
from .vocabulary import ALIKE, EDGES

NAME = "pfl_lab"
RUNTIME = "/usr/lib/afl/afl-compiler-rt.o"
LONGEST_SCRIPT = 4096
# A script may take this long, in milliseconds: the greatest limits need time for their tables.
TIMEOUT = "5000"
ENVIRONMENT = {
    "AFL_AUTORESUME": "1",
    # Running out of memory is a find, too.
    "AFL_CRASH_EXITCODE": "3",
    "AFL_I_DONT_CARE_ABOUT_MISSING_CRASHES": "1",
    "AFL_NO_AFFINITY": "1",
    "AFL_NO_UI": "1",
    "AFL_PYTHON_MODULE": "fuzzing.mutator",
    "AFL_SKIP_CPUFREQ": "1",
}


class Missing(Exception):
    """Something that is needed is missing."""


def found_by_afl(top: str, room: str, minutes: float, jobs: int) -> Dict[str, List[str]]:
    """Runs AFL++ for a while; returns the paths of the scripts that it has kept so far: its queue, crashes and hangs."""
    for command in ("afl-fuzz", "cc", "rt"):
        if not shutil.which(command):
            raise Missing(f"there is no {command} on the path")
    if not os.path.isfile(RUNTIME):
        raise Missing(f"there is no {RUNTIME}")
    os.makedirs(room, exist_ok=True)
    program = instrumented(top, room)
    write_corpus(top, f"{room}/scripts")
    write_dictionary(f"{room}/words")
    words = ["afl-fuzz", "-i", f"{room}/scripts", "-o", f"{room}/found", "-x", f"{room}/words", "-t", TIMEOUT]
    run_side_by_side([*words, "-V", str(round(60 * minutes))], [program, "run"], f"{room}/log", jobs, top)
    return {kind: sorted(glob.glob(f"{room}/found/*/{kind}/id:*")) for kind in ("queue", "crashes", "hangs")}


def run_side_by_side(words: List[str], program: List[str], log: str, jobs: int, top: str) -> None:
    """Runs this many processes, which share what they find."""
    names = [["-M", "first"], *(["-S", f"other-{it}"] for it in range(1, jobs))]
    with open(log, "w", encoding="utf-8") as file:
        env = {**os.environ, **ENVIRONMENT, "PYTHONPATH": top}
        commands = ([*words, *name, "--", *program] for name in names)
        runs = [subprocess.Popen(command, env=env, stdin=subprocess.DEVNULL, stdout=file, stderr=file) for command in commands]
        statuses = [run.wait() for run in runs]
    if any(statuses):
        raise Missing(f"afl-fuzz stopped; its output is in {log}")


# ---- the program


def instrumented(top: str, room: str) -> str:
    """The proved program as the kit compiles it, except for one flag of its clang; the libraries must be built."""
    page = subprocess.run(["rt", "doc"], stdout=subprocess.PIPE, text=True, check=True).stdout.strip()
    kit, program = os.path.dirname(page), f"{room}/{NAME}"
    if is_newer(program, f"{top}/crates/{NAME}/out/{NAME}"):
        return program
    write_toolchain(f"{kit}/toolchain", f"{room}/toolchain")
    words = [f"{kit}/bin/rattle", "build", *build_words(kit, f"{top}/crates"), "--toolchain", f"{room}/toolchain"]
    with open(f"{room}/build.log", "w", encoding="utf-8") as log:
        libraries = [f"{kit}/c/libos_c.a", f"{kit}/c/liblibc_c.a", RUNTIME, "-lm", "-lpthread", "-ldl"]
        commands = ([*words, "-o", f"{program}.o"], ["cc", "-o", program, f"{program}.o", *libraries])
        ran = (subprocess.run(command, cwd=f"{top}/crates/{NAME}", stdout=log, stderr=log) for command in commands)
        is_built = not any(it.returncode for it in ran)
    if not is_built:
        raise Missing(f"the program could not be built for AFL++; the compilers' output is in {room}/build.log")
    return program


def is_newer(program: str, proved: str) -> bool:
    """Whether the program was built after the proved one; the kit takes minutes to read what was proved."""
    return all(map(os.path.isfile, (program, proved))) and os.stat(program).st_mtime > os.stat(proved).st_mtime


def write_toolchain(kit: str, folder: str) -> None:
    """A folder of links into the kit's toolchain, except clang, which is a script that makes it count branches."""
    os.makedirs(f"{folder}/bin", exist_ok=True)
    links = {f"{folder}/lib": f"{kit}/lib", **{f"{folder}/bin/{it}": f"{kit}/bin/{it}" for it in os.listdir(f"{kit}/bin")}}
    for path, to in links.items():
        if os.path.lexists(path):
            os.remove(path)
        if not path.endswith("/clang"):
            os.symlink(to, path)
    with open(f"{folder}/bin/clang", "w", encoding="utf-8") as it:
        it.write(f'#!/bin/sh\nexec "{kit}/bin/clang" "$@" -fsanitize-coverage=trace-pc-guard\n')
    os.chmod(f"{folder}/bin/clang", 0o755)


def build_words(kit: str, crates: str) -> Iterator[str]:
    """The words with which the kit's `rt` builds the program, from the built libraries below it."""
    libraries = libraries_of(f"{crates}.txt")
    yield from ("--crate-name", NAME, "src/main.rt", "--links", f"{NAME}=", "--jobs", "1", "--incremental", "out/incremental")
    yield from ("--antt-project", f"{kit}/rattle/logic/antt-project.json", "--logic-built", f"{kit}/logic_built")
    yield from ("--extern", f"std={kit}/rlibs/std.rlib", "-L", f"dependency={kit}/rlibs")
    for it in libraries[NAME]:
        yield from ("--extern", f"{it}={crates}/{it}/out/rlib/{it}.rlib")
    for it in below(libraries, NAME):
        yield from ("-L", f"dependency={crates}/{it}/out/rlib")


def libraries_of(path: str) -> Dict[str, List[str]]:
    """The libraries of each crate in the file crates.txt."""
    with open(path, encoding="utf-8") as it:
        lines = [line.partition("#")[0].partition(":") for line in it]
    return {before.split()[0]: after.split() for before, colon, after in lines if colon}


def below(libraries: Dict[str, List[str]], crate: str) -> Dict[str, None]:
    """The libraries of the repository below a crate, at any depth, each once."""
    found = {it: None for it in libraries[crate] if it in libraries}
    return {name: None for it in found for name in (it, *below(libraries, it))}


def write_corpus(top: str, folder: str) -> None:
    """The scripts of the corpus without comments, except the long ones."""
    shutil.rmtree(folder, ignore_errors=True)
    os.makedirs(folder)
    for number, script in enumerate(corpus(top)):
        lines = [it for it in (*script.setup, *script.commands) if it and not it.startswith("#")]
        text = "".join(f"{line}\n" for line in lines)
        if len(text) <= LONGEST_SCRIPT:
            with open(f"{folder}/{number}.pfl", "w", encoding="latin-1", newline="") as it:
                it.write(text)


def write_dictionary(path: str) -> None:
    """The words of the language and the numbers at its edges, each on a line of its own."""
    words = dict.fromkeys([*(word for words in ALIKE for word in words), *map(str, EDGES)])
    with open(path, "w", encoding="ascii") as it:
        it.writelines(f'"{word}"\n' for word in words)
