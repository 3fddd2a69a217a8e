"""Runs of built programs, and how each has to end: what `run_fbuf` and `refuse_memory` have in common."""
import dataclasses
import itertools
import os
import pathlib
import re
import resource
import shlex
import subprocess
import sys

from repository import ROOT

CRATES = ROOT / "crates"
SCRIPTS = CRATES / "fbuf" / "scripts"
# A run that takes longer has not ended. The longest takes a tenth of a second, except tests, which have as long as `rt` gives them.
SECONDS = 10
SECONDS_OF_TEST = 60


@dataclasses.dataclass(frozen=True)
class Ended:
    """How a run ended. After a signal the status is its number below zero; it is None if the run did not end."""

    status: int | None
    output: bytes
    errors: bytes


@dataclasses.dataclass(frozen=True)
class StoredRun:
    """What a program is run on, and how it has to end. Its input is a text or a file. Output and errors go to the files of `to`, in this
    order, or are kept. A limit is what is limited, as `resource` numbers it, and how much of it there is."""

    name: str
    program: str
    words: tuple[str, ...]
    given: pathlib.Path | bytes
    folder: pathlib.Path
    to: tuple[str, ...]
    wanted: Ended
    limits: tuple[tuple[int, int], ...] = ()
    seconds: int = SECONDS


def bytes_of(path):
    """What the file has, or nothing if there is none."""
    return path.read_bytes() if path.is_file() else b""


# What a line of a case may set, before a colon; its other lines are rows of the script.
SETTINGS = ("words", "from", "limit", "to", "output", "errors", "status", "cut")


def bytes_in(lines):
    """What lines of a case stand for, each with a line feed: a letter is one byte, and `\\x0d` is the byte of that number."""
    return b"".join(line.encode("ascii").decode("unicode_escape").encode("latin-1") + b"\n" for line in lines)


def values_in(text):
    """The values of a row `for N in VALUES: ROW`: words as a shell reads them, and spans as `0..599`, whose ends both count."""
    for word in shlex.split(text):
        span = re.fullmatch(r"(\d+)(?:\.\.(\d+))?", word)
        yield from range(int(span[1]), int(span[2] or span[1]) + 1) if span else [word]


def rows_of(row):
    """The rows that `for N in VALUES: ROW` stands for: a term in braces, as `{N - 1}`, is worked out. Another row stands for itself."""
    found = re.fullmatch(r"for (\w+) in (.*?): (.*)", row)
    if not found:
        return [row]
    name, values, repeated = found.groups()
    return [re.sub(r"\{(.*?)\}", lambda term: str(eval(term[1], {name: value})), repeated) for value in values_in(values)]


def parts_of(text):
    """What the text lists between semicolons. `poll*3` is three."""
    for part in text.split("; "):
        found = re.fullmatch(r"(.*)\*(\d+)", part)
        yield from [found[1]] * int(found[2]) if found else [part]


def made_by(rows):
    """The script and the replies that rows `LINE; LINE => REPLY; REPLY` stand for. With no arrow the lines have no replies."""
    script, replies = [], []
    for row in itertools.chain.from_iterable(map(rows_of, rows)):
        lines, arrow, said = row.partition(" => ")
        lines, said = list(parts_of(lines)), list(parts_of(said)) if arrow else []
        if arrow and len(lines) != len(said):
            sys.exit(f"{row}: there are {len(lines)} lines and {len(said)} replies")
        script += lines
        replies += said
    return bytes_in(script), bytes_in(replies)


def cases_in(path):
    """Each case of a file: its name, what is set, and the rows of its script."""
    for text in re.split(r"^# ", path.read_text(encoding="ascii"), flags=re.M)[1:]:
        name, *lines = [line for line in text.split("\n") if line]
        case, rows = {what: [] for what in SETTINGS}, []
        for line in lines:
            what, colon, value = line.partition(": ")
            if colon and what in SETTINGS:
                case[what] += value.split("; ")
            else:
                rows.append(line)
        yield name, case, rows


def runs_of_fbuf():
    """Each case of crates/fbuf/scripts, once for each of its `words`."""
    for name, case, rows in itertools.chain.from_iterable(map(cases_in, sorted(SCRIPTS.iterdir()))):
        script, replies = made_by(rows)
        given = pathlib.Path(*case["from"]) if case["from"] else script[: len(script) - sum(map(int, case["cut"]))]
        wanted = Ended(sum(map(int, case["status"])), replies + bytes_in(case["output"]), bytes_in(case["errors"]))
        # What is limited, each as `as 8388608` for RLIMIT_AS.
        limits = tuple((getattr(resource, f"RLIMIT_{what.upper()}"), int(most)) for what, most in map(str.split, case["limit"]))
        for words in case["words"] or [""]:
            call = shlex.split(bytes_in([words]).decode(errors="surrogateescape"))
            yield StoredRun(f"{name} {words}".strip(), "fbuf", tuple(call), given, SCRIPTS, tuple(case["to"]), wanted, limits)


def run_of_crate(name):
    """What the gate runs the program of a crate on: the files next to its src/."""
    folder = CRATES / name
    words = tuple(bytes_of(folder / "args").decode().splitlines())
    given = next(path for path in (folder / "stdin", pathlib.Path(os.devnull)) if path.exists())
    data = next(path for path in (folder / "data", folder) if path.exists())
    wanted = Ended(int(bytes_of(folder / "status") or b"0"), bytes_of(folder / "stdout"), b"")
    return StoredRun(name, name, words, given, data, (), wanted)


def runs_of_calls():
    """Each file that `calls` reads, alone. Its replies are the line that begins with its name."""
    whole = run_of_crate("calls")
    for file in whole.words:
        lines = [line for line in whole.wanted.output.splitlines(True) if line.startswith(f"{file}:".encode())]
        wanted = dataclasses.replace(whole.wanted, output=b"".join(lines))
        yield dataclasses.replace(whole, name=file, words=(file,), wanted=wanted)


def runs_of_tests(program):
    """Each test of a built crate of tests, alone."""
    listed = subprocess.run([os.path.abspath(program), "--list"], capture_output=True, check=True, text=True).stdout
    for test in [line.removesuffix(": test") for line in listed.splitlines() if line.endswith(": test")]:
        wanted = Ended(0, b"", b"")
        yield StoredRun(test, program.name, (test,), pathlib.Path(os.devnull), ROOT, (), wanted, seconds=SECONDS_OF_TEST)


def built(name, ending=""):
    """The programs that the gate, or `rt run`, left of a crate: by LLVM, and by Rattle's own compiler. With an ending, its tests."""
    made = CRATES / name / "out" / f"{name}{ending}"
    found = [path for path in (made, made.with_name(f"{name}.by-rattle")) if path.is_file()]
    if not found:
        sys.exit(f"there is no {made.relative_to(ROOT)}: `rt ci` leaves it, and so does `rt run` in crates/{name}")
    return found


# A pipe without a reader. It is made before there is a second thread: a process that is forked meanwhile would hold its reader up to its exec.
reader, CLOSED = os.pipe()
os.close(reader)


def holding(text):
    """A descriptor from which this is read."""
    given = os.memfd_create("given")
    os.write(given, text)
    os.lseek(given, 0, os.SEEK_SET)
    return given


def end_of(run, program, environment=None):
    """Runs the program, in an environment of its own, and says how it ended."""
    given = os.open(run.given, os.O_RDONLY) if isinstance(run.given, pathlib.Path) else holding(run.given)
    places = [os.dup(CLOSED) if place == "closed" else os.open(place, os.O_WRONLY) for place in run.to]
    output, errors = [*places, subprocess.PIPE, subprocess.PIPE][:2]
    words = [os.path.abspath(program), *run.words]
    how = {"stdin": given, "stdout": output, "stderr": errors, "cwd": run.folder, "env": environment or {}}
    if run.limits:
        how["preexec_fn"] = lambda: [resource.setrlimit(what, (most, most)) for what, most in run.limits]
    try:
        ended = subprocess.run(words, timeout=run.seconds, **how)
        return Ended(ended.returncode, ended.stdout or b"", ended.stderr or b"")
    except subprocess.TimeoutExpired as late:
        return Ended(None, late.stdout or b"", late.stderr or b"")
    finally:
        for descriptor in (given, *places):
            os.close(descriptor)


def faults_of(wanted, found):
    """What differs from what is wanted: the status, and the first line of the output and of the errors that does."""
    if found.status is None:
        yield "it had not ended in time"
    elif found.status != wanted.status:
        yield f"status {found.status}, and not {wanted.status}"
    for what in ("output", "errors"):
        texts = (getattr(one, what).splitlines(True) for one in (wanted, found))
        for number, (one, other) in enumerate(itertools.zip_longest(*texts, fillvalue=b""), 1):
            if one != other:
                one, other = (text[:80].decode(errors="replace") for text in (one, other))
                yield f"{what}: line {number} is {other!r}, and not {one!r}"
                break
