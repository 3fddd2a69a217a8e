"""What several scripts have in common: the crates of this repository, the clauses of its sources, and how a program is laid out next to a copy
of the libraries.

    python3 scripts/repository.py     prints the crates, one in each line
"""
import collections
import pathlib
import re
import shutil
import subprocess
import sys

ROOT = pathlib.Path(__file__).resolve().parent.parent


def name_of(line):
    """The crate that a line of a crates.txt lists, or nothing if it lists none."""
    found = re.match(r"[\w-]+", line.partition("#")[0].strip())
    return found[0] if found else None


def listed_in(text):
    """The line of each crate that a crates.txt lists, without its comment, by the crate's name."""
    return {name_of(line): line.partition("#")[0].strip() for line in text.splitlines() if name_of(line)}


# The line of each crate of this repository.
LISTED = listed_in((ROOT / "crates.txt").read_text(encoding="utf-8"))


def needs_of(crate):
    """The crates of this repository that a crate needs."""
    return [name for name in LISTED[crate].partition(":")[2].split() if name in LISTED]


def with_those_below(crates):
    """These crates and each that they need, the lowest first."""
    found = []
    for crate in crates:
        found += [name for name in (*with_those_below(needs_of(crate)), crate) if name not in found]
    return found


def end_of_clause(text, start):
    """Where the braces that open after this place are closed, or the semicolon of an item that ends with one."""
    depth = 0
    for place in range(start, len(text)):
        depth += (text[place] == "{") - (text[place] == "}")
        if depth == 0 and (text[place] == ";" or (text[place] == "}" and not text.startswith("ghost", start))):
            return place
    return len(text)


def clauses_in(text):
    """Each clause of a source, in one line and without comments: `requires`, `ensures` and `ghost` items."""
    text = re.sub(r"//[^\n]*", "", text)
    for found in re.finditer(r"\b(requires|ensures|ghost)\b", text):
        yield " ".join(text[found.start() : end_of_clause(text, found.start())].split())


# A function of a source: its lines, and where its body begins and ends.
Function = collections.namedtuple("Function", "name first_line last_line body end")


def functions_in(text):
    """Each function of a source that has a body, but none inside another function."""
    blank = lambda part: re.sub(r"[^\n]", " ", part)
    text = re.sub(r"//[^\n]*|\"(\\.|[^\"\\])*\"|'(\\[^\n]|[^\\'\n])'", lambda found: blank(found[0]), text)
    for found in re.finditer(r"\b(requires|ensures)\b", text):
        end = end_of_clause(text, found.start())
        text = text[: found.start()] + blank(text[found.start() : end]) + " " + text[end + 1 :]
    end = 0
    for found in re.finditer(r"\bfn (\w+)([^{};\[]|\[[^\]]*\])*\{", text):
        if found.start() >= end:
            end = end_of_clause(text, found.end() - 1)
            first, last = (text.count("\n", 0, place) + 1 for place in (found.start(), end))
            yield Function(found[1], first, last, found.end(), end)


def run(words, folder=None):
    """Runs a command without input, and returns how it ended and what it said."""
    words = [str(word) for word in words]
    return subprocess.run(words, cwd=folder, stdin=subprocess.DEVNULL, capture_output=True, text=True, errors="replace")


def bodies_in(table):
    """The wrong bodies of a file: the name of each, and its other lines."""
    head, *texts = re.split(r"^name: ", table.read_text(encoding="utf-8"), flags=re.M)
    for name, _, lines in (text.strip("\n").partition("\n") for text in texts):
        if re.search(r"^[^#\n]", head, re.M) or "\n\n" in lines:
            sys.exit(f"{table}: a paragraph before or after {name} has no name")
        yield name, lines + "\n"


def edits_in(text):
    """The edits of a wrong body: the file of each, the text that it looks for, and the text that takes its place. A line that begins with a blank
    belongs to the text above it."""
    for part in re.split(r"^file: ", text, flags=re.M)[1:]:
        for old, new in re.findall(r"^old: (.*(?:\n .*)*)\nnew:(?: (.*(?:\n .*)*))?$", part, re.M):
            yield part.partition("\n")[0], old, new


def copy_libraries(room):
    """Copies the libraries into another repository."""
    copied = run([sys.executable, ROOT / "scripts" / "copy_crates", room])
    if copied.returncode:
        sys.exit(copied.stderr)


def lines_in(file):
    """The lines of a crates.txt, or none if it is missing."""
    return file.read_text(encoding="utf-8").splitlines() if file.exists() else []


def list_crates(file, wanted):
    """Gives each of these crates its line in a crates.txt, and returns the new lines."""
    before = lines_in(file)
    lines = [wanted.get(name_of(line), line) for line in before]
    listed = {name_of(line) for line in lines}
    lines += [line for name, line in wanted.items() if name not in listed]
    file.write_text("".join(line + "\n" for line in lines), encoding="utf-8")
    return [line for line in wanted.values() if line not in before]


def add_crate(room, name, uses, sources):
    """Adds a crate to another repository, or replaces it: its line of crates.txt, and its sources, each as a module. Returns its folder."""
    list_crates(room / "crates.txt", {name: f"{name}: {uses}"})
    folder = room / "crates" / name
    shutil.rmtree(folder / "src", ignore_errors=True)
    (folder / "src").mkdir(parents=True)
    for source in sources:
        shutil.copy(source, folder / "src" / f"{source.stem}.rt")
    return folder


def lay_out_program(room, name, folder):
    """Makes a user's repository: the libraries, and the sources of this folder as a crate over those of its file `uses`. Returns the crate."""
    copy_libraries(room)
    shutil.copy(ROOT / "HANDLES", room)
    return add_crate(room, name, (folder / "uses").read_text(encoding="utf-8").strip(), folder.glob("*.rs"))


if __name__ == "__main__":
    print("\n".join(LISTED))
