"""Wrong bodies of the libraries, all in one build, of which a run asks for one.

A body of `scenes/wrong/bodies.edits` is a paragraph: its name, what it does, its scene and the bound by which that finds it, and the edits of
sources, each a text that is once in the file, with any blanks and line ends between its words, and what replaces it. There `OLD` is that text,
and `IS_WRONG` asks whether this body is asked for: the explorer answers in place of the system's `getpid`.
"""
import dataclasses
import re

from instrument import NotExplored
from repository import bodies_in, edits_in


@dataclasses.dataclass(frozen=True)
class Body:
    name: str
    number: int
    scene: str
    bound: str
    edits: tuple[tuple[str, str, str], ...]

    def changed(self, file, text, old, new):
        """The text of a file with one of the edits in it."""
        found = re.findall(r"\s+".join(map(re.escape, old.split())), text)
        if len(found) != 1:
            raise NotExplored(f"{self.name}: {file} has {len(found)} times: {old}")
        new = " ".join(new.split()).replace("OLD", found[0])
        return text.replace(found[0], new.replace("IS_WRONG", f"libc::getpid() == {self.number}"))


def read_bodies(table):
    """Reads the bodies of a table. A text may be over several lines."""
    bodies = []
    for name, text in bodies_in(table):
        scene, _, bound = re.search(r"^scene: (.*)", text, re.M)[1].partition(" | ")
        bodies.append(Body(name, len(bodies) + 1, scene, bound, tuple(edits_in(text))))
    return bodies


def switch_on(room, bodies):
    """Puts the bodies into the libraries of the room, and lets each of these ask which body is wanted."""
    crates, listed = set(), room / "crates.txt"
    for body in bodies:
        for file, old, new in body.edits:
            text = (room / file).read_text(encoding="utf-8")
            (room / file).write_text(body.changed(file, text, old, new), encoding="utf-8")
            crates.add(file.split("/")[1])
    lines = listed.read_text(encoding="utf-8")
    listed.write_text(re.sub(rf"^({'|'.join(crates)}):", r"\1: libc", lines, flags=re.M) if crates else lines, encoding="utf-8")
