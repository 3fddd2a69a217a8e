"""Catches the program that the toolchain compiles, and links it with the explorer.

`rt try` hands the whole program to the clang of the toolchain's folder as one module. Here it runs in a folder of links to the toolchain, in
which clang is a script that keeps that module and ends. So what users build is explored, except for the orders that clang may give to the plain
instructions between two steps, and nothing is proved.
"""
import pathlib
import shutil

from instrument import NotExplored, instrument, table_of
from repository import run

HERE = pathlib.Path(__file__).resolve().parent
MODULE = "module.bc"
# Smaller modules are of the toolchain itself.
LEAST_BYTES = 20_000
CLANG = ["--target=x86_64-unknown-linux-gnu", "--no-default-config", "-Wno-override-module", "-x", "ir"]
CLANG_PLACE = pathlib.Path("toolchain", "bin", "clang")
COMPILER = ["cc", "-O2", "-Wall", "-Wextra", "-fno-omit-frame-pointer"]


def must_run(words):
    ran = run(words)
    if ran.returncode:
        raise NotExplored(f"{' '.join(str(word) for word in words[:3])} .. ends with status {ran.returncode}:\n{ran.stderr[-3000:]}")
    return ran.stdout


def kit_folder():
    """The folder of the toolchain."""
    if not shutil.which("rt"):
        raise NotExplored("there is no command rt")
    return pathlib.Path(must_run(["rt", "doc"]).strip()).parent


def write_script(path, text):
    path.write_text("#!/bin/bash\n" + text, encoding="utf-8")
    path.chmod(0o755)


def link_all(folder, to, but):
    to.mkdir()
    for path in folder.iterdir():
        if path.name not in but:
            (to / path.name).symlink_to(path)


def make_trap(kit, trap, kept):
    """Makes the folder of links, whose clang keeps the first module of a program at this path."""
    link_all(kit, trap, but=("bin", "toolchain"))
    link_all(kit / "bin", trap / "bin", but=("rattle", "rt", "rtlib.py"))
    for name in ("rt", "rtlib.py"):
        shutil.copy(kit / "bin" / name, trap / "bin" / name)
    # Nothing is to be proved.
    write_script(trap / "bin" / "rattle", "exit 0\n")
    link_all(kit / "toolchain", trap / "toolchain", but=("bin",))
    tools, clang = (trap / CLANG_PLACE).parent, kit / CLANG_PLACE
    link_all(clang.parent, tools, but=("clang", "ld.lld", "llvm-ar"))
    is_program = f'[ -f {MODULE} ] && [ "$(stat -c %s {MODULE})" -gt {LEAST_BYTES} ]'
    write_script(tools / "clang", f'if {is_program}; then cp {MODULE} "{kept}"; exit 1; fi\nexec -a "$0" "{clang}" "$@"\n')
    for name in ("ld.lld", "llvm-ar"):
        (tools / name).symlink_to("clang")


def catch(crate, room):
    """Catches the program of a crate in a new folder, and makes calls of its steps. Returns how many atomic instructions it has."""
    room.mkdir()
    kit, trap, kept, text = kit_folder(), room / "kit", room / MODULE, room / "module.ll"
    make_trap(kit, trap, kept)
    tried = run([trap / "bin" / "rt", "try", "--steps", "1"], crate)
    if not kept.exists():
        raise NotExplored(f"rt try has handed no program to clang:\n{(tried.stdout + tried.stderr)[-3000:]}")
    must_run([kit / CLANG_PLACE, *CLANG, kept, "-S", "-emit-llvm", "-O0", "-o", text])
    explored, sites = instrument(text.read_text(encoding="utf-8"))
    (room / "explored.ll").write_text(explored, encoding="utf-8")
    (room / "sites.c").write_text(table_of(sites), encoding="utf-8")
    return len(sites)


def link(room, name, files):
    """Links these files with the explorer, which is compiled once in a folder."""
    explorer = room / "explorer.o"
    if not explorer.exists():
        must_run([*COMPILER, "-r", "-nostdlib", *sorted(HERE.glob("*.c")), "-o", explorer])
    must_run([*COMPILER, "-no-pie", "-I", HERE, explorer, *files, "-o", room / name])
    return room / name


def program_in(room, name="program", level="-O1"):
    """The program that was caught in this folder, over the explorer. With -O0 its calls keep their frames."""
    kit, made = kit_folder(), room / f"{name}.o"
    must_run([kit / CLANG_PLACE, *CLANG, room / "explored.ll", level, "-c", "-o", made])
    return link(room, name, [made, room / "sites.c", kit / "c" / "libos_c.a"])
