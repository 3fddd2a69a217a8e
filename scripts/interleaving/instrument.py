"""Makes calls of the explorer out of the steps of a program, in the text of its module for LLVM.

Each atomic instruction becomes a call that has its kind, its width and the number of its place. A call by which the program starts, joins,
parks or wakes a thread, takes memory or asks the system for something gets the name of the explorer's function in its place. The words that
the program may write outside of its heap go into a section of their own, by which the explorer finds them.

An instruction of a form that is not known here is a fault, and so is a function of the system that is not.
"""
import re

# What the explorer does in place of the system.
REPLACED = """_exit abort free getentropy getpid getrandom malloc pthread_create pthread_detach pthread_join pthread_self rattle_alloc rattle_arg
    rattle_arg_count rattle_dealloc rattle_env rattle_env_at rattle_realloc sched_yield syscall write""".split()
# What has nothing to do with the order of steps.
LEFT = """__sysv_signal __xpg_strerror_r bcmp close memcmp memcpy memmove memset pthread_attr_destroy pthread_attr_init pthread_attr_setguardsize
    pthread_attr_setstacksize rattle_errno rattle_set_errno read strlen""".split()
OPERATIONS = {"xchg": "swap", "add": "add", "sub": "sub", "and": "and", "or": "or", "xor": "xor"}
COUNTS = {"std_alloc::arc::increment": "COUNTS_UP", "std_alloc::arc::decrement": "COUNTS_DOWN"}

ATOMIC = re.compile(r"\b(?:load|store) atomic\b|\bcmpxchg\b|\batomicrmw\b|^\s*fence\b")
# The forms of an atomic instruction: its result, its place, and one or two values of so many bits.
FORMS = [
    r"(?P<to>\s*%\S+ = )(?P<name>load) atomic (?:volatile )?i(?P<bits>\d+), ptr (?P<at>\S+) \w+",
    r"(?P<to>\s*)(?P<name>store) atomic (?:volatile )?i(?P<bits>\d+) (?P<given>\S+), ptr (?P<at>\S+) \w+",
    rf"(?P<to>\s*%\S+ = )atomicrmw (?:volatile )?(?P<name>{'|'.join(OPERATIONS)}) ptr (?P<at>\S+), i(?P<bits>\d+) (?P<given>\S+) \w+",
    r"(?P<to>\s*%\S+ = )(?P<name>cmpxchg) (?:weak )?(?:volatile )?ptr (?P<at>\S+), i(?P<bits>\d+) (?P<given>\S+), i\d+ (?P<other>\S+) \w+ \w+",
]
ASSEMBLER = re.compile(r"\bcall\b[^\"]*\basm\b(?! sideeffect \"\", \"~\{memory\}\"\(\))")
FUNCTION = re.compile(r'^(define|declare)\b.*?@("[^"]*"|[\w.$]+)\(')
WRITABLE = re.compile(r"^@\S+ = .*\bglobal\b")
CALLED = re.compile(r"@(" + "|".join(REPLACED) + r")\(")


class NotExplored(Exception):
    """There is no program that the explorer can run."""


def calls_for(line, function, site):
    """The lines in place of an atomic instruction of this function. An exchange tells what was there, and whether it was the one given."""
    found = next(filter(None, (re.fullmatch(form + r", align \d+(?:, !.*)?", line) for form in FORMS)), None)
    if found is None:
        raise NotExplored(f"an atomic instruction of a form that is not known, in {function}: {line.strip()}")
    it = {"given": "0", "other": "0", **found.groupdict()}
    kind, name = f"i{it['bits']}", {"cmpxchg": "exchange", **OPERATIONS}.get(it["name"], it["name"])
    call = f"call {kind} @explored_{name}{it['bits']}(ptr {it['at']}, {kind} {it['given']}, {kind} {it['other']}, i32 {site})"
    if name != "exchange":
        return [it["to"] + call]
    was, same, half = (f'%"{site}.{part}"' for part in ("was", "same", "half"))
    return [
        f"  {was} = {call}",
        f"  {same} = icmp eq {kind} {was}, {it['given']}",
        f"  {half} = insertvalue {{ {kind}, i1 }} poison, {kind} {was}, 0",
        f"{it['to']}insertvalue {{ {kind}, i1 }} {half}, i1 {same}, 1",
    ]


def replaced(line, function):
    """A line of this function without an atomic instruction, with the explorer's functions in place of the system's."""
    declared = FUNCTION.match(line)
    name = declared[2].strip('"') if declared and declared[1] == "declare" else "llvm."
    if not name.startswith("llvm.") and name not in REPLACED and name not in LEFT:
        raise NotExplored(f"the program calls {name}, of which the explorer does not know whether it is a step")
    if ASSEMBLER.search(line):
        raise NotExplored(f"assembler in {function}, which may have steps: {line.strip()}")
    line = CALLED.sub(r"@explored_\1(", line)
    return re.sub(r"(, align \d+)", r', section "explored_words"\1', line) if WRITABLE.match(line) else line


def instrument(text):
    """Returns the module with its steps as calls, and the function of each atomic instruction."""
    lines, sites, function = [], [], ""
    for line in text.splitlines():
        if (found := FUNCTION.match(line)) and found[1] == "define":
            function = found[2].strip('"')
            line = line.replace("@main(", "@explored_main(") if function == "main" else line
        if ATOMIC.search(line):
            lines += calls_for(line, function, len(sites))
            sites.append(function)
        else:
            lines.append(replaced(line, function))
    if not sites or not any("@explored_main(" in line for line in lines):
        raise NotExplored("the module has no atomic instruction, or no function main")
    for bits in (8, 16, 32, 64):
        for name in ("load", "store", "exchange", *OPERATIONS.values()):
            lines.append(f"declare i{bits} @explored_{name}{bits}(ptr, i{bits}, i{bits}, i32)")
    return "\n".join(lines) + "\n", sites


def table_of(sites):
    """The table of the atomic instructions, in C."""
    counts = [next((count for begin, count in COUNTS.items() if function.startswith(begin)), "NO_COUNT") for function in sites]
    rows = "".join(f'    {{"{function}", {count}}},\n' for function, count in zip(sites, counts))
    return f'#include "explorer.h"\nconst struct site explored_sites[] = {{\n{rows}}};\n'
