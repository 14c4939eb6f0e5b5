"""The deepest inputs that the limits of the language let through, and the least stack by which each is answered."""
import resource
import subprocess
from typing import NamedTuple

SCRIPT_BYTES = 65_536
SECONDS = 300
# the stack that a system gives a program, in KB
USUAL = 8192


class Deep(NamedTuple):
    name: str
    script: str
    lines: list
    # what is written behind `ready 1`
    written: str


def wrapped(front, behind, levels, inner):
    return front * levels + inner + behind * levels


def nested():
    """Expressions of 256 levels, and of 64 brackets with them."""
    minus, number = "- ", "-1"
    yield Deep("a query of 256 levels", "", [f"1? {minus * 255}1"], f"{number}\n")
    choices = wrapped("IF TRUE THEN 1 ELSE ", " END IF", 255, "1")
    yield Deep("a query of 256 levels, each an operand of IF", "", [f"1? {choices}"], "1\n")
    conditions = wrapped("IF ", " THEN 1 ELSE 1 END IF", 255, "1")
    brackets = wrapped("(", ")", 64, conditions)
    yield Deep("a query of 256 levels in 64 brackets", "", [f"1? {brackets}"], "fault type\n")
    base = "VAR R BASE RELATION { A INTEGER } KEY { A };\n"
    # (the tuple and the relation are two levels)
    insert = f"1: INSERT R RELATION {{ TUPLE {{ A {minus * 253}1 }} }};"
    written = "1.1 done\nRELATION { A INTEGER } { TUPLE { A -1 } }\n"
    yield Deep("a statement of 256 levels", base, [insert, "1? R"], written)
    yield Deep("a script of 256 levels", f"CONSTRAINT C {'NOT ' * 254}1 = 1;\n", ["1? 1"], "1\n")
    heading = wrapped("RELATION { A ", " }", 64, "INTEGER")
    shown = f"{heading} {{ }}\n"
    yield Deep("a heading of 64 brackets", f"VAR R BASE {heading} KEY {{ A }};\n", ["1? R"], shown)


def chained(operator, levels):
    """Virtual relvars of so many levels each, one over the other, as many as a script has room for; and how many."""
    lines = ["VAR V0 BASE RELATION{A INTEGER}KEY{A};\n"]
    room = SCRIPT_BYTES - len(lines[0])
    while True:
        line = f"VAR V{len(lines)} VIRTUAL(V{len(lines) - 1}{f' {operator}' * levels});\n"
        room -= len(line)
        if room < 0:
            return "".join(lines), len(lines) - 1
        lines.append(line)


def virtual():
    """Values that a chain of virtual relvars makes deeper and deeper."""
    insert = "1: INSERT V0 RELATION { TUPLE { A 1 } };"
    script, last = chained("WRAP({A}AS A)", 250)
    kind, value = (wrapped("TUPLE { A ", " }", 250 * last, inner) for inner in ("INTEGER", "1"))
    lines = [insert, f"1? V{last} = V{last}", f"1? V{last}"]
    written = f"1.1 done\nTRUE\nRELATION {{ A {kind} }} {{ TUPLE {{ A {value} }} }}\n"
    yield Deep(f"tuples in tuples, {250 * last} levels", script, lines, written)
    script, last = chained("GROUP({A}AS A)", 250)
    lines = [insert, f"1? V{last} = V{last}", f"1? COUNT ( V{last} UNION V{last} )"]
    yield Deep(f"relations in relations, {250 * last} levels", script, lines, "1.1 done\nTRUE\n1\n")


def in_branches():
    """A chain of virtual relvars of 255 levels each, of which each names the one before it."""
    chosen = [wrapped("IF 1=2 THEN R ELSE ", " END IF", 253, it) for it in ("R", "V1", "V2", "V3", "V4", "V5", "V6")]
    virtual_relvars = [f"VAR V{n} VIRTUAL({it});\n" for n, it in enumerate(chosen[:-1], 1)]
    script = "".join(["VAR R BASE RELATION { A INTEGER } KEY { A };\n", *virtual_relvars])
    lines = ["1: INSERT R RELATION { TUPLE { A 1 } };", f"1? COUNT ( {chosen[-1]} )"]
    yield Deep("virtual relvars of 255 levels, one within another", script, lines, "1.1 done\n1\n")


# so many relations are in a type, one in another, and the type before in the innermost: as many as a statement's
# brackets suffice to make
IN_TYPE = 29


class Stored(NamedTuple):
    """A type, a relvar of its values, the statement that makes one of the value before, and how that is shown."""

    definitions: str
    statement: str
    shown: str


def deeper(n, before):
    """The n-th type, behind the one before."""
    kind = f"T{n - 1}" if n > 1 else "INTEGER"
    shown, inner = before.shown, kind
    for _ in range(IN_TYPE):
        shown, inner = f"RELATION {{ A {inner} }} {{ TUPLE {{ A {shown} }} }}", f"RELATION {{ A {inner} }}"
    possrep, value = wrapped("RELATION{A ", "}", IN_TYPE, kind), wrapped("RELATION{TUPLE{A ", "}}", IN_TYPE, "A")
    definitions = f"TYPE T{n} POSSREP{{A {possrep}}};\nVAR R{n} BASE RELATION{{A T{n}}}KEY{{A}};\n"
    statement = f"1: INSERT R{n} ((EXTEND R{n - 1} ADD(T{n}({value}) AS B)){{B}}) RENAME(B AS A);"
    return Stored(definitions, statement, f"T{n} ( {shown} )")


def stored():
    """Values that statements make deeper and deeper, since a type has relations of the one before it."""
    made = [Stored("VAR R0 BASE RELATION{A INTEGER}KEY{A};\n", "1: INSERT R0 RELATION{TUPLE{A 1}};", "1")]
    next, room = deeper(1, made[0]), SCRIPT_BYTES - len(made[0].definitions)
    while room >= len(next.definitions):
        made.append(next)
        room -= len(next.definitions)
        next = deeper(len(made), next)
    last = len(made) - 1
    relvar, shown = f"R{last}", f"RELATION {{ A T{last} }} {{ TUPLE {{ A {made[last].shown} }} }}"
    changes = [f"1: UPDATE {relvar} ( A := A );", f"1: DELETE {relvar} WHERE A = A;"]
    lines = [it.statement for it in made] + [f"1? {relvar} JOIN {relvar} = {relvar}", f"1? {relvar}", *changes]
    done = [f"{n}.1 done\n" for n in range(1, last + 4)]
    written = "".join([*done[:-2], f"TRUE\n{shown}\n", *done[-2:]])
    levels, script = last * (2 * IN_TYPE + 1), "".join(it.definitions for it in made)
    yield Deep(f"stored values of {levels} levels", script, lines, written)


def inputs():
    yield from nested()
    yield from virtual()
    yield from in_branches()
    yield from stored()


def is_answered(program, deep, stack):
    """Whether the program answers by a stack of so many KB."""

    def limited():
        resource.setrlimit(resource.RLIMIT_STACK, (stack * 1024, stack * 1024))
        resource.setrlimit(resource.RLIMIT_CORE, (0, 0))

    text = f"{deep.script}.begin\n" + "".join(f"{it}\n" for it in deep.lines)
    how = {"input": text.encode(), "capture_output": True, "preexec_fn": limited, "timeout": SECONDS, "check": False}
    ran = subprocess.run([program, "--sites", "1"], **how)
    return (ran.returncode, ran.stdout.decode(), ran.stderr) == (0, f"ready 1\n{deep.written}", b"")


def least_stack(program, deep, step=16):
    """The least stack by which the program answers, in KB, to the next greater step."""
    least, most = 0, USUAL // step
    while least + 1 < most:
        middle = (least + most) // 2
        if is_answered(program, deep, middle * step):
            most = middle
        else:
            least = middle
    return most * step
