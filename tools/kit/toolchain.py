"""The toolchain's rt, which is a script and no library, as a module of the scripts beside this one."""
import difflib
import importlib.machinery
import inspect
import os
import re
import shutil
import subprocess
import sys
import tempfile
import threading
import time
import types
from collections import Counter

sys.dont_write_bytecode = True


def path_of_rt():
    path = shutil.which("rt") or sys.exit(f"{os.path.basename(sys.argv[0])}: there is no rt on the PATH")
    return os.path.realpath(path)


def load(used=()):
    """Returns rt as a module, or stops where it lacks a name that is used, or a function has other parameters there."""
    rt = types.ModuleType("rt")
    rt.__file__ = path_of_rt()
    importlib.machinery.SourceFileLoader("rt", rt.__file__).exec_module(rt)
    for name, parameters in dict(used).items():
        found = getattr(rt, name, None)
        if found is None or parameters is not None and [*inspect.signature(found).parameters] != parameters:
            wanted = f"{name}({', '.join(parameters or [])})"
            here = os.path.basename(sys.argv[0])
            sys.exit(f"{here}: {rt.__file__} has no {wanted}: this script was written for another rt")
    if sums_every_way(rt):
        sum_once(rt)
    return rt


def sums_every_way(rt):
    """Returns whether this rt sums the files of a crate once for each way down to it through crates.txt."""
    return "[dep.stamp() for dep in self.deps]" in inspect.getsource(rt.rtlib.Crate.stamp)


def sum_once(rt):
    """Has a sum of a crate read each crate below it once: the sums are the same."""
    made, here = rt.rtlib.Crate.stamp, threading.local()

    def stamp(crate):
        if not hasattr(here, "sums"):
            here.sums = {}
            try:
                return made(crate)
            finally:
                del here.sums
        if crate not in here.sums:
            here.sums[crate] = made(crate)
        return here.sums[crate]

    rt.rtlib.Crate.stamp = stamp


# What each crate takes, as gates printed it: by this, and not by lines, the gate finds its longest chain.
SECONDS = f"{os.path.dirname(os.path.realpath(__file__))}/seconds.txt"

# A crate that the file lacks takes this many processor seconds a line, and a program this many more to be compiled.
PER_LINE, PROGRAM = 0.2, 120


def noted_seconds():
    """Returns the processor seconds of each crate's proof and of its tests, by crate and by one of these two words."""
    noted = {}
    with open(SECONDS, encoding="utf-8") as it:
        for line in it:
            found = re.fullmatch(r"(\w+) +(\d+) +(\d+)\b.*", line.rstrip())
            if found and found[1] != "all":
                noted[found[1], "proof"], noted[found[1], "tests"] = int(found[2]), int(found[3])
    return noted


def spares(rt):
    """Has rt ci spare processors: a crate is proved by one process, also where others are idle.

    A second process loads the libraries below once more and checks again what both need: a crate takes a quarter to a
    half more processor seconds with two. Only the longest chain of crates, of which each waits for the one before it,
    has two where a processor is idle. As many crates are proved at once as there are processors, whatever memory rt
    reckons for them: one was seen to take 1 to 2 GB, and 3.5 where a program is compiled. Of the crates that can begin,
    the first is the one with the most seconds in its longest chain of crates above. Returns whether this rt lets it. A
    task has what it waits for in front, then its work in lines, its memory, and a call that gets how many jobs it may
    use.
    """
    found = getattr(rt, "in_lanes", None)
    if found is None or [*inspect.signature(found).parameters] != ["tasks"]:
        return False
    running, alone, noted = Counter(), threading.Lock(), noted_seconds()

    def led(call, is_of_longest):
        def called(given, jobs):
            with alone:
                running["now"] += 1
            try:
                if is_of_longest:
                    # (what is begun beside it)
                    time.sleep(1)
                return call(given, 2 if is_of_longest and running["now"] < rt.processors() else 1)
            finally:
                with alone:
                    running["now"] -= 1

        return called

    def in_lanes(tasks):
        is_program = {it: it[1] == "proof" and os.path.exists(f"crates/{it[0]}/src/main.rt") for it in tasks}
        guessed = {it: int(PER_LINE * lines) + PROGRAM * is_program[it] for it, (_, lines, *_) in tasks.items()}
        work = {it: noted.get(it[:2], guessed[it]) for it in tasks}
        ahead, behind = dict.fromkeys(tasks, 0), dict.fromkeys(tasks, 0)
        # (a task comes after those that it waits for)
        for it, (waits, *_) in tasks.items():
            ahead[it] = max((ahead[other] + work[other] for other in waits), default=0)
        for it in reversed([*tasks]):
            behind[it] += work[it]
            for other in tasks[it][0]:
                behind[other] = max(behind[other], behind[it])
        longest = max((ahead[it] + behind[it] for it in tasks), default=0)
        # (so many lanes, and one job in each)
        os.environ.setdefault("RT_JOBS", str(rt.processors()))
        return found({
            it: (waits, work[it], needs, led(call, ahead[it] + behind[it] >= 0.95 * longest))
            for it, (waits, _, needs, call) in tasks.items()
        })

    rt.in_lanes = in_lanes
    return True


def without_generics(text):
    """Returns a text with nothing of what stands between < and >."""
    kept, depth = [], 0
    for at, letter in enumerate(text):
        depth += letter == "<"
        if not depth:
            kept.append(letter)
        # (the > of an arrow closes nothing)
        depth -= letter == ">" and depth > 0 and text[at - 1] not in "-="
    return "".join(kept)


def function_at(lines, at):
    """Returns the path below its module, as a check prints it, of the function that begins last up to this line."""
    for number in range(at, -1, -1):
        found = re.match(r"( {4})?(?:pub(?:\([a-z]+\))? )?fn (\w+)", lines[number])
        if found and not found[1]:
            return found[2]
        if found:
            start = max((it for it in range(number) if lines[it].startswith("impl")), default=None)
            if start is None:
                return None
            header = without_generics(" ".join(lines[start:number]).partition("{")[0].removeprefix("impl"))
            # (the impl of a trait is named by its type, whose first letter is a capital there, and the trait)
            trait, _, of = header.partition(" for ")
            owner = re.findall(r"\w+", of or trait)[-1]
            if of:
                owner = owner[0].upper() + owner[1:] + re.findall(r"\w+", trait)[-1]
            return f"{owner}::{found[2]}"
    return None


def functions_of(crate, texts):
    """Returns the functions of a crate that these texts change, or none where one changes anything else of it."""
    names = set()
    for path, text in texts.items():
        module = re.fullmatch(r"src/(.+?)(?:/mod)?\.rt", path)
        if module is None:
            return []
        with open(f"{crate.folder}/{path}", encoding="utf-8") as it:
            was = it.read().splitlines()
        for kind, start, *_ in difflib.SequenceMatcher(None, was, text.splitlines(), False).get_opcodes():
            name = None if kind == "equal" else function_at(was, start)
            if kind != "equal" and name is None:
                return []
            if name is not None:
                names.add(name if module[1] in ("lib", "main") else f"{module[1].replace('/', '::')}::{name}")
    return sorted(names)


def tries_by_function(rt):
    """Has rt ci try an edit by a check of the functions that it changes, and of what these call.

    One of them that is not proved is a function of the crate that is not proved, so the edit is refused. Where they are
    all proved, or the edit changes anything else, the whole crate is checked from nothing. So no check of the crate as
    it stands is made to begin with: it was proved in the same run. Returns whether this rt lets it.
    """
    wanted = {"checked": ["crate", "texts", "flags", "kept"], "seeded": ["crate", "flags", "start"]}
    for name, parameters in wanted.items():
        found = getattr(rt, name, None)
        if found is None or [*inspect.signature(found).parameters] != parameters:
            return False
    made = rt.checked

    def checked(crate, texts, flags, kept):
        if not texts:
            return subprocess.CompletedProcess([], 0, stdout="")
        only = [word for name in functions_of(crate, texts) for word in ("--only", name)]
        if only:
            ran = made(crate, texts, [*flags, *only], None)
            if ran.returncode == 1 and re.search(r"^only=\d+ proved=\d+$", ran.stdout, re.M):
                return subprocess.CompletedProcess(ran.args, 1, stdout=f"{ran.stdout.rstrip()}\nlogic=not-proved\n")
        return made(crate, texts, flags, None)

    def seeded(crate, flags, start=None):
        room = tempfile.mkdtemp(prefix=f"rt-edits-{os.getpid()}-")
        rt.SEEDS.append(room)
        os.mkdir(f"{room}/seed")
        return room

    rt.checked, rt.seeded = checked, seeded
    return True


# Runs a command, and then adds a line to a file: what the command is for, its crate and its processor seconds. It ends
# as the command does, and stands in the group of processes that rt stops.
COUNTED = """
import os, sys
file, *command = sys.argv[1:]
child = os.fork()
if not child:
    os.execvp(command[0], command)
_, status, used = os.wait4(child, 0)
kind = "edits" if "/rt-edit-" in os.getcwd() else "tests" if "--test" in command else "proof"
at = command.index("--crate-name") if "--crate-name" in command else -1
with open(file, "a") as it:
    it.write(f"{kind} {command[at + 1] if at >= 0 else '-'} {used.ru_utime + used.ru_stime:.2f}\\n")
code = os.waitstatus_to_exitcode(status)
if code < 0:
    os.kill(os.getpid(), -code)
sys.exit(code)
"""


class Seconds:
    """The processor seconds, with those of the system, of the checks and builds that rt starts, by crate."""

    KINDS = ("proof", "tests", "edits")

    def __init__(self, rt):
        self.made, self.file = rt.rtlib.guarded, tempfile.NamedTemporaryFile("r", prefix="seconds-")
        rt.rtlib.guarded = lambda: [*self.made(), sys.executable, "-ISc", COUNTED, self.file.name]

    def tell(self, most):
        """Prints the dearest crates: what proving and compiling one took, its tests and its edits."""
        taken = Counter()
        for line in self.file:
            kind, crate, seconds = line.split()
            taken[crate, kind] += float(seconds)
        crates = {crate for crate, _ in taken}
        whole = {it: sum(taken[it, kind] for kind in self.KINDS) for it in crates}
        print(f"{'processor seconds of':<20}" + "".join(f"{it:>8}" for it in (*self.KINDS, "all")))
        for it in sorted(crates, key=whole.get, reverse=True)[:most]:
            print(f"{it:<20}" + "".join(f"{taken[it, kind]:8.0f}" for kind in self.KINDS) + f"{whole[it]:8.0f}")
        sums = [sum(taken[it, kind] for it in crates) for kind in self.KINDS]
        print(f"{'all ' + str(len(crates)):<20}" + "".join(f"{it:8.0f}" for it in (*sums, sum(sums))), flush=True)
