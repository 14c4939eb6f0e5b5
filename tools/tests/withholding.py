"""Memory, reads and writes that are withheld from a program, one after the other, by withhold.c beside this file."""
import itertools
import os
import subprocess
from concurrent.futures import ThreadPoolExecutor
from typing import NamedTuple

HERE = os.path.dirname(os.path.realpath(__file__))
# how long all runs of one program may take
SECONDS = 1800


class Run(NamedTuple):
    """A run from which something was withheld: in which way, from which time on, its exit status (or a signal as a
    negative number), whether it came that far, what it wrote to standard output, and what the kept files then had."""

    kind: str
    at: int
    status: int
    met: bool
    output: str
    files: list


def runs_in(told):
    """The runs that withhold.c told of."""
    runs, here = [], 0
    while here < len(told):
        end = told.index(b"\n", here)
        kind, at, status, met, *sizes = told[here:end].decode().split()
        parts, here = [], end + 1
        for size in map(int, sizes):
            parts.append(told[here : here + size])
            here += size
        runs.append(Run(kind, int(at), int(status), met == "1", parts[0].decode(errors="replace"), parts[1:]))
    return runs


class Withholding:
    def __init__(self, room, lanes):
        self.room, self.library = room, f"{room}/withhold.so"
        self.pool, self.files = ThreadPoolExecutor(lanes), itertools.count()
        subprocess.run(["cc", "-O1", "-shared", "-fPIC", "-o", self.library, f"{HERE}/withhold.c", "-ldl"], check=True)

    def file(self):
        return f"{self.room}/{next(self.files)}"

    def each(self, words, text, what, kinds, after=0, call=False, kept=()):
        """What the program writes up to a text, or by so many writes, what it tells on standard error, and the runs
        from there on, for each time of each kind until a run does not come that far. With call, nothing is withheld
        behind the next write. Each run begins with the kept files as they are. There are none where the program ended
        otherwise."""
        told, path = self.file(), self.file()
        with open(path, "w", encoding="utf-8") as it:
            it.write(text)
        environment = {"LD_PRELOAD": self.library, "WITHHELD_TOLD": told, "WITHHELD_INPUT": path}
        environment |= {"WITHHELD": what, "WITHHELD_UNTIL": kinds}
        environment |= {"WITHHELD_WRITES": str(after)} if isinstance(after, int) else {"WITHHELD_AFTER": after}
        environment |= {"WITHHELD_CALL": "1"} if call else {}
        environment |= {"WITHHELD_KEPT": ":".join(kept)} if kept else {}
        with open(path, "rb") as it:
            ran = subprocess.run(words, stdin=it, capture_output=True, env=environment, timeout=SECONDS, check=False)
        runs = []
        if os.path.exists(told):
            with open(told, "rb") as it:
                runs = runs_in(it.read())
            os.remove(told)
        os.remove(path)
        # (each kind ends with a run that meets nothing: runs that were cut off count for nothing)
        is_whole = [it.kind for it in runs if not it.met] == list(kinds)
        return ran.stdout.decode(errors="replace"), ran.stderr.decode(errors="replace"), runs if is_whole else []
