"""The program as benches here run it: a process that is sent lines and answers them."""
import os
import subprocess
import sys
import time

ROOT = os.path.dirname(os.path.dirname(os.path.realpath(__file__)))
# so many lines and their answers have room in the two pipes
TOGETHER = 500


def say(text):
    print(text, file=sys.stderr, flush=True)


def program():
    """The program that is run: the first word, or ./td_console, which is proved and built where it isn't built."""
    return sys.argv[1] if len(sys.argv) > 1 else f"{ROOT}/td_console"


class Program:
    """A program whose sites have a script."""

    def __init__(self, path, script, *words):
        self.pipes = subprocess.Popen([path, *words], stdin=subprocess.PIPE, stdout=subprocess.PIPE)
        self.tell(script + ".begin\n")
        assert self.answer().startswith("ready ")

    def tell(self, text):
        self.pipes.stdin.write(text.encode())
        self.pipes.stdin.flush()

    def answer(self):
        return self.pipes.stdout.readline().decode().rstrip("\n")

    def ask(self, line):
        self.tell(line + "\n")
        return self.answer()

    def timed(self, lines):
        """The answers of lines that are sent at once, and how many nanoseconds it takes until all are there."""
        text = "".join(f"{line}\n" for line in lines)
        start = time.perf_counter_ns()
        self.tell(text)
        answers = [self.answer() for _ in lines]
        return answers, time.perf_counter_ns() - start

    def do(self, lines):
        """Issues statements, each of which is done."""
        for at in range(0, len(lines), TOGETHER):
            answers, _ = self.timed(lines[at : at + TOGETHER])
            assert all(it.endswith(" done") for it in answers), answers

    def end(self):
        self.pipes.stdin.close()
        self.pipes.stdout.close()
        assert self.pipes.wait() == 0


def least_mean(program, line, wanted, turns=5, long=10**7):
    """The least nanoseconds of a line and its answer, which ends so, in some turns, each of so many lines at once that
    it takes long."""
    _, once = program.timed([line])
    count, means = max(1, min(TOGETHER, long // once)), []
    for _ in range(turns):
        answers, took = program.timed([line] * count)
        assert all(it.endswith(wanted) for it in answers), (line, answers[0], wanted)
        means.append(took / count)
    return min(means)
