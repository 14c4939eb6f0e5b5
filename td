#!/usr/bin/env python3
"""Ketsarimo's tools, one command: ./td COMMAND [WORD..]. ./td COMMAND --help tells what a command does and takes."""
import os
import re
import sys

ROOT = os.path.dirname(os.path.realpath(__file__))

# Each command: its script, and what it is for.
COMMANDS = {
    "look": ("tools/look", "runs the program with no proof, for a first look: two minutes, then at once"),
    "try": ("tools/try", "builds the programs with no proof and runs their tests: three minutes"),
    "profile": ("tools/profile", "shows where the program spends its instructions, with no proof: five minutes"),
    "build": ("tools/build", "proves and builds a program, or a crate, and all below it"),
    "run": ("tools/run", "runs a proved program, which it builds first where that is needed"),
    "install": ("tools/install", "puts the proved programs and their manual pages into a folder such as ~/.local"),
    "uninstall": ("tools/uninstall", "removes what install put there"),
    "prove": ("tools/prove", "checks a crate while it is worked on"),
    "attack": ("tools/attack", "tries wrong bodies, each of which the prover must refuse"),
    "page": ("tools/page", "joins the page of td_server from its sources"),
    "gate": ("tools/gate", "proves and tests everything from nothing, or the crates that are named"),
}

# Each test: what it compares.
TESTS = {
    "examples": "the examples, scripts and runs of examples/ with what they must print",
    "words": "words of the command line, statuses, and texts at each limit",
    "scripts": "scripts of definitions with the places of their mistakes",
    "shell": "transcripts of the shell, at a terminal too",
    "journals": "journals that are cut, damaged, locked and refused, and the program killed while it writes",
    "sockets": "programs that meet over loopback, and peers that damage, cut, flood and are silent",
    "servers": "servers that meet by themselves, are killed, and have hostile clients and peers",
    "schedules": "honest sites that are killed and cut off, none of which may ever differ",
    "crashes": "journals as a disk may leave them where the power fails, at each moment of some runs",
    "requests": "requests to the server, one after another, with what each is answered",
    "page": "the page in a browser, with servers that meet",
    "memory": "runs without memory, and streams that fail",
    "anew": "random statements at sites that meet, beside a site that runs them all anew",
    "differential": "random lines over both kinds of sites",
    "model": "random statements and queries with a model in Python",
    "type-errors": "type errors that are put into random queries",
    "limits": "lines and scripts of 100 MB",
    "docs": "all that the documents say of the tree: the next three; and whether the page is what its sources give",
    "claims": "docs/CLAIMS.md with the contracts that it names",
    "documents": "links, files and names of the code in each page, and its limits",
    "names": "names that stand for two things",
}


def description(path):
    """Returns what a script says of itself in its first lines: its docstring, or its comment."""
    with open(path, encoding="utf-8") as it:
        text = it.read()
    found = re.match(r'#![^\n]*\n"""(.*?)"""', text, re.S)
    if found:
        return found[1].strip()
    lines = []
    for line in text.splitlines()[1:]:
        if not line.startswith("#"):
            break
        lines.append(line[1:].strip())
    return "\n".join(lines)


def overview():
    """Returns the help of the command as a whole."""
    benches = sorted(it for it in os.listdir(f"{ROOT}/benches") if os.access(f"{ROOT}/benches/{it}", os.X_OK))
    benches = [it for it in benches if os.path.isfile(f"{ROOT}/benches/{it}")]
    lines = [__doc__, "", "Commands:"]
    lines += [f"  {name:<11} {told}" for name, (_, told) in COMMANDS.items()]
    lines += ["  test NAME   compares what the programs do with what they must do; NAME is one of:"]
    lines += [f"    {name:<13} {told}" for name, told in TESTS.items()]
    lines += [f"  bench NAME  measures beside a peer; NAME is one of: {', '.join(benches)}"]
    return "\n".join(lines)


def script_of(words):
    """Returns the script that the words name, and the words that are left for it; or none."""
    name, *rest = words
    if name in COMMANDS:
        return f"{ROOT}/{COMMANDS[name][0]}", rest
    if name == "test" and rest and rest[0] in TESTS:
        return f"{ROOT}/tools/tests/{rest[0]}", rest[1:]
    if name == "bench" and rest and re.fullmatch(r"\w+", rest[0]):
        path = f"{ROOT}/benches/{rest[0]}"
        if os.path.isfile(path):
            return path, rest[1:]
    return None


def main():
    words = sys.argv[1:]
    if not words or words[0] in ("--help", "-h", "help"):
        print(overview())
        return 0
    found = script_of(words)
    if found is None:
        print(f"td: there is no command '{' '.join(words[:2])}'; ./td --help lists all", file=sys.stderr)
        return 2
    path, rest = found
    if rest[:1] in (["--help"], ["-h"]):
        print(description(path))
        return 0
    os.execv(path, [path, *rest])


if __name__ == "__main__":
    sys.exit(main())
