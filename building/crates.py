"""The crates of the repository and its programs."""
import os
import subprocess
import sys

TOP = os.path.dirname(os.path.dirname(os.path.realpath(__file__)))
# each has a launcher of its name at the top
PROGRAMS = ("napt", "stream", "explain")


def listed():
    """Returns the crates of crates.txt, each with all that it stands on, of the repository and of the kit."""
    with open(f"{TOP}/crates.txt", encoding="utf-8") as text:
        lines = [line.partition("#")[0].partition(":") for line in text]
    return {name.split()[0]: deps.split() for name, _, deps in lines if name.strip()}


def crates():
    """Returns the crates of crates.txt, each with those of the repository that it stands on."""
    named = listed()
    return {name: [dep for dep in deps if dep in named] for name, deps in named.items()}


def with_below(deps, name):
    """Returns the crates that a crate stands on, each after those that it stands on, and the crate itself."""
    found = []
    for dep in deps[name]:
        found += [it for it in with_below(deps, dep) if it not in found]
    return [*found, name]


def lines_of(name):
    """Returns how many lines a crate's sources have."""
    count = 0
    for at, _, files in os.walk(f"{TOP}/crates/{name}/src"):
        for file in files:
            with open(f"{at}/{file}", "rb") as text:
                count += text.read().count(b"\n")
    return count


def current_program(name, must_be_unproved=False):
    """Returns the path of the program that a launcher would run now, or None where it would build one. A proved one may not count."""
    words = [f"{TOP}/launch", "--which", name, *["unproved"] * must_be_unproved]
    said = subprocess.run(words, stdin=subprocess.DEVNULL, stdout=subprocess.PIPE, text=True, check=False).stdout
    return said.rstrip("\n") or None


def say(program, what):
    print(f"{program}: {what}", file=sys.stderr, flush=True)
