#!/usr/bin/env python3
"""Compares the numbers of things of the repository that documents state with what is there.

usage: .ci/readme_numbers.py

A row of COUNTED has a page, words of it with N for the number, and what counts the things. A number may be a word.
"""
import collections
import glob
import os
import re
import sys
from collections.abc import Callable

TOP = os.path.realpath(f"{os.path.dirname(__file__)}/..")
sys.path.insert(0, f"{TOP}/tools")
from bodies import bodies_of  # noqa: E402

WORDS = ["no", "one", "two", "three", "four", "five", "six", "seven", "eight", "nine", "ten"]
FUNCTION = re.compile(r"\bfn \w+(?:<[^{;]*?>)?\(([^)]*(?:\([^)]*\)[^)]*)*)\)")
OPENS, CLOSES = "<([", ">)]"


def read(path: str) -> str:
    """Returns the text of a file."""
    with open(f"{TOP}/{path}", encoding="utf-8") as file:
        return file.read()


def given_to_the_top(kind: str) -> int:
    """Returns how many of a kind the program gives to its top call."""
    found = re.search(rf"Box<dyn {kind}>; (\d+)\]", read("crates/carp/src/helping.rt"))
    return int(found[1]) if found else -1


def helpers() -> int:
    return given_to_the_top("Proposer")


def advisers() -> int:
    return given_to_the_top("Adviser")


def crates_with_edits() -> int:
    return len(glob.glob(f"{TOP}/crates/*/must-fail"))


def most_bodies() -> int:
    """Returns how many wrong bodies a public call has at most."""
    calls = collections.Counter(
        (path, body["call"]) for path in glob.glob(f"{TOP}/audit/bodies/*.bodies") for body in bodies_of(path)
    )
    return max(calls.values(), default=0)


def parameters(text: str) -> int:
    """Returns how many parameters a list between parentheses has."""
    depth, found = 0, [""]
    for byte in text:
        depth += (byte in OPENS) - (byte in CLOSES)
        if byte == "," and not depth:
            found.append("")
        else:
            found[-1] += byte
    return sum(1 for one in found if one.strip())


def long_lists() -> int:
    """Returns how many functions of the program have eight parameters or more."""
    paths = (os.path.relpath(path, TOP) for path in glob.glob(f"{TOP}/crates/*/src/*.rt"))
    texts = [read(path) for path in paths if "_tests/" not in path]
    return sum(parameters(found) >= 8 for text in texts for found in FUNCTION.findall(text))


COUNTED: list[tuple[str, str, Callable[[], int]]] = [
    ("docs/PROVED.md", "The program is this call with N helpers", helpers),
    ("docs/ARCHITECTURE.md", "it makes N helpers", helpers),
    ("docs/ARCHITECTURE.md", "it makes four helpers and N advisers", advisers),
    ("docs/ARCHITECTURE.md", "what all N helpers share", helpers),
    ("docs/DECISIONS.md", "N crates have must-fail edits", crates_with_edits),
    ("docs/DECISIONS.md", "N functions have eight parameters or more", long_lists),
    ("docs/AUDIT.md", "at most N wrong bodies for each public call", most_bodies),
]


def fault(page: str, words: str, count: int) -> str | None:
    """Returns what is wrong with a stated number, if anything is."""
    pattern = r"\s+".join(r"(\w[\w,]*)" if word == "N" else re.escape(word) for word in words.split())
    found = re.search(pattern, read(page))
    if not found:
        return f"{page}: `{words}` does not stand there"
    stated = found[1].replace(",", "").lower()
    if stated in (str(count), *WORDS[count : count + 1]):
        return None
    return f"{page}: `{words}`: {found[1]} is stated, and there are {count}"


def main() -> int:
    faults = [found for page, words, count in COUNTED if (found := fault(page, words, count()))]
    for found in faults:
        print(f"readme: {found}", file=sys.stderr)
    return 1 if faults else 0


if __name__ == "__main__":
    sys.exit(main())
