"""Compares the two ways in which coverage files are read, on made texts, valid, mutated and cut.

usage: python3 bench/compare_coverage.py [--texts N] [--seed N]

Each text is read twice by `cov_cases`, the program that `rt ci` leaves: as it is, where the reading by its tokens answers if it can, and
with a member `path` of another kind ahead of each file's own. Of equal members the last counts, so that is read the same, but
only by the parser's value. What is read, or the fault, has to be the same. It prints how many texts there were of each kind, how
many were read and how many answers differ, and ends with 1 where one differs. It is no part of the gate.
"""

import argparse
import collections
import json
import pathlib
import random
import re
import subprocess
import tempfile

TOP = pathlib.Path(__file__).resolve().parent.parent
PROGRAM = TOP / "crates" / "cov_cases" / "out" / "cov_cases"
CALL = "$ coverage "
FILE = re.compile(r'("/[abcdz](?:[^"\\]|\\.)*"\s*:\s*\{)')

NUMBERS = ["0", "1", "7", "42", "3", "12", "4294967295"]
ODD_NUMBERS = ["4294967296", "18446744073709551615", "18446744073709551616", "-1", "1.5", "1e2", "null", '"1"', "01"]
PATHS = ["/a.js", "/b.js", "/c/é.js", '/d"q.js']
OTHER_TEXTS = ["[]", "1", "null", '{"a":1}', '{"a":{}}']
MUTATIONS = '{}[],:"0123456789abn\\ '


class Maker:
    """Makes one coverage file after another from a seed."""

    def __init__(self, seed: int):
        self.dice = random.Random(seed)

    def rarely(self, chance: float) -> bool:
        return self.dice.random() < chance

    def number(self) -> str:
        return self.dice.choice(ODD_NUMBERS if self.rarely(0.015) else NUMBERS)

    def space(self) -> str:
        return self.dice.choice(["", " ", "\t"]) if self.rarely(0.05) else ""

    def object(self, members: list[tuple[str, str]]) -> str:
        put = [f"{json.dumps(key)}{self.space()}:{self.space()}{value}" for key, value in members]
        return "{" + self.space() + ("," + self.space()).join(put) + self.space() + "}"

    def disturbed(self, members: list[tuple[str, str]]) -> str:
        """An object whose members may stand in another order, be one too few, or have one twice."""
        if self.rarely(0.2):
            self.dice.shuffle(members)
        if self.rarely(0.02):
            members.append(self.dice.choice(members))
        if self.rarely(0.01):
            members.pop()
        return self.object(members)

    def mark(self) -> str:
        return self.disturbed([("line", self.number()), ("column", "null" if self.rarely(0.02) else self.number())])

    def location(self) -> str:
        more = [("x", "[1,{}]")] if self.rarely(0.05) else []
        return self.disturbed([("start", self.mark()), ("end", self.mark()), *more])

    def keys(self) -> list[str]:
        keys = [str(k) for k in range(self.dice.randrange(4))]
        if self.rarely(0.05):
            keys = [self.dice.choice(["0", "1", "10", "2", "a", "00"]) for _ in keys]
        if self.rarely(0.05):
            self.dice.shuffle(keys)
        return keys

    def function(self) -> str:
        name = json.dumps(self.dice.choice(["f", "", "(anonymous_0)"]))
        return self.disturbed([("name", name), ("decl", self.location()), ("loc", self.location()), ("line", self.number())])

    def branch(self, count: int) -> str:
        locations = "[" + ",".join(self.location() for _ in range(count)) + "]"
        kind = json.dumps(self.dice.choice(["if", "branch"]))
        return self.disturbed([("loc", self.location()), ("type", kind), ("locations", locations), ("line", self.number())])

    def counts(self, wanted: int) -> str:
        return "[" + ",".join(self.number() for _ in range(wanted + self.rarely(0.01))) + "]"

    def file(self, path: str) -> str:
        statements, functions, branches = self.keys(), self.keys(), self.keys()
        ways = {key: self.dice.randrange(3) for key in branches}
        maps = [
            ("path", json.dumps(path)),
            ("statementMap", self.object([(key, self.location()) for key in statements])),
            ("fnMap", self.object([(key, self.function()) for key in functions])),
            ("branchMap", self.object([(key, self.branch(ways[key])) for key in branches])),
        ]
        if self.rarely(0.05):
            self.dice.shuffle(statements)
        if self.rarely(0.02) and statements:
            statements.pop()
        counts = [
            ("s", self.object([(key, self.number()) for key in statements])),
            ("f", self.object([(key, self.number()) for key in functions])),
            ("b", self.object([(key, self.counts(ways[key])) for key in branches])),
        ]
        return self.disturbed([*maps, *counts, *([("hash", '"q"')] if self.rarely(0.1) else [])])

    def text(self) -> tuple[str, str]:
        """A text, and whether it stands as it was made."""
        paths = self.dice.sample(PATHS, self.dice.randrange(4))
        if self.rarely(0.7):
            paths.sort()
        members = [("/z.js" if self.rarely(0.01) else path, self.file(path)) for path in paths]
        text = self.dice.choice(OTHER_TEXTS) if self.rarely(0.02) else self.object(members)
        if self.rarely(0.1):
            return "cut", text[: self.dice.randrange(len(text))]
        if self.rarely(0.2):
            at = self.dice.randrange(len(text))
            return "mutated", text[:at] + self.dice.choice(MUTATIONS) + text[at + self.dice.randrange(2) :]
        return "made", text


def by_value(text: str) -> str | None:
    """The text with a member of another kind ahead of each file's path, if each file has one."""
    other, files = FILE.subn(r'\1"path":1,', text)
    return other if files == text.count('"path"') else None


def answers(texts: list[str]) -> list[str]:
    """What the program gives of each text."""
    with tempfile.TemporaryDirectory() as folder:
        calls = pathlib.Path(folder) / "calls"
        calls.mkdir()
        (pathlib.Path(folder) / "cases").mkdir()
        (calls / "made.txt").write_text("".join(f"{CALL}{text}\n\n" for text in texts))
        done = subprocess.run([str(PROGRAM)], cwd=folder, capture_output=True, stdin=subprocess.DEVNULL, text=True)
    lines = done.stdout.split("\n")
    return [lines[at + 1] for at, line in enumerate(lines) if line.startswith(CALL)]


def main() -> None:
    words = argparse.ArgumentParser()
    words.add_argument("--texts", type=int, default=10000)
    words.add_argument("--seed", type=int, default=1)
    told = words.parse_args()
    maker = Maker(told.seed)
    kinds: collections.Counter = collections.Counter()
    pairs = []
    for _ in range(told.texts):
        kind, text = maker.text()
        other = by_value(text)
        if other is None:
            kinds["passed over"] += 1
        else:
            kinds[kind] += 1
            pairs.append((text, other))
    given = answers([text for pair in pairs for text in pair])
    assert len(given) == 2 * len(pairs), "an answer for each text"
    read = differences = 0
    for (text, _), before, after in zip(pairs, given[::2], given[1::2]):
        read += before.startswith("{")
        if before != after:
            differences += 1
            print("differs:", text[:300], before[:100], after[:100])
    print(", ".join(f"{kind} {count}" for kind, count in sorted(kinds.items())))
    print(f"texts {told.texts}, seed {told.seed}, {read} read\ndifferences {differences}")
    raise SystemExit(1 if differences else 0)


if __name__ == "__main__":
    main()
