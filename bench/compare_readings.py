"""Compares the two ways in which snapshots are read, on made texts, valid, mutated and cut.

usage: python3 bench/compare_readings.py [--texts N] [--seed N]

Each text is merged twice by the program that `rt ci` leaves: as it is, where the reading by its tokens answers if it can, and with
a member `result` of another kind ahead of its own. Of equal members the last counts, so that is read the same, but only by the
parser's value. Output, error lines and exit status have to be the same. Texts without a `result` of their own are passed over. It
prints how many texts there were of each kind, how many ended with status 0 and how many answers differ, with the first differing
lines, and ends with 1 where one differs. It is no part of the gate.
"""

import argparse
import collections
import itertools
import pathlib
import random
import subprocess
import tempfile

from shared import PROGRAM

NUMBERS = [
    "0", "1", "7", "42", "4294967295", "4294967296", "9007199254740993", "18446744073709551615",
    "18446744073709551616", "-0", "-1", "-9223372036854775808", "1.0", "1e2", "1.5e-3", "1e308", "1e309", "-1e400",
    "0.1", "1E+2", "2e0",
]
BAD_NUMBERS = ["01", "+1", "1.", ".5", "1e", "-", "0x1", "NaN", "1_0"]
STRINGS = ["", "a", "file:///app/main.js", "\\u00e9", "\\ud83d\\ude00", "é", "\\n\\t\\\"\\\\", "source-map-cache"]
BAD_STRINGS = ["\\ud83d", "\\x", "\n", "\\u12"]
SPACES = ["", "", "", " ", "\n", "\t", "\r\n  "]


class Maker:
    """Makes one text after another from a seed."""

    def __init__(self, seed: int):
        self.dice = random.Random(seed)

    def one(self, of):
        return self.dice.choice(of)

    def rarely(self, chance: float) -> bool:
        return self.dice.random() < chance

    def space(self) -> str:
        return self.one(SPACES) if self.rarely(0.2) else ""

    def string(self) -> str:
        return '"' + (self.one(BAD_STRINGS) if self.rarely(0.003) else self.one(STRINGS)) + '"'

    def number(self) -> str:
        return self.one(BAD_NUMBERS) if self.rarely(0.01) else self.one(NUMBERS)

    def nested(self, depth: int) -> str:
        opened = [self.one("[{") for _ in range(depth)]
        text = "".join("[" if o == "[" else '{"k":' for o in opened)
        inner = "1" if opened and opened[-1] == "{" else self.one(["", "1"])
        return text + inner + "".join("]" if o == "[" else "}" for o in reversed(opened))

    def value(self, depth: int = 0) -> str:
        kind = self.dice.randrange(10 if depth < 3 else 6)
        if kind < 2:
            return self.number()
        if kind < 4:
            return self.string()
        if kind < 6:
            return self.one(["true", "false", "null"])
        if kind < 8:
            return self.listed([self.value(depth + 1) for _ in range(self.dice.randrange(4))])
        return self.object([(self.string(), self.value(depth + 1)) for _ in range(self.dice.randrange(4))])

    def listed(self, items: list[str]) -> str:
        return "[" + self.space() + ",".join(self.space() + item + self.space() for item in items) + "]"

    def object(self, members: list[tuple[str, str]]) -> str:
        """The members in some order, one of them perhaps twice, absent, or of another kind."""
        members = list(members)
        if self.rarely(0.5):
            self.dice.shuffle(members)
        if members and self.rarely(0.03):
            key, _ = self.one(members)
            members.insert(self.dice.randrange(len(members) + 1), (key, self.value(2)))
        if members and self.rarely(0.03):
            members.insert(self.dice.randrange(len(members) + 1), self.one(members))
        if members and self.rarely(0.01):
            members.pop(self.dice.randrange(len(members)))
        if members and self.rarely(0.01):
            at = self.dice.randrange(len(members))
            members[at] = (members[at][0], self.value(2))
        if self.rarely(0.05):
            members.insert(self.dice.randrange(len(members) + 1), (self.string(), self.value()))
        inside = ",".join(f"{self.space()}{key}{self.space()}:{self.space()}{value}" for key, value in members)
        return "{" + inside + self.space() + "}"

    def range(self, low: int, high: int) -> tuple[str, int, int]:
        start = self.dice.randint(low, high)
        end = self.dice.randint(start, high)
        if self.rarely(0.004):
            start, end = end, start
        count = str(self.dice.randrange(1000)) if self.rarely(0.97) else self.number()
        members = [('"startOffset"', str(start)), ('"endOffset"', str(end)), ('"count"', count)]
        return self.object(members), min(start, end), max(start, end)

    def function(self) -> str:
        root, start, end = self.range(0, 10000)
        ranges = [root]
        low = start
        for _ in range(self.dice.randrange(4)):
            text, _, behind = self.range(low, end)
            ranges.append(text)
            low = behind if self.rarely(0.97) else low
        members = [
            ('"functionName"', self.string()),
            ('"ranges"', self.listed(ranges)),
            ('"isBlockCoverage"', self.one(["true", "false"])),
        ]
        return self.object(members)

    def script(self) -> str:
        functions = self.listed([self.function() for _ in range(self.dice.randrange(4))])
        return self.object([('"scriptId"', '"1"'), ('"url"', self.string()), ('"functions"', functions)])

    def map_entry(self) -> str:
        lengths = self.listed([str(self.dice.randrange(200)) for _ in range(self.dice.randrange(4))])
        data = self.object([('"version"', "3"), ('"sources"', '["a.ts"]'), ('"mappings"', '"AAAA"')])
        return self.object([('"lineLengths"', lengths), ('"data"', data), ('"url"', "null")])

    def text(self) -> str:
        scripts = self.listed([self.script() for _ in range(self.dice.randrange(4))])
        members = [('"result"', scripts)]
        if self.rarely(0.7):
            members.append(('"timestamp"', self.one(["1234.5", "4722.083128", "1e3", "0"])))
        if self.rarely(0.3):
            entries = [(self.string(), self.map_entry()) for _ in range(self.dice.randrange(3))]
            members.append(('"source-map-cache"', self.object(entries)))
        if self.rarely(0.1):
            members.append(('"extra"', self.nested(self.one([3, 125, 126, 127, 128, 129]))))
        whole = self.object(members)
        return self.space() + whole + (self.one(["", " ", "\n", "x", "{}", "]", ","]) if self.rarely(0.05) else "")

    def changed(self, text: bytes) -> tuple[str, bytes]:
        """The text as it is, or with some bytes changed, or cut."""
        kind = self.dice.randrange(10)
        if kind < 6 or not text:
            return "made", text
        if kind < 9:
            changed = bytearray(text)
            for _ in range(self.dice.randint(1, 3)):
                at = self.dice.randrange(len(changed)) if changed else 0
                how = self.dice.randrange(3)
                if how == 0 and changed:
                    changed[at] = self.one(b'{}[]",:0123456789.-eE \\x\xc3\xff\x00tfn')
                elif how == 1 and changed:
                    del changed[at]
                else:
                    changed.insert(at, self.one(b'{}[]",:019.-e \\\x80'))
            return "mutated", bytes(changed)
        return "cut", text[: self.dice.randrange(len(text))]


def by_value(text: bytes) -> bytes | None:
    """The text with a member of another kind ahead of its result, if it has one."""
    if text.count(b'"result"') != 1 or not text.lstrip(b" \n\t\r").startswith(b"{"):
        return None
    return text.replace(b"{", b'{"result":0,', 1)


def answer(text: bytes) -> tuple[int, bytes, bytes]:
    with tempfile.TemporaryDirectory() as place:
        folder = pathlib.Path(place, "cov")
        folder.mkdir()
        (folder / "a.json").write_bytes(text)
        done = subprocess.run([str(PROGRAM), "merge", "cov"], cwd=place, capture_output=True, stdin=subprocess.DEVNULL)
    return done.returncode, done.stdout, done.stderr


def first_difference(before: bytes, after: bytes) -> tuple[bytes, bytes] | None:
    for one, other in itertools.zip_longest(before.splitlines(), after.splitlines(), fillvalue=b""):
        if one != other:
            return one[:300], other[:300]
    return None


def main() -> None:
    words = argparse.ArgumentParser()
    words.add_argument("--texts", type=int, default=10000)
    words.add_argument("--seed", type=int, default=1)
    given = words.parse_args()
    maker = Maker(given.seed)
    kinds: collections.Counter = collections.Counter()
    ended = differing = 0
    for _ in range(given.texts):
        kind, text = maker.changed(maker.text().encode())
        other = by_value(text)
        if other is None:
            kinds["passed over"] += 1
            continue
        kinds[kind] += 1
        before, after = answer(text), answer(other)
        ended += before[0] == 0
        if before != after:
            differing += 1
            print(before[0], after[0], first_difference(before[1], after[1]), first_difference(before[2], after[2]), text[:200])
    print(", ".join(f"{kind} {count}" for kind, count in sorted(kinds.items())))
    print(f"texts {given.texts}, seed {given.seed}; {ended} ended with 0\ndifferences {differing}")
    raise SystemExit(1 if differing else 0)


if __name__ == "__main__":
    main()
