"""What the scripts of this folder share: where the program is, how a command is timed, and texts that several make.

The program is the one that `rt ci` leaves. Times are the least of some rounds, since other work on the machine can only
lengthen them. None of this is part of the gate.
"""

import argparse
import json
import os
import pathlib
import shutil
import subprocess
import tempfile
import time
from typing import NamedTuple

TOP = pathlib.Path(__file__).resolve().parent.parent
PROGRAM = TOP / "crates" / "c8_command" / "out" / "c8_command"
# Node.js reading and parsing each file of a folder.
PARSE_FOLDER = (
    "const fs=require('fs');const d=process.argv[1];let n=0;"
    "for(const f of fs.readdirSync(d)){n+=JSON.parse(fs.readFileSync(d+'/'+f,'utf8')).result.length}"
    "console.log(n)"
)
PEER = TOP / "bench" / "merge_peer.cjs"
# Where Debian's packages of Node.js put their modules.
MODULES = os.environ.get("NODE_PATH", "/usr/share/nodejs")
ROUNDS = 3
# The program's statuses where it came to its end: done, and some refused or left out.
ENDED = (0, 3)
DIGITS = "ABCDEFGHIJKLMNOPQRSTUVWXYZabcdefghijklmnopqrstuvwxyz0123456789+/"


class Used(NamedTuple):
    """What a command took: processor seconds, seconds of the clock, and its peak memory in KiB."""

    seconds: float
    wall: float
    memory: int


def once(words: list[str]) -> Used:
    """Runs a command whose output nobody reads."""
    start = time.monotonic()
    with subprocess.Popen(
        words, stdout=subprocess.DEVNULL, stderr=subprocess.DEVNULL, env={**os.environ, "NODE_PATH": MODULES}
    ) as child:
        _, status, used = os.wait4(child.pid, 0)
        wall = time.monotonic() - start
        child.returncode = os.waitstatus_to_exitcode(status)
    if child.returncode not in ENDED:
        raise SystemExit(f"{words[0]} ended with {child.returncode}")
    return Used(used.ru_utime + used.ru_stime, wall, used.ru_maxrss)


def timed(words: list[str], rounds: int = ROUNDS) -> Used:
    """The least times of some rounds, and the greatest peak of memory."""
    taken = [once(words) for _ in range(rounds)]
    return Used(
        min(used.seconds for used in taken), min(used.wall for used in taken), max(used.memory for used in taken)
    )


def output_of(words: list[str]) -> bytes:
    """What a command writes to its output."""
    return subprocess.run(words, capture_output=True, check=False).stdout


def has_peer() -> bool:
    """Whether Node.js finds @bcoe/v8-coverage."""
    words = ["node", "-e", "require.resolve('@bcoe/v8-coverage')"]
    return subprocess.run(words, env={**os.environ, "NODE_PATH": MODULES}, capture_output=True).returncode == 0


def put_texts(folder: str, texts: list[str]) -> None:
    """Writes texts as files of a folder, in order of their names."""
    for number, text in enumerate(texts):
        (pathlib.Path(folder) / f"{number:05}.json").write_text(text)


def vlq(number: int) -> str:
    """A number of a mapping, base 64 VLQ."""
    left = -2 * number + 1 if number < 0 else 2 * number
    digits = ""
    while left >= 32:
        digits += DIGITS[32 + left % 32]
        left //= 32
    return digits + DIGITS[left]


def compare_text(name: str, text: str, script: str, reader: list[str]) -> None:
    """Times Node.js and a reader on one text, and prints both and their ratio.

    The script prints its own seconds first; the reader, where there is one, is a command that the file's name goes behind.
    """
    with tempfile.NamedTemporaryFile("w", suffix=".txt") as file:
        file.write(text)
        file.flush()
        node = None
        if shutil.which("node"):
            done = subprocess.run(["node", "-e", script, file.name], capture_output=True, text=True, check=True)
            node = float(done.stdout.split()[0])
            print(f"{name}: Node.js alone {node:.3f} s")
        if reader:
            taken = timed([*reader, file.name], rounds=1).wall
            print(f"{name}: reader, with its start and the file, {taken:.3f} s")
            if node:
                print(f"{name}: ratio {taken / node:.2f}")


def compact(value) -> str:
    """The JSON text of a value, without spaces."""
    return json.dumps(value, separators=(",", ":"))


def reader_words(about: str, size: int) -> argparse.ArgumentParser:
    """The words of a script that makes a text of a size and times a reader of it."""
    words = argparse.ArgumentParser(description=about, formatter_class=argparse.RawDescriptionHelpFormatter)
    words.add_argument("--bytes", type=int, default=size)
    words.add_argument("--reader")
    return words
