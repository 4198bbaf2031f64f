"""Times how `merge` and `report --as json` write their output, beside Node.js writing the same value.

usage: python3 bench/writing.py [--functions N] [--lines N] [--rounds N] [--program PROGRAM]

It makes a folder of one snapshot with N functions of three ranges, and one of a bundle with N lines from a hundred lines a
source. For each command it prints the whole time with its output's bytes and peak memory, and the time of the same reading with
nothing written: half of `same FOLDER FOLDER` for `merge`, and `check` for `report`. The difference is the writing. Node.js then
reads the output and calls JSON.parse and JSON.stringify, of which the last is timed alone, in the same run. Times are processor
seconds, the least of the rounds. Run it by hand after `rt ci`, which leaves the program at crates/c8_command/out/c8_command.
It is no part of the gate.
"""

import argparse
import pathlib
import subprocess
import tempfile

from report import bundle
from shared import PROGRAM, compact, output_of, put_texts, timed

# Node.js reads a file, and prints the least processor seconds of JSON.stringify over some rounds, and the length.
STRINGIFY = """
const value = JSON.parse(require('fs').readFileSync(process.argv[1], 'utf8'));
let least = Infinity, length = 0;
for (let round = 0; round < Number(process.argv[2]); round++) {
  const start = process.cpuUsage();
  length = JSON.stringify(value).length;
  const used = process.cpuUsage(start);
  least = Math.min(least, (used.user + used.system) / 1e6);
}
console.log(least, length);
"""


def snapshot(functions: int) -> str:
    """One script with functions of three ranges side by side in one another."""
    made = [
        {
            "functionName": f"function{k}",
            "isBlockCoverage": True,
            "ranges": [
                {"startOffset": 100 * k, "endOffset": 100 * k + 90, "count": k + 1},
                {"startOffset": 100 * k + 10, "endOffset": 100 * k + 50, "count": 3 * k + 2},
                {"startOffset": 100 * k + 60, "endOffset": 100 * k + 80, "count": 0},
            ],
        }
        for k in range(functions)
    ]
    return compact({"result": [{"scriptId": "1", "url": "file:///app/made.js", "functions": made}]})


def compare(name: str, words: list[str], without: list[str], share: float, rounds: int) -> None:
    """Prints how a command writes, where `share` of the command without an output is its reading."""
    whole = timed(words, rounds)
    reading = timed(without, rounds)
    written = output_of(words)
    taken = max(whole.seconds - share * reading.seconds, 0.0)
    with tempfile.NamedTemporaryFile(suffix=".json") as file:
        file.write(written)
        file.flush()
        done = subprocess.run(
            ["node", "-e", STRINGIFY, file.name, str(rounds)], capture_output=True, text=True, check=True
        )
    node = float(done.stdout.split()[0])
    print(f"{name}: {len(written)} bytes, {whole.seconds:.3f} s, peak {whole.memory / 1024:.1f} MiB")
    print(f"  with nothing written {share * reading.seconds:.3f} s, peak {reading.memory / 1024:.1f} MiB")
    speed = f"{len(written) / taken / 1e6:.0f} MB/s" if taken else "too short to tell"
    print(f"  writing        {taken:.3f} s  {speed}")
    print(f"  JSON.stringify {node:.3f} s  {len(written) / node / 1e6:.0f} MB/s")
    print(f"  ratio          {taken / node:.2f}  ({whole.seconds / node:.2f} for the whole command)")


def main() -> None:
    words = argparse.ArgumentParser(description="Times how the output is written.")
    words.add_argument("--functions", type=int, default=100_000)
    words.add_argument("--lines", type=int, default=100_000)
    words.add_argument("--rounds", type=int, default=5)
    words.add_argument("--program", type=pathlib.Path, default=PROGRAM)
    given = words.parse_args()
    program = str(given.program)
    with tempfile.TemporaryDirectory() as folder:
        put_texts(folder, [snapshot(given.functions)])
        compare("merge", [program, "merge", folder], [program, "same", folder, folder], 0.5, given.rounds)
    with tempfile.TemporaryDirectory() as folder:
        put_texts(folder, [bundle(given.lines, given.lines // 100, 1, given.lines // 4)])
        compare(
            "report --as json",
            [program, "report", folder, "--as", "json"],
            [program, "check", folder, "--lines", "0"],
            1.0,
            given.rounds,
        )


if __name__ == "__main__":
    main()
