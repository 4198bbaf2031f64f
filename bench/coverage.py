#!/usr/bin/env python3
"""Times the reader of coverage files against Node.js on the same text.

    bench/coverage.py [--bytes N] [--reader PROGRAM] [--keep FILE]

It makes a coverage file of N bytes, as Istanbul writes it: many files, each with statements, functions and branches.
Node.js reads it with JSON.parse. PROGRAM is a proved program that reads the file that is its first word by
`read_coverage`, and ends with status 0 where it is read. Where none is given, only Node.js is timed. With --keep the text
stays in FILE. This is not part of the gate.
"""

import json
import pathlib
import sys

from shared import compare_text, reader_words

PARSE = """
const text = require('fs').readFileSync(process.argv[1], 'utf8');
const start = process.hrtime.bigint();
const files = JSON.parse(text);
const taken = process.hrtime.bigint() - start;
console.log(Number(taken) / 1e9, Object.keys(files).length);
"""


def location(line, column, end_line, end_column):
    return {"end": {"column": end_column, "line": end_line}, "start": {"column": column, "line": line}}


def file_coverage(path, place):
    """A file of 200 lines, with a function for every ten lines and a branch for every five."""
    lines = [location(k + 1, 0, k + 1, 20 + 7 * k % 60) for k in range(200)]
    functions, branches = {}, {}
    for k in range(20):
        loc = location(10 * k + 1, 0, 10 * k + 9, 1)
        functions[str(k)] = {"decl": loc, "line": 10 * k + 1, "loc": loc, "name": f"function{place}_{k}"}
    for k in range(40):
        loc = location(5 * k + 1, 4, 5 * k + 4, 1)
        branches[str(k)] = {"line": 5 * k + 1, "loc": loc, "locations": [loc], "type": "branch"}
    return {
        "b": {key: [(3 * k + place) % 7] for k, key in enumerate(branches)},
        "branchMap": branches,
        "f": {key: (k + place) % 3 for k, key in enumerate(functions)},
        "fnMap": functions,
        "path": path,
        "s": {str(k): (k * place) % 11 for k in range(200)},
        "statementMap": {str(k): loc for k, loc in enumerate(lines)},
    }


def coverage_text(size):
    parts, length, place = [], 2, 0
    while length < size:
        path = f"/app/src/module{place:06}.ts"
        part = json.dumps(path) + ":" + json.dumps(file_coverage(path, place), sort_keys=True, separators=(",", ":"))
        parts.append(part)
        length += len(part) + 1
        place += 1
    return "{" + ",".join(parts) + "}"


def main():
    words = reader_words(__doc__, 50_000_000)
    words.add_argument("--keep", type=pathlib.Path)
    given = words.parse_args()
    text = coverage_text(given.bytes)
    if given.keep:
        given.keep.write_text(text)
    compare_text("coverage", text, PARSE, [given.reader] if given.reader else [])
    return 0


if __name__ == "__main__":
    sys.exit(main())
