#!/usr/bin/env python3
"""Times the readers of mappings and of maps against Node.js on the same text.

    bench/mappings.py [--bytes N] [--reader PROGRAM]

It makes a mappings text of N bytes and a map around it. Node.js splits the text at `;` and `,`, and reads the map with
JSON.parse. PROGRAM is a proved program that reads the file that is its second word, as a mappings text by
`read_mappings` where its first word is `mappings`, as a map by `map_of` where it is `map`, and ends with status 0. Where
none is given, only Node.js is timed. This is not part of the gate.
"""

import json
import sys

from shared import compare_text, reader_words, vlq

SPLIT = """
const text = require('fs').readFileSync(process.argv[1], 'utf8');
const start = process.hrtime.bigint();
let segments = 0;
for (const line of text.split(';')) segments += line.split(',').length;
const taken = process.hrtime.bigint() - start;
console.log(Number(taken) / 1e9, segments);
"""


def mappings(size):
    """Lines of forty segments, every fifth with a name, as a bundler writes them."""
    lines, length, last_column, last_name = [], 0, 0, 0
    while length < size:
        segments = []
        for k in range(40):
            column, name = 11 * k % 80, (8 * len(lines) + k) % 1000
            down = 1 if k == 0 and lines else 0
            segment = vlq(3 + 7 * k % 60 if k else 0) + vlq(0) + vlq(down) + vlq(column - last_column)
            last_column = column
            if k % 5 == 4:
                segment += vlq(name - last_name)
                last_name = name
            segments.append(segment)
        lines.append(",".join(segments))
        length += len(lines[-1]) + 1
    return ";".join(lines)


PARSE = """
const text = require('fs').readFileSync(process.argv[1], 'utf8');
const start = process.hrtime.bigint();
const map = JSON.parse(text);
const taken = process.hrtime.bigint() - start;
console.log(Number(taken) / 1e9, map.version);
"""


def map_text(text):
    """A map of one thousand sources and names around a mappings text."""
    places = range(1000)
    return json.dumps(
        {
            "version": 3,
            "sources": [f"file{k}.ts" for k in places],
            "names": [f"name{k}" for k in places],
            "mappings": text,
        }
    )


def main():
    given = reader_words(__doc__, 10_000_000).parse_args()
    text = mappings(given.bytes)
    for kind, made, script in [("mappings", text, SPLIT), ("map", map_text(text), PARSE)]:
        compare_text(kind, made, script, [given.reader, kind] if given.reader else [])
    return 0


if __name__ == "__main__":
    sys.exit(main())
