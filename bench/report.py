"""Times `report --as lcov` on made bundles at a size and at twice that size, and prints how the time grows.

usage: python3 bench/report.py [--only KIND] [--program PROGRAM]
       python3 bench/report.py --folder FOLDER [--program PROGRAM]

The first form makes folders of one script with a map over several sources: more sources of the same lines, more segments
a line, more ranges, more texts with the same map. A ratio near 2 is linear growth, one near 1 that the size makes no
difference. The second takes a folder that NODE_V8_COVERAGE wrote, and runs `merge` on it as well. Run it by hand after
`rt ci`, which leaves the program at crates/c8_command/out/c8_command. It is no part of the gate.
"""

import argparse
import json
import pathlib
import tempfile

from shared import PARSE_FOLDER, PROGRAM, put_texts, timed, vlq

CALL = "called();"


def mappings(lines: int, sources: int, segments: int) -> str:
    """Each generated line comes from one line of a source, call by call. The sources follow each other."""
    share = lines // sources
    written = []
    before = (0, 0, 0)
    for line in range(lines):
        source = min(line // share, sources - 1)
        fields = []
        for k in range(segments):
            now = (source, line - source * share, k * len(CALL))
            step = 0 if k == 0 else len(CALL)
            fields.append(vlq(step) + "".join(vlq(a - b) for a, b in zip(now, before)))
            before = now
        written.append(",".join(fields))
    return ";".join(written)


def bundle(lines: int, sources: int, segments: int, ranges: int) -> str:
    """A text of one script, with a map over sources that have their content and ranges of a line each, side by side."""
    width = segments * len(CALL)
    total = lines * (width + 1) - 1
    found = [{"startOffset": 0, "endOffset": total, "count": 1}]
    for k in range(ranges):
        first = (k * lines // ranges) * (width + 1)
        found.append({"startOffset": first, "endOffset": first + width, "count": k % 7})
    share = lines // sources
    lengths = [share] * (sources - 1) + [lines - share * (sources - 1)]
    data = {
        "version": 3,
        "sources": [f"/app/source{k}.ts" for k in range(sources)],
        "sourcesContent": [(CALL * segments + "\n") * n for n in lengths],
        "names": [],
        "mappings": mappings(lines, sources, segments),
    }
    url = "file:///app/bundle.js"
    function = {"functionName": "made", "isBlockCoverage": True, "ranges": found}
    return json.dumps({
        "result": [{"scriptId": "1", "url": url, "functions": [function]}],
        "source-map-cache": {url: {"lineLengths": [width] * lines, "data": data}},
    })


# Each kind gives the texts of its folder at a size.
KINDS = {
    "sources": (200, lambda n: [bundle(20000, n, 1, 5000)]),
    "segments": (50000, lambda n: [bundle(5000, 20, n // 5000, 1000)]),
    "ranges": (10000, lambda n: [bundle(20000, 20, 1, n)]),
    "lines, segments and ranges": (20000, lambda n: [bundle(n, n // 100, 1, n // 4)]),
    "copies of a map": (10, lambda n: [bundle(5000, 20, 1, 1000)] * n),
}


def on_texts(program: pathlib.Path, texts: list[str]) -> tuple[float, float]:
    """The times of `report` and of `merge` on a folder of these texts."""
    with tempfile.TemporaryDirectory() as folder:
        put_texts(folder, texts)
        report = timed([str(program), "report", folder, "--as", "lcov"])
        return report.seconds, timed([str(program), "merge", folder]).seconds


def on_made(program: pathlib.Path, only: str | None) -> None:
    print("| Kind | N | time(N) | time(2N) | Ratio | `merge` at 2N | `report` to it |")
    print("|---|---|---|---|---|---|---|")
    for kind, (size, texts) in KINDS.items():
        if only and kind != only:
            continue
        small, _ = on_texts(program, texts(size))
        large, merge = on_texts(program, texts(2 * size))
        ratio = large / max(small, 0.001)
        beside = large / max(merge, 0.001)
        print(f"| {kind} | {size} | {small:.3f} s | {large:.3f} s | {ratio:.2f} | {merge:.3f} s | {beside:.2f} |", flush=True)


def on_folder(program: pathlib.Path, folder: pathlib.Path) -> None:
    size = sum(file.stat().st_size for file in folder.iterdir())
    merge = timed([str(program), "merge", str(folder)]).seconds
    report = timed([str(program), "report", str(folder), "--as", "lcov"]).seconds
    node = timed(["node", "-e", PARSE_FOLDER, str(folder)]).seconds
    print(f"{len(list(folder.iterdir()))} files, {size} bytes")
    print(f"merge    {merge:8.3f} s")
    print(f"report   {report:8.3f} s  {report / merge:8.2f} times merge")
    print(f"node     {node:8.3f} s  (start, read and JSON.parse)")


def main() -> None:
    words = argparse.ArgumentParser(description="Times how report grows.")
    words.add_argument("--folder", type=pathlib.Path)
    words.add_argument("--only", choices=KINDS)
    words.add_argument("--program", type=pathlib.Path, default=PROGRAM)
    given = words.parse_args()
    if given.folder:
        on_folder(given.program, given.folder)
    else:
        on_made(given.program, given.only)


if __name__ == "__main__":
    main()
