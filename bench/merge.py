"""Times `merge` and `collect` on a folder of snapshots, beside Node.js reading and parsing the same files, and beside
@bcoe/v8-coverage.

usage: python3 bench/merge.py [SNAPSHOTS] [FUNCTIONS]
       python3 bench/merge.py --folder FOLDER

The first form makes its snapshots, one script with functions of one range each. The second takes a folder that
NODE_V8_COVERAGE wrote, and runs on the first half of its files as well, so that it shows how time grows. Run it by hand
after `rt ci`, which leaves the program at crates/c8_command/out/c8_command. It prints processor times (so other work on the
machine counts less), bytes per second, peak memory and ratios, and then the times of `collect` by the clock, which say
something on a quiet machine alone. It is no part of the gate.
"""

import argparse
import pathlib
import shutil
import tempfile

from shared import PARSE_FOLDER, PEER, PROGRAM, Used, compact, has_peer, output_of, put_texts, timed

WORKERS = (1, 2, 4)


def snapshot(number: int, functions: int) -> dict:
    """One script with functions of one range, each 40 units long."""
    made = [
        {
            "functionName": f"f{k}",
            "isBlockCoverage": False,
            "ranges": [{"startOffset": 40 * k, "endOffset": 40 * k + 40, "count": number + k}],
        }
        for k in range(functions)
    ]
    return {"result": [{"scriptId": "1", "url": "file:///app/made.js", "functions": made}]}


def compare(folder: pathlib.Path) -> float:
    """Prints the times on a folder, and gives the processor seconds of `merge`."""
    sizes = [file.stat().st_size for file in folder.iterdir()]
    size = sum(sizes)
    ours = timed([str(PROGRAM), "merge", str(folder)])
    node = timed(["node", "-e", PARSE_FOLDER, str(folder)])
    print(f"{len(sizes)} files, {size} bytes, the largest of {max(sizes)}")
    print(f"merge    {ours.seconds:8.3f} s  {size / ours.seconds / 1e6:8.2f} MB/s  peak {ours.memory / 1024:.1f} MiB")
    print(f"         {ours.memory * 1024 / max(sizes):8.2f} bytes of peak memory for each byte of the largest text")
    print(f"node     {node.seconds:8.3f} s  {size / node.seconds / 1e6:8.2f} MB/s  (start, read and JSON.parse)")
    print(f"ratio    {ours.seconds / node.seconds:8.2f}")
    peer = timed(["node", str(PEER), str(folder)]) if has_peer() else None
    if peer:
        rate = size / peer.seconds / 1e6
        print(f"peer     {peer.seconds:8.3f} s  {rate:8.2f} MB/s  peak {peer.memory / 1024:.1f} MiB  (@bcoe/v8-coverage)")
        print(f"ratio    {ours.seconds / peer.seconds:8.2f}  of its time, {ours.memory / peer.memory:.2f} of its memory")
    compare_walls(folder, ours, peer)
    return ours.seconds


def compare_walls(folder: pathlib.Path, merge: Used, peer: Used | None) -> None:
    """Prints the times of `collect` by the clock, beside those of `merge` and of the peer. Its bytes have to be those of `merge`."""
    print(f"by the clock: merge {merge.wall:.3f} s" + (f", peer {peer.wall:.3f} s" if peer else ""))
    wanted = output_of([str(PROGRAM), "merge", str(folder)])
    for workers in WORKERS:
        words = [str(PROGRAM), "collect", str(folder), "--workers", str(workers)]
        taken = timed(words)
        beside = f", {taken.wall / peer.wall:.3f} of the peer's" if peer else ""
        print(
            f"collect --workers {workers}: {taken.wall:.3f} s, {taken.wall / merge.wall:.2f} of merge's{beside},"
            f" processor {taken.seconds:.3f} s, peak {taken.memory / 1024:.1f} MiB"
        )
        if output_of(words) != wanted:
            raise SystemExit("collect wrote other bytes than merge")


def on_made(snapshots: int, functions: int) -> None:
    with tempfile.TemporaryDirectory() as name:
        put_texts(name, [compact(snapshot(number, functions)) for number in range(snapshots)])
        compare(pathlib.Path(name))


def on_folder(folder: pathlib.Path) -> None:
    files = sorted(file for file in folder.iterdir() if file.name.endswith(".json"))
    with tempfile.TemporaryDirectory() as name:
        half = pathlib.Path(name)
        for file in files[: len(files) // 2]:
            shutil.copy(file, half / file.name)
        first = compare(half)
    whole = compare(folder)
    print(f"growth   {whole / first:8.2f}  (all files against the first half)")


def main() -> None:
    words = argparse.ArgumentParser(description="Times merge beside Node.js.")
    words.add_argument("--folder", type=pathlib.Path)
    words.add_argument("snapshots", type=int, nargs="?", default=3)
    words.add_argument("functions", type=int, nargs="?", default=100)
    given = words.parse_args()
    if given.folder:
        on_folder(given.folder)
    else:
        on_made(given.snapshots, given.functions)


if __name__ == "__main__":
    main()
