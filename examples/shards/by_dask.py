#!/usr/bin/python3
"""Merges a folder of snapshots on many machines by Dask: workers merge shards, and their files are merged again.

usage: examples/shards/by_dask.py FOLDER OUT [--workers N] [--scheduler ADDRESS] [--shards N] [--program PROGRAM] [--check]

Merging merged files is merging their parts, so OUT gets the bytes of one `gurvoshin merge FOLDER`. With no address a
scheduler and N workers (2 where no number is given) are started on this machine. Workers elsewhere have the program and
FOLDER under the same names, by a shared file system say; only merged files come back. It needs Dask's distributed
(Debian: python3-distributed). It ends with 3 where a text was refused, whose line then stands on the error stream.
"""

import argparse
import os
import pathlib
import shutil
import subprocess
import sys
import tempfile
import time

from dask.distributed import Client, LocalCluster


def shards_of(folder: pathlib.Path, count: int) -> list[list[str]]:
    """The texts of a folder in so many shards of about as many bytes each."""
    texts = sorted((file.stat().st_size, str(file)) for file in folder.iterdir() if file.name.endswith(".json"))
    shards = [[0, []] for _ in range(count)]
    for size, name in reversed(texts):
        least = min(shards, key=lambda shard: shard[0])
        least[0] += size
        least[1].append(name)
    return [names for _, names in shards if names]


def put_into(folder: str, names: list[str]) -> None:
    """Puts files into a folder under their own names, by a second name where the file system gives one."""
    for name in names:
        place = os.path.join(folder, os.path.basename(name))
        try:
            os.link(name, place)
        except OSError:
            shutil.copyfile(name, place)


def merged(program: str, names: list[str]) -> tuple[bytes, str, int]:
    """The merged file of these texts, the lines of refused ones and the program's status. Runs on a worker."""
    # A folder beside the texts is on their file system, where a second name is free.
    beside = os.path.dirname(os.path.dirname(names[0]))
    with tempfile.TemporaryDirectory(dir=beside if os.access(beside, os.W_OK) else None) as folder:
        put_into(folder, names)
        done = subprocess.run([program, "merge", folder], capture_output=True, check=False)
        return done.stdout, done.stderr.decode(errors="replace"), done.returncode


def merge_shards(client: Client, program: str, shards: list[list[str]]) -> tuple[bytes, int]:
    """Merges the shards by the client's workers, and then what they wrote."""
    answers = client.gather(client.map(merged, [program] * len(shards), shards, pure=False))
    status = max(code for _, _, code in answers)
    for _, lines, _ in answers:
        sys.stderr.write(lines)
    if status not in (0, 3):
        raise SystemExit(f"a shard ended with {status}")
    with tempfile.TemporaryDirectory() as folder:
        for at, (text, _, _) in enumerate(answers):
            (pathlib.Path(folder) / f"{at:05}.json").write_bytes(text)
        done = subprocess.run([program, "merge", folder], stdout=subprocess.PIPE, check=False)
    return done.stdout, max(status, done.returncode)


def main() -> int:
    words = argparse.ArgumentParser(description=__doc__, formatter_class=argparse.RawDescriptionHelpFormatter)
    words.add_argument("folder", type=pathlib.Path)
    words.add_argument("out", type=pathlib.Path)
    words.add_argument("--workers", type=int, default=2)
    words.add_argument("--scheduler", help="the address of a scheduler that runs, as tcp://host:8786")
    words.add_argument("--shards", type=int, help="how many; twice the workers where no number is given")
    words.add_argument("--program", default=shutil.which("gurvoshin"))
    words.add_argument("--check", action="store_true", help="compares the bytes with one merge of all")
    given = words.parse_args()
    if not given.program:
        raise SystemExit("no gurvoshin on the PATH: ./gurvoshin --install FOLDER puts it there")
    program = os.path.abspath(given.program)
    cluster = given.scheduler or LocalCluster(n_workers=given.workers, threads_per_worker=1, dashboard_address=None)
    with Client(cluster) as client:
        workers = len(client.scheduler_info()["workers"])
        shards = shards_of(given.folder.resolve(), given.shards or 2 * workers)
        start = time.monotonic()
        text, status = merge_shards(client, program, shards)
        taken = time.monotonic() - start
    given.out.write_bytes(text)
    print(f"{sum(map(len, shards))} texts, {len(shards)} shards, {workers} workers: {taken:.3f} s")
    if given.check:
        start = time.monotonic()
        whole = subprocess.run([program, "merge", str(given.folder)], stdout=subprocess.PIPE, check=False).stdout
        same = "the same bytes" if whole == text else "OTHER BYTES"
        print(f"one merge of all: {time.monotonic() - start:.3f} s, {same} ({len(whole)})")
        return status if whole == text else 1
    return status


if __name__ == "__main__":
    sys.exit(main())
