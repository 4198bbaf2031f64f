"""Runs the program on small folders with each of its requests for memory refused in turn, and counts what it answers.

usage: python3 bench/refused.py [--only CASE]

Run it by hand after `rt ci`, which leaves the program at crates/c8_command/out/c8_command. It is no part of the gate. It
wants a C compiler (cc) and glibc. Each answer has to be want of memory, status 6 and `fault: memory` on the last line of the
standard error, or else, byte for byte, what a run without a refusal writes; others are listed, and the status is then 1. Workers
take texts in any order, so of two texts that pass the limit together either is refused: such a folder is run until it has
answered in two ways, at most a hundred times.
"""

import argparse
import json
import os
import pathlib
import struct
import subprocess
import tempfile

TOP = pathlib.Path(__file__).resolve().parent.parent
PROGRAM = TOP / "crates" / "c8_command" / "out" / "c8_command"
LIMIT = 2**64 - 1
SECONDS = 60
RUNS = 100


def text(count: int, inner: list[tuple[int, int, int]], caches: dict | None = None) -> str:
    ranges = [{"startOffset": s, "endOffset": e, "count": c} for s, e, c in [(0, 40, count), *inner]]
    function = {"functionName": "f", "isBlockCoverage": True, "ranges": ranges}
    made = {"result": [{"scriptId": "0", "url": "file:///a.js", "functions": [function]}]}
    if caches is not None:
        made["source-map-cache"] = caches
    return json.dumps(made)


def of_urls(urls: str) -> str:
    """A text with a function for each of these urls."""
    ranges = [{"startOffset": 0, "endOffset": 9, "count": 2}]
    functions = [{"functionName": "f", "isBlockCoverage": True, "ranges": ranges}]
    return json.dumps({"result": [{"scriptId": "0", "url": f"file:///{url}.js", "functions": functions} for url in urls]})


def siblings(count: int) -> list[tuple[int, int, int]]:
    return [(2 * k, 2 * k + 2, k % 2) for k in range(count)]


GOOD = text(3, [(4, 12, 2), (6, 8, 0), (20, 30, 1)])
CROSSING = text(3, [(4, 12, 2), (8, 20, 1)])
MAP = {
    "file:///a.js": {
        "lineLengths": [19, 20],
        "data": {
            "version": 3,
            "sources": ["b.ts"],
            "sourcesContent": ["let one;\nlet two;\nlet three;\n"],
            "names": [],
            "mappings": "AAAA,SACA;AACA",
        },
        "url": None,
    }
}

MANY = text(3, siblings(15))
MANY_CROSSING = text(3, [*siblings(14), (3, 39, 1)])
GREAT = text(LIMIT - 1, [])
COLLECT = ["collect", "--workers", "2"]

# Each case: the words before the folder, the texts in it, and in how many ways it may be answered.
CASES = {
    "one good text": (["merge"], [GOOD], 1),
    "a good text and a crossing one": (["merge"], [GOOD, CROSSING], 1),
    "the same, of 16 ranges each": (["merge"], [MANY, MANY_CROSSING], 1),
    "ten urls between ten others": (["merge"], [of_urls("acegikmoqs"), of_urls("bdfhjlnprt")], 1),
    "two texts at the limit": (["merge"], [GREAT, text(1, siblings(3))], 1),
    "two texts past the limit": (["merge"], [GREAT, text(2, siblings(3))], 1),
    "two texts at the limit, two workers": (COLLECT, [GREAT, text(1, siblings(3))], 1),
    "two texts past the limit, two workers": (COLLECT, [GREAT, text(2, siblings(3))], 2),
    "a good text and a crossing one, two workers": (COLLECT, [GOOD, CROSSING], 1),
    "a source map": (["report", "--as", "lcov"], [text(1, siblings(4), MAP)], 1),
}


def run(shim: pathlib.Path, words: list[str], told: pathlib.Path, at: int) -> tuple[tuple[int, bytes, bytes], int, bool]:
    """What the program answers where this request is refused, how many there were, and whether a worker made it."""
    told.unlink(missing_ok=True)
    setting = {**os.environ, "LD_PRELOAD": str(shim), "REFUSE_AT": str(at), "REFUSE_TOLD": str(told)}
    done = subprocess.run([str(PROGRAM), *words], env=setting, capture_output=True, timeout=SECONDS, check=False)
    count, by_worker = struct.unpack("<qq", told.read_bytes())
    return (done.returncode, done.stdout, done.stderr), count, by_worker == 1


def is_want_of_memory(answer: tuple[int, bytes, bytes]) -> bool:
    status, _, said = answer
    return status == 6 and said.splitlines()[-1:] == [b"fault: memory"]


def lawful_answers(shim: pathlib.Path, words: list[str], told: pathlib.Path, ways: int) -> tuple[set, int]:
    """What the program answers with no refusal, and how many requests it then makes."""
    answers = set()
    most = 0
    for _ in range(RUNS):
        answer, count, _ = run(shim, words, told, 0)
        answers.add(answer)
        most = max(most, count)
        if len(answers) == ways:
            break
    return answers, most


def tried(shim: pathlib.Path, scratch: pathlib.Path, words: list[str], texts: list[str], ways: int) -> tuple[str, bool]:
    """The row of a case, and whether all its answers are lawful."""
    folder = scratch / "texts"
    folder.mkdir()
    for number, content in enumerate(texts):
        (folder / f"{number}.json").write_text(content)
    whole = [*words, str(folder)]
    answers, count = lawful_answers(shim, whole, scratch / "told", ways)
    tally = {"memory": 0, "same": 0, "worker": 0, "worker's memory": 0}
    others = []
    for at in range(1, count + 1):
        answer, _, by_worker = run(shim, whole, scratch / "told", at)
        memory = is_want_of_memory(answer)
        tally["memory"] += memory
        tally["same"] += answer in answers
        tally["worker"] += by_worker
        tally["worker's memory"] += by_worker and memory
        if not memory and answer not in answers:
            others.append((at, answer))
    for at, answer in others:
        print(f"request {at}: {answer}", flush=True)
    status = next(iter(answers))[0]
    numbers = " | ".join(str(number) for number in [status, count, *tally.values(), len(others)])
    return numbers, not others


def main() -> int:
    words = argparse.ArgumentParser(description="Refuses each request for memory in turn.")
    words.add_argument("--only", choices=CASES)
    given = words.parse_args()
    lawful = True
    with tempfile.TemporaryDirectory() as name:
        shim = pathlib.Path(name) / "refuse.so"
        subprocess.run(["cc", "-shared", "-fPIC", "-O1", "-o", str(shim), str(TOP / "bench" / "refuse.c")], check=True)
        print("| Texts | Status | Requests | Want of memory | As without | In a worker | of these want of memory | Others |")
        print("|---|---|---|---|---|---|---|---|")
        for number, (case, (before, texts, ways)) in enumerate(CASES.items()):
            if given.only and case != given.only:
                continue
            scratch = pathlib.Path(name) / str(number)
            scratch.mkdir()
            row, fine = tried(shim, scratch, before, texts, ways)
            print(f"| {case} | {row} |", flush=True)
            lawful = lawful and fine
    return 0 if lawful else 1


if __name__ == "__main__":
    raise SystemExit(main())
