#!/usr/bin/env python3
"""Live sessions with real peers: Node.js's own inspector, clients over Debian's node-ws, and serve beside attach.

Run it by hand after `rt ci`. It prints what was seen, and ends with 1 where something isn't as it has to be.
usage: bench/live.py [node] [clients] [both]
"""

import contextlib
import json
import os
import pathlib
import re
import subprocess
import sys
import tempfile
from collections.abc import Iterator

from shared import MODULES, PROGRAM, TOP, output_of

# Its counts are known: each step calls `inner` ten times, and half of these take the branch.
LOOPS = """
function inner(i) { if (i % 2) { return i; } return 0; }
function step() { let sum = 0; for (let i = 0; i < 10; i++) { sum += inner(i); } return sum; }
for (let i = 0; i < WARM; i++) { inner(i); }
globalThis.step = step;
setInterval(() => {}, 1000);
"""
WARM = 20000
TAKES = 3
SESSIONS = 64
ENVIRONMENT = {**os.environ, "NODE_PATH": MODULES}
failed = False


def see(what: str, is_so: bool) -> None:
    """Prints what was seen, and whether it is as it has to be."""
    global failed
    failed = failed or not is_so
    print(f"{'ok' if is_so else 'NOT SO'}: {what}")


@contextlib.contextmanager
def beside(words: list[str], **more) -> Iterator[subprocess.Popen]:
    """A program that runs beside what follows, and is ended after it."""
    child = subprocess.Popen(words, text=True, env=ENVIRONMENT, **more)
    try:
        yield child
    finally:
        child.kill()
        child.wait()


@contextlib.contextmanager
def inspected(script: pathlib.Path, flag: str) -> Iterator[str]:
    """A place at which Node.js runs the script: its inspector's, behind a proxy that has the program step before each take."""
    with beside(["node", flag, str(script)], stderr=subprocess.PIPE) as program:
        found = None
        while found is None:
            line = program.stderr.readline()
            found = re.search(r"ws://\S+", line)
        with beside(["node", str(TOP / "bench" / "live.cjs"), "proxy", found[0]], stdout=subprocess.PIPE) as proxy:
            yield f"127.0.0.1:{int(proxy.stdout.readline())}/x"


def counts_of(text: bytes, name: str) -> dict[str, list[int]]:
    """The counts of each function of the script whose url ends so."""
    scripts = [script for script in json.loads(text)["result"] if script["url"].endswith(name)]
    return {
        function["functionName"]: [one["count"] for one in function["ranges"]]
        for script in scripts
        for function in script["functions"]
    }


def attach(places: list[str], folder: pathlib.Path) -> bytes:
    """What attach writes of these places; the file is read back by normal."""
    text = output_of([str(PROGRAM), "attach", *places, "--takes", str(TAKES)])
    (folder / "attached.json").write_bytes(text)
    see("normal reads the file back", output_of([str(PROGRAM), "normal", str(folder / "attached.json")]) == b"normal\n")
    return text


def attach_to_node(folder: pathlib.Path) -> None:
    """A program that waits for its debugger, one that runs and is warm, and two at once."""
    script = folder / "loops.js"
    script.write_text(LOOPS.replace("WARM", str(WARM)))
    for flag in ("--inspect-brk=0", "--inspect=0"):
        with inspected(script, flag) as place:
            counts = counts_of(attach([place], folder), "loops.js")
        warm = WARM if "brk" in flag else 0
        see(f"node {flag}, {TAKES} takes: {counts}", counts.get("step", [0])[0] == TAKES and counts.get("inner", [0])[0] == 10 * TAKES + warm)
    with inspected(script, "--inspect=0") as one, inspected(script, "--inspect=0") as other:
        counts = counts_of(attach([one, other], folder), "loops.js")
    see(f"two processes at once: step {counts.get('step')}, inner {counts.get('inner')}",
        counts.get("step", [0])[0] == 2 * TAKES and counts.get("inner", [0])[0] == 20 * TAKES)


def frame(root: int) -> str:
    """A snapshot of one function with this count."""
    ranges = [{"startOffset": 0, "endOffset": 10, "count": root}]
    function = {"functionName": "", "isBlockCoverage": True, "ranges": ranges}
    return json.dumps({"result": [{"scriptId": "0", "url": "file:///a.js", "functions": [function]}]})


@contextlib.contextmanager
def served(folder: pathlib.Path, sessions: int, pace: int) -> Iterator[tuple[subprocess.Popen, int]]:
    """serve over a folder, and the port that its first line tells."""
    words = [str(PROGRAM), "serve", str(folder), "--sessions", str(sessions), "--pace", str(pace)]
    with beside(words, stdout=subprocess.PIPE) as server:
        yield server, int(server.stdout.readline().rsplit(":", 1)[1])


def serve_clients(folder: pathlib.Path) -> None:
    """Many sessions at once: each frame is in one reply."""
    tape = folder / "tape"
    tape.mkdir()
    frames = 2 * SESSIONS
    for number in range(frames):
        (tape / f"{number:05}.json").write_text(frame(number + 1))
    with served(tape, SESSIONS, 1) as (server, port):
        words = ["node", str(TOP / "bench" / "live.cjs"), "clients", str(port), str(SESSIONS), "2"]
        told = subprocess.run(words, env=ENVIRONMENT, capture_output=True, text=True, timeout=60)
        tally = server.stdout.readline()
        server.wait(10)
    seen = json.loads(told.stdout or "{}")
    see(f"{SESSIONS} sessions, {seen.get('replies')} replies, each frame in one", seen.get("roots") == list(range(1, frames + 1)))
    see(f"tally: {tally.strip()}", tally == f"played {frames} replied {frames} discarded 0 unwatched 0 held 0\n")


def serve_attach(folder: pathlib.Path) -> None:
    """serve beside attach: the bytes of merge."""
    cov = TOP / "examples" / "cov"
    with served(cov, 1, 1000) as (server, port):
        text = output_of([str(PROGRAM), "attach", f"127.0.0.1:{port}/x"])
        tally = server.stdout.readline()
        server.wait(10)
    see(f"serve beside attach gives the bytes of merge ({tally.strip()})", text == output_of([str(PROGRAM), "merge", str(cov)]))


PARTS = {"node": attach_to_node, "clients": serve_clients, "both": serve_attach}


def main() -> None:
    for name in sys.argv[1:] or PARTS:
        with tempfile.TemporaryDirectory() as folder:
            PARTS[name](pathlib.Path(folder))
    sys.exit(1 if failed else 0)


main()
