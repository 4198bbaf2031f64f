"""Times `merge` on made folders at a size and at twice that size, and prints how the time grows.

usage: python3 bench/growth.py [--only KIND]

Run it by hand after `rt ci`, which leaves the program at crates/c8_command/out/c8_command. It is no part of the gate.
A ratio near 2 is linear growth. The time of the program on an empty folder is taken off both times. Beside each stands
Node.js reading and parsing the larger folder, in the same run.
"""

import argparse
import tempfile

from shared import PARSE_FOLDER, PROGRAM, compact, put_texts, timed

LIMIT = 2**64 - 1


def function(name: str, ranges: list[tuple[int, int, int]]) -> dict:
    made = [{"startOffset": s, "endOffset": e, "count": c} for s, e, c in ranges]
    return {"functionName": name, "isBlockCoverage": True, "ranges": made}


def text(scripts: dict[str, list[dict]]) -> str:
    made = [{"scriptId": "0", "url": url, "functions": fs} for url, fs in scripts.items()]
    return compact({"result": made})


def flat_functions(n: int, count: int) -> list[dict]:
    return [function(f"f{k}", [(20 * k, 20 * k + 10, count)]) for k in range(n)]


def siblings(n: int, count: int) -> list[tuple[int, int, int]]:
    return [(0, 3 * n, count)] + [(3 * k, 3 * k + 2, k % 7) for k in range(n)]


def one(name: str, ranges: list[tuple[int, int, int]]) -> str:
    return text({"file:///a.js": [function(name, ranges)]})


def falling_parts(n: int) -> str:
    """Entries of one url with a function each, the last function first."""
    made = [{"scriptId": "0", "url": "file:///a.js", "functions": [f]} for f in flat_functions(n, 1)[::-1]]
    return compact({"result": made})


# Each kind gives the texts of its folder at a size.
KINDS = {
    "snapshots": (200, lambda n: [text({"file:///a.js": flat_functions(50, k + 1)}) for k in range(n)]),
    "scripts": (2000, lambda n: [text({f"file:///{k}.js": flat_functions(5, 1) for k in range(n)})] * 2),
    "functions": (10000, lambda n: [text({"file:///a.js": flat_functions(n, 1)})] * 2),
    "functions falling": (10000, lambda n: [text({"file:///a.js": flat_functions(n, 1)[::-1]})] * 2),
    "urls falling": (10000, lambda n: [text({f"file:///{k:06}.js": flat_functions(1, 1) for k in reversed(range(n))})] * 2),
    "urls ahead of held ones": (10000, lambda n: [
        text({f"file:///{half}/{k:06}.js": flat_functions(1, 1) for k in range(n)}) for half in ("b", "a")
    ]),
    "one url in falling parts": (10000, lambda n: [falling_parts(n)] * 2),
    "sibling ranges": (15000, lambda n: [one("f", siblings(n, 1))] * 2),
    "nested ranges": (12500, lambda n: [one("f", [(k, 4 * n - k, k + 1) for k in range(n)])] * 2),
    "crossing at the end": (15000, lambda n: [one("f", siblings(n, 1) + [(3 * n - 5, 3 * n - 1, 1)])]),
    "refused by functions": (5000, lambda n: [
        text({"file:///a.js": flat_functions(n, LIMIT - 1)}),
        text({"file:///a.js": flat_functions(n - 1, 1) + [function(f"f{n - 1}", [(20 * n - 20, 20 * n - 10, 2)])]}),
    ]),
    "refused by ranges": (5000, lambda n: [
        one("f", [(0, 3 * n, 0)] + [(3 * k, 3 * k + 2, LIMIT - 1) for k in range(n)]),
        one("f", [(0, 3 * n, 0)] + [(3 * k, 3 * k + 2, 1) for k in range(n - 1)] + [(3 * n - 3, 3 * n - 1, 2)]),
    ]),
}


def on_texts(texts: list[str]) -> tuple[float, float]:
    with tempfile.TemporaryDirectory() as name:
        put_texts(name, texts)
        merge = timed([str(PROGRAM), "merge", name])
        return merge.seconds, timed(["node", "-e", PARSE_FOLDER, name]).seconds


def main() -> None:
    words = argparse.ArgumentParser(description="Times how merge grows.")
    words.add_argument("--only", choices=KINDS)
    given = words.parse_args()
    start, _ = on_texts([])
    print(f"an empty folder {start:.3f} s")
    print("| Kind | N | time(N) | time(2N) | Ratio | Node.js at 2N |")
    print("|---|---|---|---|---|---|")
    for kind, (size, texts) in KINDS.items():
        if given.only and kind != given.only:
            continue
        small, _ = on_texts(texts(size))
        large, parsed = on_texts(texts(2 * size))
        ratio = (large - start) / max(small - start, 0.001)
        print(f"| {kind} | {size} | {small:.3f} s | {large:.3f} s | {ratio:.2f} | {parsed:.3f} s |", flush=True)


if __name__ == "__main__":
    main()
