"""Shared. Times the programs: one command, with a word for each table.

usage: python3 bench WORD ..
       python3 bench WORD --help
"""
from __future__ import annotations
import inspect, os, sys

# A run leaves nothing in the clone.
sys.dont_write_bytecode = True
TOP = os.path.dirname(os.path.dirname(os.path.abspath(__file__)))
sys.path[:0] = [os.path.join(TOP, "bench"), os.path.join(TOP, "tests")]
from following import follow  # noqa: E402
from inside import layers, redo, shares, speedup, threads  # noqa: E402
from making import checkpoints, closing, live, states, upgrading  # noqa: E402
from restarts import growth, looks, measure, sizes  # noqa: E402
from served import serve, session  # noqa: E402

WORDS = {it.__name__: it for it in (measure, growth, sizes, shares, speedup, threads, redo, layers, states, checkpoints, closing, upgrading, looks, live, serve, session, follow)}


def main() -> int:
    word = sys.argv[1] if len(sys.argv) > 1 else ""
    if word not in WORDS:
        print(__doc__.strip(), "", *(f"{name:12}{inspect.getdoc(it).split(chr(10))[0]}" for name, it in WORDS.items()), sep="\n")
        return 0 if word in ("", "--help", "-h") else 2
    if sys.argv[2:] == ["--help"]:
        print(inspect.getdoc(WORDS[word]))
        return 0
    sys.argv = [f"bench {word}", *sys.argv[2:]]
    return WORDS[word]() or 0


if __name__ == "__main__":
    sys.exit(main())
