"""Runs the language server over standard input and output."""

import argparse
import os
import sys

from . import __doc__ as about
from ._server import serve


def main() -> int:
    parser = argparse.ArgumentParser(prog="kozhvadi-server", description=about)
    parser.add_argument("--stdio", action="store_true", help="as it always does; some editors say so")
    parser.add_argument(
        "--utf-8", dest="counts_bytes", action="store_true", help="positions count bytes: for editors that do so unasked"
    )
    words = parser.parse_args()
    # What is printed by mistake mustn't be among the messages.
    output = os.fdopen(os.dup(sys.stdout.fileno()), "wb")
    os.dup2(sys.stderr.fileno(), sys.stdout.fileno())
    return serve(os.fdopen(os.dup(sys.stdin.fileno()), "rb"), output, words.counts_bytes)


if __name__ == "__main__":
    sys.exit(main())
