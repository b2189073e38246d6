"""The command line: python3 -m dosolve, or dosolve-py where the package is installed."""
from __future__ import annotations

import os
import sys

from .cli import make_parser
from .errors import DosolveError

INTERRUPTED, PIPE_CLOSED = 130, 141


def main(arguments: list[str] | None = None) -> int:
    """Runs one command; 0, or 1 with a message on standard error."""
    words = make_parser().parse_args(arguments)
    try:
        words.run(words)
        sys.stdout.flush()
    except BrokenPipeError:
        # What is left to be written goes nowhere, so that no second fault comes at the end.
        os.dup2(os.open(os.devnull, os.O_WRONLY), sys.stdout.fileno())
        return PIPE_CLOSED
    except KeyboardInterrupt:
        print("dosolve: interrupted", file=sys.stderr)
        return INTERRUPTED
    except (DosolveError, OSError, UnicodeDecodeError) as fault:
        where = "".join(f"{note}: " for note in getattr(fault, "__notes__", ()))
        told = str(fault)
        if isinstance(fault, OSError) and fault.filename is not None:
            told = f"{fault.filename}: {fault.strerror}"
        print(f"dosolve: {' '.join(f'{where}{told}'.splitlines())}", file=sys.stderr)
        return 1
    return 0


def run() -> None:
    """The console script."""
    sys.exit(main())


if __name__ == "__main__":
    run()
