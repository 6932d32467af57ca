"""The command `python3 -m qlock import KIND FILE`: writes the coterie in a file of a running system."""
import argparse
import sys
from typing import Optional, Sequence

from .imports import READERS, ImportFault, imported

REFUSED = 1
NOT_READ_OR_WRITTEN = 3


def parser() -> argparse.ArgumentParser:
    """Returns what reads the command line."""
    top = argparse.ArgumentParser(prog="python3 -m qlock", description=__doc__)
    commands = top.add_subparsers(dest="command", required=True, metavar="import")
    command = commands.add_parser("import", help="write the coterie in a file of a running system, for qlock plan")
    command.add_argument("kind", choices=sorted(READERS), help="the system: docs/choosing.md says what is read of each")
    command.add_argument("file", metavar="FILE", help="the file, or - for standard input")
    return top


def read(name: str) -> bytes:
    """Returns the bytes of a file. That with the name - is standard input."""
    with open(0 if name == "-" else name, "rb") as file:
        return file.read()


def write(text: str) -> None:
    """Writes a text to standard output. Nobody has to read it to its end."""
    try:
        with open(1, "w", encoding="ascii", closefd=False) as file:
            file.write(text)
    except BrokenPipeError:
        pass


def failed(status: int, line: str) -> int:
    """Writes why there is no output, and returns the exit status."""
    print(line, file=sys.stderr)
    return status


def main(words: Optional[Sequence[str]] = None) -> int:
    """Runs a command line, and returns its exit status."""
    given = parser().parse_args(words)
    try:
        text = imported(given.kind, read(given.file))
    except ImportFault as fault:
        return failed(REFUSED, f"{type(fault).__name__}: {fault}")
    except OSError as fault:
        return failed(NOT_READ_OR_WRITTEN, f'I3 ReadFault "{given.file}"\n{given.file}: {fault.strerror}')
    try:
        write(text)
    except OSError as fault:
        return failed(NOT_READ_OR_WRITTEN, f"I4 WriteFault\n{fault.strerror}")
    return 0


if __name__ == "__main__":
    sys.exit(main())
