"""The words of a script, what it refuses, and how it ends."""

from __future__ import annotations

import argparse
import contextlib
import os
import signal
import sys
from pathlib import Path
from typing import IO, Callable, Iterator, NoReturn

STATUS_OF_A_REFUSAL = 2


class Refused(Exception):
    """Words or a file that a script refuses, with the line that says why."""


class Words(argparse.ArgumentParser):
    """Reads the words of a script. The text of its help is the script's own docstring."""

    def __init__(self, text: str) -> None:
        super().__init__(description=text, formatter_class=argparse.RawDescriptionHelpFormatter, allow_abbrev=False)

    def error(self, message: str) -> NoReturn:
        """Refuses words in one line, where argparse would print the usage besides."""
        raise Refused(message)


def number_within(least: int, most: int) -> Callable[[str], int]:
    """Returns a reader of words that are numbers from `least` to `most`."""

    def read(word: str) -> int:
        if not (word.isascii() and word.isdigit() and len(word) <= 9 and least <= int(word) <= most):
            raise argparse.ArgumentTypeError(f"{word!r} is no number from {least} to {most}")
        return int(word)

    return read


def program() -> str:
    """Returns the program that scripts run: the one that GLAB names, or else scripts/glab."""
    return os.environ.get("GLAB") or str(Path(__file__).resolve().parent.parent / "glab")


@contextlib.contextmanager
def written(path: str | None) -> Iterator[IO[str]]:
    """Opens a file to write a text, or standard output without a path. The file stays as it was unless the whole text is written."""
    if path is None:
        yield sys.stdout
        sys.stdout.flush()
    elif os.path.exists(path) and not os.path.isfile(path):
        with open(path, "w", encoding="utf-8") as file:
            yield file
    else:
        part = f"{path}.part"
        try:
            with open(part, "w", encoding="utf-8") as file:
                yield file
            os.replace(part, path)
        except BaseException:
            with contextlib.suppress(OSError):
                os.remove(part)
            raise


def run_script(main: Callable[[list[str]], int]) -> NoReturn:
    """Ends with the status of `main`, or with 2 and one line if it refuses something or a file fails."""
    try:
        status = main(sys.argv[1:])
    except Refused as why:
        status = refuse(str(why))
    except BrokenPipeError:
        os.dup2(os.open(os.devnull, os.O_WRONLY), sys.stdout.fileno())
        status = refuse("nobody reads the output any more")
    except OSError as fault:
        status = refuse(f"{fault.filename}: {fault.strerror}" if fault.filename else f"{fault.strerror}")
    except KeyboardInterrupt:
        signal.signal(signal.SIGINT, signal.SIG_DFL)
        os.kill(os.getpid(), signal.SIGINT)
        status = 128 + signal.SIGINT
    sys.exit(status)


def refuse(why: str) -> int:
    """Prints why, on one line, and returns the status of a refusal."""
    name = os.path.basename(sys.argv[0])
    print(f"{name}: {' '.join(why.split())}", file=sys.stderr)
    return STATUS_OF_A_REFUSAL
