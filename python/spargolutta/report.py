"""What is said on standard error, and the exit status: 0 done, 1 something was refused, 2 a file or an option that
cannot be read, written or understood."""
import sys
import time
from typing import Optional

from .numbers import Refused


class Report:
    """Lines on standard error, and the status that follows from them."""

    def __init__(self) -> None:
        self.status = 0

    def say(self, path: str, text: str) -> None:
        """A line about a file."""
        sys.stdout.flush()
        print(f"{path}: {text}", file=sys.stderr)

    def refuse(self, path: str, why: object) -> None:
        """Something in the file was refused; the rest of the work goes on."""
        self.status = max(self.status, 1)
        self.say(path, f"refused: {why}")

    def fail(self, path: str, why: object) -> None:
        """The file cannot be read, written or understood."""
        self.status = 2
        self.say(path, str(why))


class Failure(Exception):
    """A file that cannot be read, written or understood; the whole run ends with 2."""

    def __init__(self, path: str, why: object) -> None:
        super().__init__(f"{path}: {why}")


def why_not(error: OSError) -> str:
    """An operating system's error in words, without its number."""
    return error.strerror or str(error)


def stop_text(stop: str, name: str, refused: Refused) -> str:
    """A refused stop in words."""
    called = f"stop {stop}" + (f" ({name})" if name else "")
    return f"{called}: {refused}"


class Progress:
    """A line on a terminal for work of over a second; nothing elsewhere."""

    def __init__(self, size: Optional[int]) -> None:
        self._size, self._shown = size, False
        self._next = time.monotonic() + 1 if sys.stderr.isatty() else float("inf")

    def at(self, done: int, count: int) -> None:
        """How many bytes are read and how many stops that were."""
        now = time.monotonic()
        if now < self._next:
            return
        self._next, self._shown = now + 0.2, True
        part = f" {min(100, 100 * done // self._size):3d} %" if self._size else ""
        print(f"\r{part} {count:,} stops ", end="", file=sys.stderr, flush=True)

    def end(self) -> None:
        """Removes the line."""
        if self._shown:
            print("\r" + " " * 40 + "\r", end="", file=sys.stderr, flush=True)
