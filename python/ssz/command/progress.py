"""What is told of work that takes more than a second."""

from __future__ import annotations

import sys
import threading
import time
from typing import Any


class Progress:
    """Says each second, from the first one on, what is at work and for how long; nothing of work that is done sooner.

    `step` may say how far it is.
    """

    def __init__(self, what: str, of: int = 0) -> None:
        self._what, self._of, self._done = what, of, 0
        self._ended = threading.Event()
        self._thread = threading.Thread(target=self._tell, daemon=True)

    def step(self) -> None:
        """Counts one more."""
        self._done += 1

    def _tell(self) -> None:
        start, is_shown = time.monotonic(), False
        while not self._ended.wait(1):
            share = f" {self._done:,} of {self._of:,}," if self._of else ""
            sys.stderr.write(f"\rssz: {self._what},{share} {time.monotonic() - start:.0f} s ")
            sys.stderr.flush()
            is_shown = True
        if is_shown:
            sys.stderr.write("\n")

    def __enter__(self) -> Progress:
        self._thread.start()
        return self

    def __exit__(self, *_: Any) -> None:
        self._ended.set()
        self._thread.join()
