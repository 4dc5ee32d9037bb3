"""A line on standard error now and then while a long recording is judged."""

import sys
import threading
import time

FIRST, EVERY = 5, 10  # seconds


class Progress:
    """Tells how far the work is that goes on in the `with` block; `step` gives the words."""

    def __init__(self):
        self.step = str
        self._over = threading.Event()
        self._teller = threading.Thread(target=self._tell, daemon=True)

    def _tell(self):
        begin, wait = time.monotonic(), FIRST
        while not self._over.wait(wait):
            wait = EVERY
            print(f"judge: {time.monotonic() - begin:.0f} s: {self.step()}", file=sys.stderr, flush=True)

    def __enter__(self):
        self._teller.start()
        return self

    def __exit__(self, *_):
        self._over.set()
        self._teller.join()
