"""Long texts, piece by piece."""

import collections

# Of a text: its name, its pieces by its size, and the status with which it is answered. Where it is not as with others, how
# many times as long a text of twice the size may take, and how many bytes of memory each further byte may.
Shape = collections.namedtuple("Shape", "name pieces status ratio most", defaults=[0, None, None])

BYTES = bytes(it for it in range(256) if it != ord("\n"))


def filled(size, unit, head=b"", tail=b""):
    """As many units as have this size, between a head and a tail."""
    times, many = size // len(unit), max(1, 65536 // len(unit))
    yield head
    for _ in range(times // many):
        yield many * unit
    yield times % many * unit
    yield tail
