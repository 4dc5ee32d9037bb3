"""Judges a recording as settle.py does, with word of its progress every so many seconds.

    impatient.py SECONDS RECORDING HISTORY PROGRAM"""

import pathlib
import sys

sys.path.insert(0, str(pathlib.Path(__file__).resolve().parent.parent / "settle"))

import progress  # noqa: E402
import settle  # noqa: E402

progress.FIRST = progress.EVERY = float(sys.argv[1])
sys.exit(settle.main(sys.argv[2:]))
