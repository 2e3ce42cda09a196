#!/usr/bin/env python3
"""Makes files that every reader refuses: `refused.py FILE FOLDER`.

Each differs from FILE, a good one, and its name begins with the number of the refusal. Where it has
several faults, that is the number of the first.
"""

import sys
from pathlib import Path


def refused_files(file):
    """The files, by the numbers of their refusals."""

    def changed(place, byte, then=None):
        """The file with a byte changed, and perhaps another."""
        one = file[:place] + bytes([byte]) + file[place + 1 :]
        return one[: then[0]] + bytes([then[1]]) + one[then[0] + 1 :] if then else one

    return {
        2: [changed(16, 0), changed(16, 0)[:24]],
        3: [changed(23, 4), changed(23, 4)[:24]],
        7: [changed(8, 0), changed(12, 1), changed(8, 0)[:16]],
        9: [b"", file[:7], changed(0, 70), changed(6, 1, (7, 50))],
        10: [changed(7, 50), changed(7, 50, (8, 0))[:8]],
        11: [
            file[:8],
            changed(8, 0)[:15],
            changed(16, 0)[:23],
            file[:63],
            file[:64],
            file[:-1],
            changed(48, 1)[:60],
            changed(48, 1)[:-1],
            changed(23, 3),
        ],
        12: [file + b"\0", changed(63, 1) + b"\0", changed(16, 224)],
        13: [changed(48, 2), changed(63, 128), changed(55, 1, (40, 0))],
        17: [changed(48, 1)],
        14: [changed(place, 1) for place in (8, 24, 39, 40, 64, len(file) - 1)],
    }


def main(path, folder):
    Path(folder).mkdir()
    for number, files in refused_files(Path(path).read_bytes()).items():
        for place, file in enumerate(files):
            Path(folder, f"{number}-{place}.bloom").write_bytes(file)


main(*sys.argv[1:])
