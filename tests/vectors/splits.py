"""The stored cases of the splitter: an input and its two records, worked out by hand.

"With 4 bytes or more and a first length L no greater than what was read, the first record, L bytes, is handed back as a
part of the caller's bytes and the rest is the second. Otherwise everything is the first and the second is empty."
"""
from records import S, S_PLAN

SPLITS = []  # (input, first, second, shows, misreading)


def split(shows, first, second, misread=""):
    SPLITS.append((bytes([*first, *second]), bytes(first), bytes(second), shows, misread))


def short():
    split("no byte", [], [])
    split("3 bytes: no length", [0, 0, 0], [], "a length of fewer bytes")
    split("4 bytes, L 0", [], [0, 0, 0, 0], "5 bytes asked for")
    split("4 bytes, L 4", [0, 0, 0, 4], [])


def lengths():
    four = "a first record under 4 bytes is everything"
    split("6 bytes, L 0", [], [0, 0, 0, 0, 7, 8], four)
    split("6 bytes, L 1", [0], [0, 0, 1, 7, 8], four)
    split("6 bytes, L 2", [0, 0], [0, 2, 7, 8], four)
    split("6 bytes, L 3", [0, 0, 0], [3, 7, 8], four)
    itself = "L without the length itself"
    split("6 bytes, L 4", [0, 0, 0, 4], [7, 8], itself)
    split("6 bytes, L 5", [0, 0, 0, 5, 7], [8], itself)
    split("6 bytes, L 6: as many as are given", [0, 0, 0, 6, 7, 8], [])
    split("6 bytes, L 7: one more than is given", [0, 0, 0, 7, 7, 8], [], "nothing is the first")


def wide():
    split("L 256 + 5", [0, 0, 1, 5, 7, 8], [], "8 bits of L")
    split("L 65536 + 5", [0, 1, 0, 5, 7, 8], [], "16 bits of L")
    split("L 16777216 + 5", [1, 0, 0, 5, 7, 8], [], "24 bits of L")
    split("5, then three zeros", [5, 0, 0, 0, 7, 8], [], "L little-endian")
    split("S's model and plan", S, S_PLAN)


SECTIONS = (short, lengths, wide)
