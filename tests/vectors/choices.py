"""The stored cases of the run in which a choice for model S is refused. No byte of the lent buffer changes.

"The model is tried first, in list order. Each number is tried over all its rows before the next, lowest A first", and 41
is "tried after the input".
"""
from records import FREE, S, S_CHOICE, S_CHOSEN, S_DURATIONS, choice, longer, number, put
from runs import buffer, part, untouched

VERSION = choice(S_CHOSEN, S_DURATIONS, version=2)
THREADS = choice([*S_CHOSEN, FREE], S_DURATIONS)
RELEASE = choice([(3, 0), (0, 8)], S_DURATIONS)


def refused(shows, choice_bytes, answer, misread=""):
    untouched(shows, S, choice_bytes, buffer(70), answer, misread)


def lengths():
    part("a choice's length, 8 and 11")
    refused("6 bytes whose length says 6", number(4, 6) + b"\1\2", "8 0 0", "a choice of 6 bytes passes 8")
    nine = "a choice under 9 bytes refused by 8"
    refused("7 bytes whose length says 7: 8 to 10 hold, the formula says 21", number(4, 7) + b"\1\2\3", "11 0 0", nine)
    refused("7 bytes with n 0 and m 0, as their formula has it", number(4, 7) + b"\1\0\0", "10 0 0", nine)
    refused("8 bytes whose length says 8", number(4, 8) + b"\1\2\3\0", "11 0 0", nine)
    refused("a length one too great", put(S_CHOICE, 0, 4, 22), "8 0 0", "8 without the bytes given")
    for bits in (8, 16, 24):
        same = put(S_CHOICE, 0, 4, 21 + 2**bits)
        refused(f"a length that agrees modulo 2^{bits}", same, "8 0 0", f"8 compares {bits} bits")
    refused("a byte behind the last duration", longer(S_CHOICE), "11 0 0", "11 left out")


def heads():
    part("a choice's version, n and m, 9 and 10")
    refused("version 2", VERSION, "9 0 0", "9 left out")
    refused("n 3, and as many rows", THREADS, "10 0 0", "10 without n")
    refused("m 4, and as many durations", choice(S_CHOSEN, [2, 2, 1, 1]), "10 0 0", "10 without m")
    refused("n 3 and m 2", choice([*S_CHOSEN, FREE], [2, 2]), "10 0 0", "n and m exchanged")
    refused("length and version", put(VERSION, 0, 4, 22), "8 0 0", "9 before 8")
    refused("version and n", put(VERSION, 5, 1, 3), "9 0 0", "10 before 9")
    # 22 bytes; the formula asks for 21 with the model's n and for 25 with n 3
    refused("n and length", longer(put(S_CHOICE, 5, 1, 3)), "10 0 0", "11 before 10")
    refused("a byte too many, release 3", longer(RELEASE), "11 0 0", "12 before 11")


def ranges():
    part("a choice's rows, 12 and 13")
    refused("period 9 of 8..8", choice([(1, 0), (0, 9)], S_DURATIONS), "12 1 0", "12 without the period")
    refused("thread 0's period, thread 1's release", choice([(1, 8), (1, 8)], S_DURATIONS), "12 0 0",
            "12 on all releases before any period")
    refused("thread 0's release, thread 1's period", choice([(3, 0), (0, 9)], S_DURATIONS), "12 0 0",
            "12 on all periods before any release")
    refused("both releases", choice([(3, 0), (1, 8)], S_DURATIONS), "12 0 0", "the highest A in 12")
    refused("thread 0's release, activity 2's duration", choice([(3, 0), (0, 8)], [2, 2, 2]), "12 0 0", "13 before 12")
    refused("thread 1's release, activity 0's duration", choice([(1, 0), (1, 8)], [3, 2, 1]), "12 1 0",
            "12 and 13 in one pass")
    refused("activity 0 above its most, activity 1 below its least", choice(S_CHOSEN, [3, 1, 1]), "13 0 0",
            "13 on all least durations before any most")
    refused("activity 0 below its least, activity 1 above its most", choice(S_CHOSEN, [0, 4, 1]), "13 0 0",
            "13 on all most durations before any least")
    refused("all three above their most", choice(S_CHOSEN, [3, 4, 2]), "13 0 0", "the highest A in 13")


# choices that 8 to 13 refuse
REFUSED = [
    (b"", "8 0 0"),
    (VERSION, "9 0 0"),
    (THREADS, "10 0 0"),
    (longer(S_CHOICE), "11 0 0"),
    (RELEASE, "12 0 0"),
    (choice(S_CHOSEN, [3, 2, 1]), "13 0 0"),
]


def short_buffers():
    part("a refused choice and a buffer of 60 bytes, where 61 are needed")
    for choice_bytes, answer in REFUSED:
        name = answer.split()[0]
        untouched(f"refused by {name}", S, choice_bytes, buffer(60), answer, f"41 before {name}")


SECTIONS = (lengths, heads, ranges, short_buffers)
