"""The stored cases of models wrapped for exchange, request U6 of paper 02: two wrapped records, or a file of them, with
the answer and the part that is handed back.

Every answer is a literal, worked out by hand from the request: of a pair which one stands, of a file the number of the
one chosen with its offset and length, or the refusal. The part is the record so named, an empty one for a refusal.
"""
from records import activity, model, number, put, thread, wrapped
from gangs import wide
from rounds import NO_LOOP, page

PAIRS = []  # (title of a part,) or (first, second, lines, part, shows, answer, misreading)
FILES = []  # (title of a part,) or (file, lines, part, shows, answer, misreading)

SERIES = 0x01020304
OTHER = 0x01020314  # another series

# Four texts: the smallest models, of 35 bytes, wrapped 47, pages of one round, of 37 bytes, wrapped 49, and pages of version
# 3, of 38 bytes, wrapped 50. Z ends with its loop byte, W with its width.
X = model(1, 1, [thread(1)], [activity(0)])
Y = model(1, 1, [thread(2)], [activity(0)])
Z = page(1, 1, 1, [thread(1)], [(activity(0), NO_LOOP)])
Z_LOOPED = page(1, 1, 1, [thread(1)], [(activity(0), 0)])
W = wide(2, [2])
W_NARROW = wide(2, [1])


def live(issue, text=X, series=SERIES):
    return wrapped(series, issue, 0, text)


def withdrawn(issue, text=X, series=SERIES):
    return wrapped(series, issue, 1, text)


def of_length(bytes_, length):
    return put(bytes_, 0, 4, length)


VERSION_0 = put(live(1), 4, 1, 0)
VERSION_2 = put(live(1), 4, 1, 2)
FLAG_2 = put(live(1), 11, 1, 2)


def pair(shows, first, second, stands, misread=""):
    """stands: "first" or "second"."""
    part = {"first": first, "second": second}[stands]
    PAIRS.append((first, second, [f"stands {stands}"], part, shows, stands, misread))


def pair_refused(shows, first, second, answer, misread=""):
    PAIRS.append((first, second, [f"refused {answer}"], b"", shows, f"refused {answer}", misread))


def file(shows, records, chosen, offset, length, misread=""):
    answer = f"chosen {chosen} {offset} {length}"
    FILES.append((b"".join(records), [answer], records[chosen], shows, answer, misread))


def file_refused(shows, records, answer, misread=""):
    FILES.append((b"".join(records), [f"refused {answer}"], b"", shows, f"refused {answer}", misread))


# ---- pairs


def ranks():
    PAIRS.append(("issues and withdrawals",))
    pair("live 1, withdrawn 1", live(1), withdrawn(1), "second", "at equal issue the live one, or the first")
    pair("withdrawn 1, live 1: the page brought back", withdrawn(1), live(1), "first",
         "at equal issue the live one, or the second")
    pair("withdrawn 1, live 2", withdrawn(1), live(2), "second", "withdrawn over every issue")
    pair("live 2, withdrawn 1", live(2), withdrawn(1), "first", "withdrawn over every issue, or always the second")
    pair("withdrawn 2, live 1", withdrawn(2), live(1), "first", "a withdrawn page never stands")
    pair("live 1, live 2 with another text", live(1), live(2, Y), "second", "56 for any other bytes")
    pair("live 1, withdrawn 1 with another text", live(1), withdrawn(1, Y), "second", "56 without the flag")
    pair("live 255, live 256", live(255), live(256), "second", "the low byte of the issue, or little-endian")
    pair("live 32768, withdrawn 32767", live(32768), withdrawn(32767), "first", "an issue with a sign")
    pair("live 1 twice", live(1), live(1), "first", "the second of two equal ones, or 56 for them")


def pairs_refused():
    PAIRS.append(("refused",))
    for k, other in enumerate((0x11020304, 0x01120304, 0x01021304, 0x01020314)):
        pair_refused(f"series that differ in byte {k}", live(1), live(1, series=other), "55 1 0",
                     f"byte {k} of the series left out")
    pair_refused("live 1 with two texts", live(1), live(1, Y), "56 1 0", "the first where only issue and flag are equal")
    pair_refused("live 1 with two texts that differ in the last byte", live(1, Z), live(1, Z_LOOPED), "56 1 0",
                 "the last byte left out, or lengths compared")
    pair_refused("live 1 with two texts that differ in a width", live(1, W), live(1, W_NARROW), "56 1 0",
                 "the width left out")
    pair_refused("the first's length one more than the bytes given", of_length(live(1), 48), live(1), "54 0 0",
                 "the length left out in a pair")
    pair_refused("the second's one less: a byte behind it", live(1), live(2) + b"\0", "54 1 0",
                 "as in a file, with the rest left out")
    pair_refused("no byte for the second", live(1), b"", "54 1 0", "the one that is given stands")
    pair_refused("flag 2, then version 0", FLAG_2, VERSION_0, "54 0 0", "the second tried first")
    pair_refused("the second of another series with flag 2", live(1), put(live(1, series=OTHER), 11, 1, 2), "54 1 0",
                 "55 before 54")
    pair_refused("the second of another series with another text", live(1), live(1, Y, OTHER), "55 1 0", "56 before 55")


# ---- files


def chosen():
    FILES.append(("chosen",))
    file("live 1 alone", [live(1)], 0, 0, 47, "two records asked for")
    file("withdrawn 1 alone", [withdrawn(1)], 0, 0, 47, "a withdrawn page never chosen")
    file("live 1, withdrawn 1", [live(1), withdrawn(1)], 1, 47, 47, "at equal issue the live one, or an offset of 0")
    file("withdrawn 1, live 1: the page brought back", [withdrawn(1), live(1)], 0, 0, 47,
         "at equal issue the live one, or the last")
    file("live 1, withdrawn 1, live 2, live 1", [live(1), withdrawn(1), live(2), live(1)], 2, 94, 47,
         "withdrawn over every issue, or the last one")
    file("withdrawn 2, live 1, withdrawn 2", [withdrawn(2), live(1), withdrawn(2)], 0, 0, 47,
         "each against the one before it, or the last of the greatest")
    file("live 1, live 2, live 2", [live(1), live(2), live(2)], 1, 47, 47, "the last copy")
    file("live 1, live 2 with a page of version 2", [live(1), live(2, Z)], 1, 47, 49,
         "models of version 1 only, or records of one length")
    file("live 1, live 2 with a page of version 3", [live(1), live(2, W)], 1, 47, 50, "models of versions 1 and 2 only")
    # 21 records
    issues = [*range(1, 19), 20, 5, 19]
    file("issues 1 to 18, 20, 5, 19", [live(issue) for issue in issues], 18, 846, 47, "each against the one before it")
    file("live 1, live 2, live 1 with another text", [live(1), live(2), live(1, Y)], 1, 47, 47,
         "56 against every record before")
    file("live 1, withdrawn 1, live 1 with another text", [live(1), withdrawn(1), live(1, Y)], 1, 47, 47,
         "56 against every record before, or without the flag")


def series_and_texts():
    FILES.append(("55 and 56",))
    file_refused("the third record of another series", [live(1), live(2), live(1, series=OTHER)], "55 2 0",
                 "a file of several series, or A the one standing")
    file_refused("live 1 twice, then with another text", [live(1), live(1), live(1, Y)], "56 2 0",
                 "A the one standing, or from 1")
    file_refused("withdrawn 1 with two texts", [withdrawn(1), withdrawn(1, Y)], "56 1 0", "56 for live pages only")
    file_refused("live 1 with two texts, then live 2", [live(1), live(1, Y), live(2)], "56 1 0",
                 "56 against the one chosen at the end")


def lengths():
    FILES.append(("54, the length",))
    file_refused("no byte", [], "54 0 0", "an empty part without a refusal")
    file_refused("3 bytes behind a record", [live(1), b"\0\0\0"], "54 1 0", "a rest under 4 bytes left out")
    file_refused("4 bytes behind a record, length 4", [live(1), number(4, 4)], "54 1 0", "a rest under 12 bytes left out")
    file_refused("12 bytes behind a record, length 0", [live(1), bytes(12)], "54 1 0", "a record of no byte passed over")
    file_refused("11 bytes, length 11", [of_length(live(1)[:11], 11)], "54 0 0", "the flag read past the end")
    file_refused("12 bytes, length 12: no model", [of_length(live(1)[:12], 12)], "54 0 0", "an empty model")
    file_refused("length 48 of 47 bytes", [of_length(live(1), 48)], "54 0 0", "what there is taken as the record")
    # the model has 34 bytes, and its length says 35
    file_refused("length 46, then a byte and live 2", [of_length(live(1), 46), live(2)], "54 0 0",
                 "54 at the byte left over")
    for bits in (8, 24):
        file_refused(f"a length that agrees modulo 2^{bits}", [of_length(live(1), (1 << bits) + 47)], "54 0 0",
                     f"{bits} bits of the length")
    file_refused("live 1, then a length of 2^32 - 47", [live(1), of_length(live(2), (1 << 32) - 47)], "54 1 0",
                 "the end of a record in 32 bits")


OWN_BIT = model(1, 1, [thread(1)], [activity(0, temporal=[0])])
UNEQUAL = page(1, 1, 2, [thread(1, period=(1, 2))], [(activity(0), NO_LOOP)])


def contents():
    FILES.append(("54, version, flag and model",))
    file_refused("version 0", [VERSION_0], "54 0 0", "the version left out")
    file_refused("version 2", [VERSION_2], "54 0 0", "the model's versions in the wrapper")
    file_refused("flag 2", [FLAG_2], "54 0 0", "the lowest bit of the flag")
    file_refused("live 1, live 2, flag 255", [live(1), live(2), put(live(3), 11, 1, 255)], "54 2 0",
                 "the one standing handed back")
    models = (
        ("3", put(X, 5, 1, 0), "the model left out"),
        ("7", OWN_BIT, "1 to 6 only"),
        ("51", page(1, 1, 5, [thread(1)], [(activity(0), NO_LOOP)]), "the form rules of 01 only"),
        ("52", UNEQUAL, "the form rules of 01 only"),
        ("53", page(1, 1, 1, [thread(1)], [(activity(0), 1)]), "the form rules of 01 only"),
        ("57", wide(2, [3]), "the form rules before version 3 only"),
    )
    for rule, text, misread in models:
        file_refused(f"a model that {rule} refuses", [live(1, text)], "54 0 0", misread)
    file_refused("a byte behind the model, which the wrapper's length counts", [live(1, X + b"\0")], "54 0 0",
                 "the model as long as its own length says")


def order():
    FILES.append(("which refusal comes first",))
    other = live(1, series=OTHER)
    file_refused("another series and version 0", [live(1), put(other, 4, 1, 0)], "54 1 0", "55 before 54")
    file_refused("another series, then version 0", [live(1), other, VERSION_0], "55 1 0",
                 "54 over the whole file before 55")
    file_refused("another text, then another series, then a byte", [live(1), live(1, Y), other, b"\0"], "56 1 0",
                 "54 or 55 over the whole file before 56")


OF_PAIRS = (ranks, pairs_refused)
OF_FILES = (chosen, series_and_texts, lengths, contents, order)
