"""The stored cases of the run: a model, a choice and the lent buffer before, with the answer and the buffer afterwards.

The grids, figures and refusals are literals: the paper's own for model S, and otherwise worked out from its rules by hand.
"""
from records import FREE, S, S_CHOICE, S_CHOSEN, S_DURATIONS, S_GRID, S_LATE
from records import activity, choice, model, plan, s_model, thread

RUNS = []  # (title of a part,) or (model, choice, buffer before, lines, buffer afterwards, shows, answer, misreading)


def buffer(size, byte=0xAA):
    return bytes([byte]) * size


def part(title):
    RUNS.append((title,))


def note(given, lines, after, shows, answer, misread):
    """misread: a misreading of the paper under which the answer is another."""
    RUNS.append((*given, [*lines, f"run {answer}"], after, shows, answer, misread))


def accepted(shows, model_bytes, chosen, durations, before, grid, figures, misread=""):
    """The plan, then the bytes behind it as they were."""
    written = plan(chosen, grid)
    lines = [f"{t} {word:08x}" for t, word in enumerate(grid)]
    after = written + before[len(written) :]
    note((model_bytes, choice(chosen, durations), before), lines, after, shows, f"accepted {figures}", misread)


def untouched(shows, model_bytes, choice_bytes, before, answer, misread=""):
    """The records or the buffer's length are refused: no byte changes."""
    note((model_bytes, choice_bytes, before), [], before, shows, f"refused {answer}", misread)


def cleared(shows, model_bytes, choice_bytes, before, length, answer, misread=""):
    """The run fails: zeros in place of a plan of that length, then the bytes behind it as they were."""
    after = bytes(length) + before[length:]
    note((model_bytes, choice_bytes, before), [], after, shows, f"refused {answer}", misread)


def model_s():
    part("model S")
    accepted("S with 61 bytes of room", S, S_CHOSEN, S_DURATIONS, buffer(61), S_GRID, "5 8 6")
    untouched("S with 60 bytes", S, S_CHOICE, buffer(60), "41 61 0")
    untouched("S with none", S, S_CHOICE, b"", "41 61 0")
    accepted("S with 9 bytes more, all 255 before", S, S_CHOSEN, S_DURATIONS, buffer(70, 255), S_GRID, "5 8 6")
    wrong_mask = s_model(activities=[activity(0, (1, 2)), activity(1, (2, 3), temporal=[1]), activity(1)])
    untouched("temporal mask 2 in activity 1's row", wrong_mask, S_CHOICE, buffer(70), "7 1 0")
    untouched("the same with a buffer that is too short", wrong_mask, S_CHOICE, b"", "7 1 0")
    untouched("no choice", S, b"", buffer(70), "8 0 0")
    untouched("release 3 for thread 0", S, choice([(3, 0), (0, 8)], S_DURATIONS), buffer(70), "12 0 0")
    untouched("duration 3 for activity 0", S, choice(S_CHOSEN, [3, 2, 1]), buffer(70), "13 0 0")
    untouched("duration 0 for activity 2", S, choice(S_CHOSEN, [2, 2, 0]), buffer(70), "13 2 0")
    two_cores = [2, 3, 1, 4, 0, 0, 0, 0]
    accepted("c 2", s_model(cores=2), S_CHOSEN, S_DURATIONS, buffer(64), two_cores, "5 16 4")
    accepted("H 6: an end equals H", s_model(horizon=6), S_CHOSEN, S_DURATIONS, buffer(64), S_GRID[:6], "5 6 6")


def unfinished():
    part("42 and 43")
    short = s_model(horizon=5)
    cleared("H 5", short, S_CHOICE, buffer(64), 49, "42 2 0")
    untouched("H 5 with a byte too few", short, S_CHOICE, buffer(48), "41 49 0")
    accepted("period 6 of 5..8", S_LATE, [(1, 0), (0, 6)], S_DURATIONS, buffer(61), S_GRID, "5 8 6")
    late_choice = choice([(1, 0), (0, 5)], S_DURATIONS)
    cleared("period 5", S_LATE, late_choice, buffer(64), 61, "43 2 0")
    untouched("period 5 with a byte too few", S_LATE, late_choice, buffer(60), "41 61 0")
    both = model(1, 3, [thread(9, period=(1, 1)), thread(0)], [activity(0, (2, 2)), activity(1, (2, 2))])
    cleared("activity 0 ends past its deadline, activity 1 is owed: 42 first", both, choice([(0, 1), FREE], [2, 2]),
            buffer(40), 37, "42 1 0")


def rank():
    part("rank")
    level = s_model(threads=[thread(4, release=(0, 2)), thread(4, period=(8, 8))])
    accepted("S with both priorities 4: the lower number first", level, S_CHOSEN, S_DURATIONS, buffer(61), S_GRID, "5 8 6")
    three = model(2, 2, [thread(7)], [activity(0), activity(0), activity(0)])
    accepted("three of one thread on two cores", three, [FREE], [1, 1, 1], buffer(40), [3, 4], "3 4 2")
    apart = model(1, 2, [thread(0), thread(65535)], [activity(0), activity(1)])
    accepted("priorities 0 and 65535", apart, [FREE, FREE], [1, 1], buffer(40), [2, 1], "2 2 2")
    crossed = model(1, 2, [thread(1), thread(2)], [activity(1), activity(0)])
    accepted("the priority is the thread's, not of the activity's number", crossed, [FREE, FREE], [1, 1], buffer(40),
             [1, 2], "2 2 2")
    nine = model(8, 2, [thread(1)], [activity(0)] * 9)
    accepted("nine on 8 cores", nine, [FREE], [1] * 9, buffer(60), [255, 256], "9 16 2")


def ready():
    part("ready")
    after_data = model(2, 3, [thread(1)], [activity(0, (2, 2)), activity(0, data=[0])])
    accepted("a predecessor that has not ended", after_data, [FREE], [2, 1], buffer(40), [1, 1, 2], "3 6 3")
    data = model(1, 3, [thread(1)], [activity(0, delay=65535), activity(0, data=[0])])
    accepted("delay 65535 of a data predecessor", data, [FREE], [1, 1], buffer(40), [1, 2, 0], "2 3 2")
    temporal = model(1, 3, [thread(1)], [activity(0, delay=65535), activity(0, temporal=[0])])
    cleared("delay 65535 of a temporal predecessor", temporal, choice([FREE], [1, 1]), buffer(40), 33, "42 1 0")
    delayed = model(1, 4, [thread(1)], [activity(0, delay=2), activity(0, temporal=[0], data=[0])])
    accepted("delay 2 of both kinds of predecessor", delayed, [FREE], [1, 1], buffer(40), [1, 0, 0, 2], "2 4 4")
    released = model(1, 3, [thread(1, release=(0, 65535))], [activity(0)])
    accepted("the release is the last tick", released, [(2, 0)], [1], buffer(40), [0, 0, 1], "1 3 1")
    cleared("the release is H", released, choice([(3, 0)], [1]), buffer(40), 29, "42 0 0")
    cleared("the release is 65535", released, choice([(65535, 0)], [1]), buffer(40), 29, "42 0 0")
    idle = model(1, 4, [thread(9), thread(1, release=(0, 4))], [activity(1)])
    accepted("a thread without activities has the least release", idle, [FREE, (2, 0)], [1], buffer(40), [0, 0, 1, 0],
             "1 4 3")


def largest():
    part("the greatest sizes")
    full = model(8, 4096, [thread(5)] * 8, [activity(a % 8, (1, 4096)) for a in range(32)])
    grid = [255 << 8 * (t // 1024) for t in range(4096)]
    accepted("the largest model, all cores busy to the end", full, [FREE] * 8, [1024] * 32, buffer(16560), grid,
             "32768 32768 4096")
    untouched("the same with a byte too few", full, choice([FREE] * 8, [1024] * 32), buffer(16552), "41 16553 0")


SECTIONS = (model_s, unfinished, rank, ready, largest)
