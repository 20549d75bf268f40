"""The stored cases of the checks: a model, a plan and the two answers as literals.

The answers of the paper's own cases are the literals that it prints; the others follow from its rules by hand.
"""
from records import *

CASES = []  # (title of a part,) or (model, plan, plain, strict, shows, misreading)


def part(title):
    CASES.append((title,))


def case(shows, model_bytes, plan_bytes, plain, strict=None, misread=""):
    """misread: a misreading of the paper under which the answer is another."""
    CASES.append((model_bytes, plan_bytes, plain, strict or plain, shows, misread))


def model_s():
    part("Model S and its neighbours, with the paper's literals")
    case("the plan that the run writes for S", S, S_PLAN, "accepted 5 8 6")
    case("activity 2 at tick 4", S, s_plan([2, 1, 1, 2, 4, 0, 0, 0]), "refused 25 2 1")
    case(
        "activity 2 at tick 6: a free core while it waits at tick 5",
        S,
        s_plan([2, 1, 1, 2, 0, 0, 4, 0]),
        "accepted 5 8 7",
        "refused 30 5 2",
        "an idle tick as a breach of 29",
    )
    exchanged = [2, 2, 1, 1, 0, 4, 0, 0]
    case("activity 1 at 0, 1 and activity 0 at 2, 3", S, s_plan(exchanged), "refused 29 1 0")
    level = s_model(threads=[thread(4, release=(0, 2)), thread(4, period=(8, 8))])
    case("the same with both priorities 4", level, s_plan(exchanged), "accepted 5 8 6", "refused 30 4 2")
    case(
        "the same with activity 2 at tick 4 as well",
        level,
        s_plan([2, 2, 1, 1, 4, 0, 0, 0]),
        "accepted 5 8 5",
        "refused 31 1 0",
    )
    case("the plan of the run with c 2", s_model(cores=2), s_plan([2, 3, 1, 4, 0, 0, 0, 0]), "accepted 5 16 4")
    case("activity 1 at 0, 2", S, s_plan([2, 1, 3, 0, 0, 4, 0, 0]), "refused 28 2 0")
    case("release 3 for thread 0", S, s_plan(chosen=[(3, 0), (0, 8)]), "refused 12 0 0")
    case("H 6: an end equals H", s_model(horizon=6), s_plan(S_GRID[:6]), "accepted 5 6 6", misread="end < H in 21")
    case(
        "thread 1's period range 5..8, chosen 6: an end equals the deadline",
        S_LATE,
        s_plan(chosen=[(1, 0), (0, 6)]),
        "accepted 5 8 6",
        misread="end < release + period in 23",
    )
    own = replaced(S_ACTIVITIES, 1, activity(1, (2, 3), delay=1, temporal=[1]))
    case(
        "temporal mask 2 in activity 1's row",
        s_model(activities=own),
        S_PLAN,
        "refused 7 1 0",
        misread="the own bit allowed in 7",
    )


# Refusals 1 to 14


def model_form():
    part("The model is sent back")
    case("no bytes at all", b"", b"", "refused 1 0 0")
    case("9 bytes whose length says 9", number(4, 9) + b"\1\1\1\1\0", S_PLAN, "refused 1 0 0")
    case("10 bytes whose length says 10", number(4, 10) + b"\1\1\1\1\0\x08", S_PLAN, "refused 4 0 0")
    case("a length one too great", put(S, 0, 4, len(S) + 1), S_PLAN, "refused 1 0 0")
    for bits in (8, 16, 24):
        case(
            f"a length that agrees modulo 2^{bits}",
            put(S, 0, 4, len(S) + 2**bits),
            S_PLAN,
            "refused 1 0 0",
            misread=f"1 compares {bits} bits",
        )
    case("version 4", s_model(version=4), S_PLAN, "refused 2 0 0")
    case("version 0, and c 0: 2 comes first", s_model(cores=0, version=0), S_PLAN, "refused 2 0 0")
    case("c 0", s_model(cores=0), S_PLAN, "refused 3 0 0")
    case("c 9", s_model(cores=9), S_PLAN, "refused 3 0 0")
    case("n 0", model(1, 8, [], S_ACTIVITIES), S_PLAN, "refused 3 0 0")
    case("n 9", model(1, 8, [thread(0)] * 9, [activity(0)]), S_PLAN, "refused 3 0 0")
    case("m 0", model(1, 8, S_THREADS, []), S_PLAN, "refused 3 0 0")
    case("m 33", model(1, 8, [thread(0)], [activity(0)] * 33), S_PLAN, "refused 3 0 0")
    case("H 0", s_model(horizon=0), S_PLAN, "refused 3 0 0")
    case("H 4097", s_model(horizon=4097), S_PLAN, "refused 3 0 0")
    case("m 4 with rows for 3 activities", put(S, 7, 1, 4), S_PLAN, "refused 4 0 0")
    case("a byte behind the last row", longer(S), S_PLAN, "refused 4 0 0")
    thread_rows()
    activity_rows()
    masks()


def thread_rows():
    period, release, zero = thread(3, period=(9, 8)), thread(3, release=(1, 0)), thread(3, period=(0, 8))
    case("least period above most", s_model(threads=[S_THREADS[0], period]), S_PLAN, "refused 5 1 0")
    case(
        "least release above most",
        s_model(threads=[S_THREADS[0], release]),
        S_PLAN,
        "refused 5 1 0",
        misread="5 without the releases",
    )
    case(
        "a period range of 0..8",
        s_model(threads=[S_THREADS[0], zero]),
        S_PLAN,
        "refused 5 1 0",
        misread="5 without the period of 0",
    )
    case("both thread rows: the lower is named", s_model(threads=[release, period]), S_PLAN, "refused 5 0 0")
    case(
        "activity row 0 breaks 6, thread row 1 breaks 5",
        s_model(threads=[S_THREADS[0], period], activities=replaced(S_ACTIVITIES, 0, activity(2))),
        S_PLAN,
        "refused 5 1 0",
    )


def activity_rows():
    def with_row(at, row):
        return s_model(activities=replaced(S_ACTIVITIES, at, row))

    case("thread 2 of 2", with_row(1, activity(2, (2, 3))), S_PLAN, "refused 6 1 0", misread="6 without the thread")
    case(
        "durations 0..3",
        with_row(1, activity(1, (0, 3), delay=1)),
        S_PLAN,
        "refused 6 1 0",
        misread="6 without the duration of 0",
    )
    case(
        "durations 3..2",
        with_row(1, activity(1, (3, 2))),
        S_PLAN,
        "refused 6 1 0",
        misread="6 without least above most",
    )
    case(
        "row 0 breaks 7 and row 1 breaks 6",
        s_model(activities=[activity(0, temporal=[0]), activity(2), S_ACTIVITIES[2]]),
        S_PLAN,
        "refused 6 1 0",
        misread="6 and 7 in one pass",
    )


def masks():
    def with_row(at, row):
        return s_model(activities=replaced(S_ACTIVITIES, at, row))

    case(
        "a later activity in the temporal mask",
        with_row(1, activity(1, (2, 3), temporal=[2])),
        S_PLAN,
        "refused 7 1 0",
        misread="7 on the data mask only",
    )
    case(
        "a later activity in the data mask",
        with_row(1, activity(1, (2, 3), data=[2])),
        S_PLAN,
        "refused 7 1 0",
        misread="7 on the temporal mask only",
    )
    case("row 0's own bit in the data mask", with_row(0, activity(0, (1, 2), data=[0])), S_PLAN, "refused 7 0 0")
    case("bit 31 of row 0", with_row(0, activity(0, (1, 2), temporal=[31])), S_PLAN, "refused 7 0 0")


def plan_form():
    part("The plan is sent back")
    case("a model alone", S, b"", "refused 8 0 0")
    case("a bad model and no plan: the model is tried first", s_model(cores=0), b"", "refused 3 0 0")
    case(
        "8 bytes whose length says 8",
        S,
        number(4, 8) + b"\1\2\3\0",
        "refused 8 0 0",
        misread="a plan of 7 bytes passes 8",
    )
    case("9 bytes whose length says 9", S, number(4, 9) + b"\1\2\3\0\x08", "refused 11 0 0")
    case("a length one too great", S, put(S_PLAN, 0, 4, len(S_PLAN) + 1), "refused 8 0 0")
    for bits in (8, 16, 24):
        case(
            f"a length that agrees modulo 2^{bits}",
            S,
            put(S_PLAN, 0, 4, len(S_PLAN) + 2**bits),
            "refused 8 0 0",
            misread=f"8 compares {bits} bits",
        )
    case("version 2", S, s_plan(version=2), "refused 9 0 0")
    case("n 3", S, s_plan(chosen=[*S_CHOSEN, (0, 0)]), "refused 10 0 0")
    case("m 4", S, s_plan(rows=[*S_ROWS, (0, 1)]), "refused 10 0 0")
    case(
        "H 9, and as many words",
        S,
        s_plan([*S_GRID, 0]),
        "refused 10 0 0",
        misread="10 without the plan's H",
    )
    case(
        "H 264, which agrees modulo 2^8",
        S,
        put(S_PLAN, 7, 2, 264),
        "refused 10 0 0",
        misread="10 compares 8 bits of H",
    )
    case("a byte behind the last word", S, longer(S_PLAN), "refused 11 0 0")
    chosen()
    word_bits()


def chosen():
    case("release 3 of 0..2, and a bit 3 besides", S, s_plan([8] * 8, [(3, 0), (0, 8)], S_ROWS), "refused 12 0 0")
    early = s_model(threads=replaced(S_THREADS, 0, thread(5, release=(1, 2))))
    case(
        "release 0 of 1..2",
        early,
        s_plan(chosen=[(0, 0), (0, 8)]),
        "refused 12 0 0",
        misread="12 without the least release",
    )
    period = "12 without the period"
    case("period 9 of 8..8", S, s_plan(chosen=[(1, 0), (0, 9)]), "refused 12 1 0", misread=period)
    case("period 7 of 8..8", S, s_plan(chosen=[(1, 0), (0, 7)]), "refused 12 1 0", misread=period)
    case("period 0 of 8..8", S, s_plan(chosen=[(1, 0), (0, 0)]), "refused 12 1 0", misread=period)
    case("period 8 where there is none", S, s_plan(chosen=[(1, 8), (0, 8)]), "refused 12 0 0", misread=period)


def word_bits():
    spare = s_plan([2, 1, 1, 2, 0, 4, 8, 8], rows=S_ROWS)
    case("bit 3 with m 3, at ticks 6 and 7", S, spare, "refused 14 6 0", misread="14 left out")
    top = s_plan(replaced(S_GRID, 7, 1 << 31), rows=S_ROWS)
    case("bit 31 with m 3", S, top, "refused 14 7 0", misread="14 left out")
    broken = s_plan(replaced(S_GRID, 7, 8), rows=[(3, 1), (0, 4), (5, 6)])
    case("a start above its end besides: 14 comes first", S, broken, "refused 14 7 0")
    wide = model(8, 4, [thread(0)], [activity(0) for _ in range(32)])
    words = [0xFF << 8 * t for t in range(4)]
    case(
        "m 32: no bit is too high",
        wide,
        plan([(0, 0)], words),
        "accepted 32 32 4",
        misread="14 by a shift of m mod 32",
    )


# Rules 21 to 31


def alone(duration=(1, 5), horizon=8, period=(0, 0), release=(0, 0)):
    """One activity on one core."""
    return model(1, horizon, [thread(0, release, period)], [activity(0, duration)])


def one_thread(count, cores=1, horizon=8, **row):
    """Some activities of one thread; row: what the last has besides."""
    rows = [activity(0) for _ in range(count - 1)]
    return model(cores, horizon, [thread(0)], [*rows, activity(0, **row)])


def window():
    part("21 window")
    case("the smallest: one tick, one activity", alone(horizon=1), plan([(0, 0)], [1]), "accepted 1 1 1")
    case("start equals end", S, s_plan(rows=replaced(S_ROWS, 2, (5, 5))), "refused 21 2 0")
    case("start 65535", S, s_plan(rows=replaced(S_ROWS, 2, (65535, 6))), "refused 21 2 0")
    case("end 9 of H 8", S, s_plan(rows=replaced(S_ROWS, 2, (5, 9))), "refused 21 2 0")
    case("end 65535", S, s_plan(rows=replaced(S_ROWS, 2, (5, 65535))), "refused 21 2 0")
    case(
        "start too early",
        S,
        s_plan(rows=replaced(S_ROWS, 2, (4, 6))),
        "refused 21 2 0",
        misread="21 without start's bit",
    )
    case(
        "end too late",
        S,
        s_plan(rows=replaced(S_ROWS, 2, (5, 7))),
        "refused 21 2 0",
        misread="21 without the last bit",
    )
    outside = "21 without none outside"
    gaps = [1, 0, 1, 0, 1, 0, 0, 0]
    case("a bit before start", alone(), plan([(0, 0)], gaps, [(2, 5)]), "refused 21 0 0", misread=outside)
    case("a bit after end", alone(), plan([(0, 0)], gaps, [(0, 3)]), "refused 21 0 0", misread=outside)
    case("gaps inside are no breach", alone(), plan([(0, 0)], gaps), "accepted 3 8 5", "refused 30 1 0")
    case(
        "activity 0 breaks 22, activity 1 breaks 21",
        one_thread(2),
        plan([(0, 0)], [1, 1, 2, 0, 0, 0, 0, 0], [(0, 2), (2, 4)]),
        "refused 21 1 0",
        misread="21 and 22 in one pass",
    )


def window_and_count():
    part("21 beside what rule 24 asked")
    early = "24 before 21"
    case(
        "activity 0 is active at 1 and 2, its window is 2 to 3",
        S,
        s_plan(rows=replaced(S_ROWS, 0, (2, 3))),
        "refused 21 0 0",
        misread=early,
    )
    case(
        "activity 0's window ends late, activity 1 is active at 0 and 3, its window is 3 to 4",
        S,
        s_plan(rows=replaced(replaced(S_ROWS, 0, (1, 4)), 1, (3, 4))),
        "refused 21 0 0",
        misread=early,
    )
    case(
        "activity 1 is active at 0 and 3, its window is 0 to 3: wide enough for 24",
        S,
        s_plan(rows=replaced(S_ROWS, 1, (0, 3))),
        "refused 21 1 0",
        misread="21 out in the place of 24",
    )


def count_and_deadline():
    part("22 count, 23 deadline")
    case(
        "count 3 of 1..2",
        alone((1, 2)),
        plan([(0, 0)], [1, 1, 1, 0, 0, 0, 0, 0]),
        "refused 22 0 0",
        misread="22 without the upper bound",
    )
    case(
        "count 1 of 2..3",
        alone((2, 3)),
        plan([(0, 0)], [1, 0, 0, 0, 0, 0, 0, 0]),
        "refused 22 0 0",
        misread="22 without the lower bound",
    )
    case(
        "count 2 of 3..3 in a window of 3",
        alone((3, 3)),
        plan([(0, 0)], [1, 0, 1, 0, 0, 0, 0, 0]),
        "refused 22 0 0",
        misread="22 by end less start",
    )
    case(
        "S with thread 1's period range 5..8, chosen 5: where the run is refused with 43 2 0",
        S_LATE,
        s_plan(chosen=[(1, 0), (0, 5)]),
        "refused 23 2 0",
    )
    free = model(1, 8, [thread(0), thread(0, period=(1, 1))], [activity(0, (1, 5))])
    case(
        "no period is no deadline",
        free,
        plan([(0, 0), (0, 1)], [1, 1, 1, 0, 0, 0, 0, 0]),
        "accepted 3 8 3",
        misread="23 with a period of 0",
    )
    crossed = model(2, 8, [thread(0, period=(2, 2)), thread(0)], [activity(1, (1, 5)), activity(0)])
    case(
        "activity 0 of thread 1, activity 1 of thread 0",
        crossed,
        plan([(0, 2), (0, 0)], [3, 1, 1, 0, 0, 0, 0, 0]),
        "accepted 4 16 3",
        misread="the period by activity number",
    )


def precedence():
    part("25 and 26 precedence")
    delays = model(1, 8, [thread(0)], [activity(0, delay=2), activity(0, delay=1, temporal=[0])])
    case(
        "start is end + delay",
        delays,
        plan([(0, 0)], [1, 0, 0, 2, 0, 0, 0, 0]),
        "accepted 2 8 4",
        misread="25 with equality refused",
    )
    case(
        "one tick too early",
        delays,
        plan([(0, 0)], [1, 0, 2, 0, 0, 0, 0, 0]),
        "refused 25 1 0",
        misread="25 with the successor's delay",
    )
    overflow = model(1, 8, [thread(0)], [activity(0, delay=65535), activity(0, temporal=[0])])
    case(
        "end 1 and delay 65535",
        overflow,
        plan([(0, 0)], [1, 2, 0, 0, 0, 0, 0, 0]),
        "refused 25 1 0",
        misread="end + delay in 16 bits",
    )
    both = one_thread(3, temporal=[0, 1])
    case(
        "two predecessors break 25: the lower is B",
        both,
        plan([(0, 0)], [4, 2, 1, 0, 0, 0, 0, 0]),
        "refused 25 2 0",
        misread="the highest B in 25",
    )
    rows = [activity(0), activity(0), activity(0, temporal=[1]), activity(0, temporal=[0])]
    case(
        "activity 2 breaks 25 by 1, activity 3 by 0: the lower A",
        model(1, 8, [thread(0)], rows),
        plan([(0, 0)], [8, 4, 2, 1, 0, 0, 0, 0]),
        "refused 25 2 1",
        misread="the lowest B before the lowest A",
    )
    data_dependency()


def data_dependency():
    delayed = model(1, 8, [thread(0)], [activity(0, delay=3), activity(0, data=[0])])
    delay = "the data predecessor given the delay"
    case(
        "a data predecessor's delay does not count",
        delayed,
        plan([(0, 0)], [1, 2, 0, 0, 0, 0, 0, 0]),
        "accepted 2 8 2",
        misread=delay,
    )
    case(
        "nor does it for waiting",
        delayed,
        plan([(0, 0)], [1, 0, 0, 0, 2, 0, 0, 0]),
        "accepted 2 8 5",
        "refused 30 1 1",
        delay,
    )
    both = model(1, 8, [thread(0)], [activity(0, delay=3), activity(0, temporal=[0], data=[0])])
    case(
        "in both masks, the temporal one has the delay",
        both,
        plan([(0, 0)], [1, 2, 0, 0, 0, 0, 0, 0]),
        "refused 25 1 0",
    )
    pair = one_thread(2, data=[0])
    case("a data predecessor still active", pair, plan([(0, 0)], [2, 1, 0, 0, 0, 0, 0, 0]), "refused 26 1 0")
    two = one_thread(3, data=[0, 1])
    case(
        "two predecessors break 26: the lower is B",
        two,
        plan([(0, 0)], [4, 2, 1, 0, 0, 0, 0, 0]),
        "refused 26 2 0",
        misread="the highest B in 26",
    )
    rows = [activity(0), activity(0, data=[0]), activity(0, temporal=[0])]
    case(
        "activity 1 breaks 26, activity 2 breaks 25",
        model(1, 8, [thread(0)], rows),
        plan([(0, 0)], [4, 2, 1, 0, 0, 0, 0, 0]),
        "refused 25 2 0",
        misread="25 and 26 in one pass",
    )


def earliest_start():
    part("27 earliest start, 28 cores")
    case(
        "a start before the release",
        alone(release=(2, 2)),
        plan([(2, 0)], [0, 1, 0, 0, 0, 0, 0, 0]),
        "refused 27 0 0",
    )
    released = model(2, 6, [thread(0), thread(0, release=(4, 4))], [activity(0), activity(1, temporal=[0])])
    out = "the release left out of efe"
    case(
        "the release counts though a predecessor exists",
        released,
        plan([(0, 0), (4, 0)], [1, 0, 0, 2, 0, 0]),
        "refused 27 1 0",
        misread=out,
    )
    case(
        "and what is not released does not wait",
        released,
        plan([(0, 0), (4, 0)], [1, 0, 0, 0, 2, 0]),
        "accepted 2 12 5",
        misread=out,
    )
    case("release 65535", alone(release=(0, 65535)), plan([(65535, 0)], [1, 0, 0, 0, 0, 0, 0, 0]), "refused 27 0 0")
    crossed = model(2, 4, [thread(0, release=(2, 2)), thread(0)], [activity(1), activity(0)])
    case(
        "activity 0 of thread 1, activity 1 of thread 0",
        crossed,
        plan([(2, 0), (0, 0)], [1, 0, 2, 0]),
        "accepted 2 8 3",
        misread="the release by activity number",
    )
    ranked = model(1, 4, [thread(1), thread(2)], [activity(0), activity(1), activity(0)])
    case(
        "29 is broken at tick 0, 28 at tick 1",
        ranked,
        plan([(0, 0)] * 2, [1, 6, 0, 0]),
        "refused 28 1 0",
        misread="28 and 29 in one pass",
    )


def priorities(cores, horizon, *values):
    """An activity of one tick for each value, each of a thread of that priority; at most 8."""
    threads = [thread(value) for value in values]
    return model(cores, horizon, threads, [activity(a) for a in range(len(values))])


def preemption():
    part("29 preemption")
    crossed = model(1, 2, [thread(1), thread(5)], [activity(1), activity(0)])
    by_number = "the priority by activity number"
    two = [(0, 0)] * 2
    case(
        "activity 0 has thread 1's priority, and goes first",
        crossed,
        plan(two, [1, 2]),
        "accepted 2 2 2",
        misread=by_number,
    )
    case("and is passed over", crossed, plan(two, [2, 1]), "refused 29 0 0", misread=by_number)
    three = [(0, 0)] * 3
    four = [(0, 0)] * 4
    case(
        "one active priority above the waiting one's, one below",
        priorities(2, 2, 1, 3, 2),
        plan(three, [3, 4]),
        "refused 29 0 2",
        misread="29 by all instead of some",
    )
    case(
        "a more urgent one waits while a core is free",
        priorities(2, 2, 1, 2),
        plan(two, [1, 2]),
        "accepted 2 4 2",
        "refused 30 0 1",
        "29 with a free core",
    )
    case(
        "two wait: the lower is B",
        priorities(1, 3, 1, 2, 3),
        plan(three, [1, 4, 2]),
        "refused 29 0 1",
        misread="the highest B in 29",
    )
    case(
        "broken at ticks 0 and 2: the lower is A",
        priorities(1, 4, 3, 1, 4, 2),
        plan(four, [1, 4, 2, 8]),
        "refused 29 0 2",
        misread="the highest A in 29",
    )
    case(
        "an equal priority that waits",
        priorities(1, 2, 7, 7),
        plan(two, [1, 2]),
        "accepted 2 2 2",
        misread="29 with an equal priority",
    )
    case(
        "priorities 65535 and 1",
        priorities(1, 2, 65535, 1),
        plan(two, [1, 2]),
        "accepted 2 2 2",
        misread="priorities with a sign",
    )
    case(
        "priorities 256 and 255",
        priorities(1, 2, 256, 255),
        plan(two, [1, 2]),
        "accepted 2 2 2",
        misread="priorities in 8 bits",
    )
    waits_for_predecessors()


def waits_for_predecessors():
    threads = [thread(1), thread(2)]
    two = [(0, 0)] * 2
    slow = [activity(0, (1, 5)), activity(1, temporal=[0])]
    case(
        "what waits for a temporal predecessor is not waiting",
        model(1, 4, threads, slow),
        plan(two, [0, 1, 1, 2]),
        "accepted 3 4 4",
        "refused 30 0 0",
        "waiting without the temporal predecessors",
    )
    slow = [activity(0, (1, 5)), activity(1, data=[0])]
    case(
        "nor what waits for a data predecessor",
        model(1, 4, threads, slow),
        plan(two, [0, 1, 1, 2]),
        "accepted 3 4 4",
        "refused 30 0 0",
        "waiting without the data predecessors",
    )


def strict_rules():
    part("30 and 31")
    two = [(0, 0)] * 2
    case(
        "two wait at an idle tick: the lower is B",
        priorities(1, 3, 1, 1),
        plan(two, [0, 1, 2]),
        "accepted 2 3 3",
        "refused 30 0 0",
        "the highest B in 30",
    )
    case(
        "one of two cores is free",
        priorities(2, 2, 1, 1),
        plan(two, [2, 1]),
        "accepted 2 4 2",
        "refused 30 0 0",
        "30 at idle ticks only",
    )
    case(
        "31 is broken at tick 0, 30 at tick 1",
        priorities(1, 3, 1, 1),
        plan(two, [2, 0, 1]),
        "accepted 2 3 3",
        "refused 30 1 0",
        "30 and 31 in one pass",
    )
    case(
        "equal priorities, lower number first",
        priorities(1, 2, 1, 1),
        plan(two, [1, 2]),
        "accepted 2 2 2",
        misread="31 without the order of the numbers",
    )
    case(
        "higher number first",
        priorities(1, 2, 1, 1),
        plan(two, [2, 1]),
        "accepted 2 2 2",
        "refused 31 0 0",
        "31 with the order turned round",
    )
    case(
        "two wait for the third: the lower is B",
        priorities(1, 3, 1, 1, 1),
        plan([(0, 0)] * 3, [4, 1, 2]),
        "accepted 3 3 3",
        "refused 31 0 0",
        "the highest B in 31",
    )
    case(
        "a more urgent and an equal one are active",
        priorities(2, 2, 2, 1, 1),
        plan([(0, 0)] * 3, [5, 2]),
        "accepted 3 4 2",
        "refused 31 0 1",
        "31 by all instead of some",
    )


def figures():
    part("The figures, and the greatest sizes")
    owners = model(1, 4, [thread(0, release=(0, 3)), thread(0, release=(0, 3))], [activity(1)])
    over = "the makespan over owning threads only"
    case(
        "a thread without activities has the least release",
        owners,
        plan([(0, 0), (2, 0)], [0, 0, 1, 0]),
        "accepted 1 4 3",
        misread=over,
    )
    case("its own thread has it", owners, plan([(3, 0), (2, 0)], [0, 0, 1, 0]), "accepted 1 4 1")
    case(
        "the makespan is counted from the least release, not from the first active tick",
        alone(),
        plan([(0, 0)], [0, 0, 1, 0, 0, 0, 0, 0]),
        "accepted 1 8 3",
        "refused 30 0 0",
        "the makespan from the least start",
    )
    ticks = "usage as ticks with a one"
    case(
        "two ones in a word are two of the usage",
        one_thread(2, cores=2, horizon=2),
        plan([(0, 0)], [3, 0]),
        "accepted 2 4 1",
        misread=ticks,
    )
    rows = [activity(a % 8, (1, 4096), temporal=[30] if a == 31 else []) for a in range(32)]
    threads = [thread(0, release=(0, 65535)) for _ in range(8)]
    largest = model(8, 4096, threads, rows)
    tail = [0] * 4088
    words = [0xFF, 0xFF00, 0xFF0000, 0x7F000000, 0x80000000]
    case(
        "the longest records: n 8, m 32, H 4096",
        largest,
        plan([(0, 0)] * 8, [*words, 0, 0, 0, *tail]),
        "accepted 32 32768 5",
    )
    last = [1 << 31 if t == 4095 else word for t, word in enumerate([*words[:4], *[0] * 4092])]
    case(
        "activity 31 waits from tick 4 to the last",
        largest,
        plan([(0, 0)] * 8, last),
        "accepted 32 32768 4096",
        "refused 30 4 31",
    )
    early = [0xFF, 0xFF00, 0xFF0000, 0xBF000000, 0x40000000]
    case(
        "activity 31 before its predecessor 30",
        largest,
        plan([(0, 0)] * 8, [*early, 0, 0, 0, *tail]),
        "refused 25 31 30",
    )


RULES = (window, window_and_count, count_and_deadline, precedence, earliest_start, preemption, strict_rules)
SECTIONS = (model_s, model_form, plan_form, *RULES, figures)
