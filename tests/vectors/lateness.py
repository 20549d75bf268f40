"""The stored cases of the report of lateness, request U1 of paper 02: a model, a choice and how many rows are lent, with
the answer and the rows afterwards.

The figures and refusals are literals, worked out by hand from the papers' rules, each figure as the deadline less the
end. Every thread with a period is released at 0 here; threads that are released late stand in late.py.
"""
from checks import alone
from choices import REFUSED
from records import FREE, S, S_ACTIVITIES, S_CHOICE, S_CHOSEN, S_DURATIONS, S_LATE, S_THREADS
from records import activity, choice, longer, model, replaced, s_model, thread

REPORTS = []  # (title of a part,) or (model, choice, rows lent, lines, rows afterwards, shows, answer, misreading)
BEFORE = range(100, 228)  # the rows that are lent, all different
NONE = -2147483648  # of an activity whose thread has no period, printed as a dash

S_SHORT = s_model(horizon=5)
S_LATE_CHOICE = choice([(1, 0), (0, 5)], S_DURATIONS)
WRONG_MASK = s_model(activities=replaced(S_ACTIVITIES, 1, activity(1, (2, 3), temporal=[1])))


def part(title):
    REPORTS.append((title,))


def note(given, lines, after, shows, answer, misread):
    """misread: a misreading of the papers under which the answer or a row is another."""
    REPORTS.append((*given, [*lines, f"run {answer}"], after, shows, answer, misread))


def written(shows, model_bytes, choice_bytes, lent, figures, answer, misread=""):
    """Success or 43: a figure for each activity, then the rows behind them as they were."""
    assert not set(figures) & set(BEFORE)
    lines = [f"{a} {'-' if figure == NONE else figure}" for a, figure in enumerate(figures)]
    after = [*figures, *BEFORE[len(figures) : lent]]
    note((model_bytes, choice_bytes, lent), lines, after, shows, answer, misread)


def kept(shows, model_bytes, choice_bytes, lent, answer, misread=""):
    """Every other answer: no row is written."""
    note((model_bytes, choice_bytes, lent), [], [*BEFORE[:lent]], shows, f"refused {answer}", misread)


def model_s():
    part("model S")
    # ends 3, 4, 6; activity 1 starts at 0, gives way for two ticks and is last active at 3
    figures, answer = [NONE, 4, 2], "accepted 5 8 6"
    written("S with 32 rows: -, 4, 2", S, S_CHOICE, 32, figures, answer,
            "the last active tick for the end, or start + duration")
    written("S with 33", S, S_CHOICE, 33, figures, answer, "exactly 32 rows asked for")
    written("S with 40", S, S_CHOICE, 40, figures, answer, "a dash or 0 in the rows past the last activity")
    written("S with 100", S, S_CHOICE, 100, figures, answer, "a list cut off or moved behind its first 40 rows")
    kept("S with 31", S, S_CHOICE, 31, "50 0 0", "41, or 32 as A")
    kept("S with 3, one for each activity", S, S_CHOICE, 3, "50 0 0", "m rows asked for")
    kept("S with none", S, S_CHOICE, 0, "50 0 0")
    # words 2, 3, 1, 4: ends 3, 2, 4
    written("c 2: -, 6, 4", s_model(cores=2), S_CHOICE, 32, [NONE, 6, 4], "accepted 5 16 4")
    written("H 6: -, 4, 2", s_model(horizon=6), S_CHOICE, 32, figures, "accepted 5 6 6", "H for the deadline")


def late_or_owed():
    part("on the dot, 43 and 42")
    on_the_dot = choice([(1, 0), (0, 6)], S_DURATIONS)
    written("period 6 of 5..8: -, 2, 0", S_LATE, on_the_dot, 32, [NONE, 2, 0], "accepted 5 8 6",
            "the least or the most period for the chosen one, or late on the dot")
    written("period 5: -, 1, -1", S_LATE, S_LATE_CHOICE, 32, [NONE, 1, -1], "refused 43 2 0",
            "no row written for 43, or a dash as late")
    kept("H 5", S_SHORT, S_CHOICE, 32, "42 2 0", "the rows of what has ended written for 42")
    # words 1, 1, 2: activity 0 ends at 2, activity 1 owes a tick
    both = model(1, 3, [thread(9, period=(1, 1)), thread(0)], [activity(0, (2, 2)), activity(1, (2, 2))])
    kept("activity 0 ends past its deadline, activity 1 is owed: 42 first", both, choice([(0, 1), FREE], [2, 2]), 32,
         "42 1 0", "43 before 42, or a negative row written for 42")


# models that 1 to 7 refuse
REFUSED_MODELS = [
    (b"", "1 0 0"),
    (s_model(version=4), "2 0 0"),
    (s_model(cores=0), "3 0 0"),
    (longer(S), "4 0 0"),
    (s_model(threads=replaced(S_THREADS, 1, thread(3, period=(9, 8)))), "5 1 0"),
    (s_model(activities=replaced(S_ACTIVITIES, 1, activity(2, (2, 3)))), "6 1 0"),
    (WRONG_MASK, "7 1 0"),
]


def short_lists():
    part("a list of 31 rows, 50 after the input and before 42 and 43")
    models = [(model_bytes, S_CHOICE, answer) for model_bytes, answer in REFUSED_MODELS]
    choices = [(S, choice_bytes, answer) for choice_bytes, answer in REFUSED]
    for model_bytes, choice_bytes, answer in [*models, *choices]:
        name = answer.split()[0]
        kept(f"refused by {name}", model_bytes, choice_bytes, 31, answer, f"50 before {name}")
    kept("H 5", S_SHORT, S_CHOICE, 31, "50 0 0", "42 before 50")
    kept("period 5", S_LATE, S_LATE_CHOICE, 31, "50 0 0", "43 before 50")


def refused_records():
    part("a refused record")
    kept("no model, no choice and no row", b"", b"", 0, "1 0 0", "50 before 1")
    kept("temporal mask 2 in activity 1's row", WRONG_MASK, S_CHOICE, 32, "7 1 0")
    kept("the same, and no choice", WRONG_MASK, b"", 32, "7 1 0", "8 before 7")
    kept("no choice", S, b"", 32, "8 0 0")
    kept("release 3 for thread 0", S, choice([(3, 0), (0, 8)], S_DURATIONS), 32, "12 0 0")
    kept("duration 3 for activity 0", S, choice(S_CHOSEN, [3, 2, 1]), 40, "13 0 0")
    # three ticks of activity 0 would put off the end of activity 2 to 7
    kept("duration 3 for activity 0, and period 5", S_LATE, choice([(1, 0), (0, 5)], [3, 2, 1]), 32, "13 0 0",
         "43 before 13")


def by_thread():
    part("the period is the thread's")
    by_number = "the period by activity number"
    # on two cores both are active from tick 0 on: ends 3 and 1
    rows = [activity(1, (3, 3)), activity(0)]
    crossed = model(2, 8, [thread(0, period=(2, 2)), thread(0, period=(5, 5))], rows)
    written("activity 0 of thread 1 with period 5, activity 1 of thread 0 with period 2: 2, 1", crossed,
            choice([(0, 2), (0, 5)], [3, 1]), 32, [2, 1], "accepted 4 16 3", by_number)
    crossed = model(2, 8, [thread(0, period=(2, 2)), thread(0)], rows)
    written("the same, thread 1 without a period: -, 1", crossed, choice([(0, 2), FREE], [3, 1]), 32, [NONE, 1],
            "accepted 4 16 3", by_number)
    # words 1, 1: end 2
    least = "the least of all periods"
    idle = model(1, 4, [thread(9, period=(1, 1)), thread(1, period=(4, 4))], [activity(1, (2, 2))])
    written("thread 0 without activities has period 1, thread 1 has period 4: 2", idle, choice([(0, 1), (0, 4)], [2]), 32,
            [2], "accepted 2 4 2", least)
    idle = model(1, 4, [thread(9, period=(1, 1)), thread(1)], [activity(1, (2, 2))])
    written("the same, thread 1 without a period: -", idle, choice([(0, 1), FREE], [2]), 32, [NONE], "accepted 2 4 2",
            least)
    # words 2, 1: ends 2 and 1
    free = model(1, 3, [thread(1), thread(2)], [activity(0), activity(1)])
    written("no thread has a period: -, -", free, choice([FREE] * 2, [1, 1]), 32, [NONE, NONE], "accepted 2 3 2",
            "a dash as late, or 0 as a deadline")


def inside_a_thread():
    part("two activities of a thread with period 3")
    # words 1, 1, 1, 2: ends 3 and 4
    in_turn = model(1, 8, [thread(0, period=(3, 3))], [activity(0, (3, 3)), activity(0)])
    written("the first on the dot, the second late: 0, -1", in_turn, choice([(0, 3)], [3, 1]), 32, [0, -1],
            "refused 43 1 0", "late on the dot")
    # on two cores both are active from tick 0 on: ends 4 and 3
    abreast = model(2, 8, [thread(0, period=(3, 3))], [activity(0, (4, 4)), activity(0, (3, 3))])
    written("the first late, the second on the dot: -1, 0", abreast, choice([(0, 3)], [4, 3]), 32, [-1, 0],
            "refused 43 0 0", "one figure for a thread")


def several():
    part("several late, and the greatest figures")
    # words 2, 2, 1: ends 3 and 2, both past 1; activity 0 is thread 1's, activity 1 is thread 0's
    both = model(1, 4, [thread(2, period=(1, 1)), thread(1, period=(1, 1))], [activity(1), activity(0, (2, 2))])
    written("activity 1 ends at 2 and activity 0 at 3, past 1: -2, -1", both, choice([(0, 1)] * 2, [1, 2]), 32, [-2, -1],
            "refused 43 0 0", "the highest A in 43, or the first to be late")
    # by priority: activity 0 at tick 0, activity 1 at ticks 1 to 20, activity 2 at ticks 21 to 4095
    threads = [thread(3, period=(65535, 65535)), thread(2, period=(10, 10)), thread(1, period=(1, 1))]
    long = model(1, 4096, threads, [activity(0), activity(1, (20, 20)), activity(2, (4075, 4075))])
    written("ends 1, 21, 4096 of periods 65535, 10, 1: 65534, -11, -4095", long,
            choice([(0, 65535), (0, 10), (0, 1)], [1, 20, 4075]), 32, [65534, -11, -4095], "refused 43 1 0",
            "the most late as A, or no row behind A written")
    written("end 1 of period 65535: 65534", alone(period=(65535, 65535)), choice([(0, 65535)], [1]), 32, [65534],
            "accepted 1 8 1", "a period or a figure of 16 bits with a sign")
    whole = alone((4096, 4096), horizon=4096, period=(4096, 4096))
    written("end 4096 of period 4096, H 4096: 0", whole, choice([(0, 4096)], [4096]), 32, [0], "accepted 4096 4096 4096",
            "late at H")


def eights(periods):
    """32 activities of one tick on 8 cores, activity a of thread a modulo 8, and their choice. The words are 000000ff,
    0000ff00, 00ff0000, ff000000: eight activities end at 1, eight at 2, eight at 3, eight at 4."""
    threads = [thread(5, period=(period, period)) for period in periods]
    activities = [activity(a % 8) for a in range(32)]
    return model(8, 4, threads, activities), choice([(0, period) for period in periods], [1] * 32)


def thirty_two():
    part("32 activities")
    good, late = eights([0, 14, 24, 34, 44, 54, 64, 74]), eights([0, 14, 24, 34, 44, 54, 64, 3])
    figures = [
        *[NONE, 13, 23, 33, 43, 53, 63, 73],
        *[NONE, 12, 22, 32, 42, 52, 62, 72],
        *[NONE, 11, 21, 31, 41, 51, 61, 71],
        *[NONE, 10, 20, 30, 40, 50, 60, 70],
    ]
    written("33 rows: the last is kept", *good, 33, figures, "accepted 32 32 4", "every row that is lent written")
    written("32 rows", *good, 32, figures, "accepted 32 32 4", "the last row kept")
    kept("31 rows", *good, 31, "50 0 0", "as many rows written as there are")
    figures = [
        *[NONE, 13, 23, 33, 43, 53, 63, 2],
        *[NONE, 12, 22, 32, 42, 52, 62, 1],
        *[NONE, 11, 21, 31, 41, 51, 61, 0],
        *[NONE, 10, 20, 30, 40, 50, 60, -1],
    ]
    written("33 rows, thread 7 with period 3: activity 31 alone is late", *late, 33, figures, "refused 43 31 0",
            "activity 31 left out")


SECTIONS = (model_s, late_or_owed, short_lists, refused_records, by_thread, inside_a_thread, several, thirty_two)
