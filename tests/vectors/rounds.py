"""The stored cases of several rounds on one page, request U4 of paper 02: "It means the plain model unrolled".

Each page is given once, and asked of the checks, of the run and of the report of lateness. Grids, rows and figures are
literals, worked out by hand on the unrolled model: activity a of round k is k times m + a, its thread k times n + its
thread, and a thread's release range is moved on by k times its period.
"""
import checks
import lateness
import runs
import views
from lateness import NONE
from records import FREE, S_ACTIVITIES, S_CHOSEN, S_DURATIONS, S_GRID, S_PLAN, S_THREADS
from records import activity, choice, longer, number, plan, put, record, s_model, thread
from views import NEVER, PAST

NO_LOOP = 255


def page(cores, horizon, rounds, threads, rows, version=2):
    """rows: each an activity and its loop byte."""
    head = number(1, cores) + number(1, len(threads)) + number(1, len(rows)) + number(2, horizon) + number(1, rounds)
    return record(version, head + b"".join(threads) + b"".join(row + number(1, q) for row, q in rows))


# model R of samples/: row 1 after row 0 by data, row 0 after row 1 and its delay of the round before
R = page(1, 10, 2, [thread(1, (0, 1), (5, 5))], [(activity(0, (1, 2)), 1), (activity(0, (2, 3), 1, data=[0]), NO_LOOP)])
# two rounds of one activity that comes after itself and a delay of 2; the release of round 1 lies in 3..4
OWN = page(1, 8, 2, [thread(1, (0, 1), (3, 3))], [(activity(0, (1, 2), 2), 0)])
OWN_CHOSEN = [(0, 3), (3, 3)]
OWN_GRID = [1, 1, 0, 0, 2, 2, 0, 0]
OWN_PLAN = plan(OWN_CHOSEN, OWN_GRID)
# row 1 comes after row 0, without a period and with delay 3, of the round before
EARLIER = page(1, 10, 2, [thread(1, (0, 1)), thread(2, period=(4, 4))],
               [(activity(0, (2, 2), 3), NO_LOOP), (activity(1, (1, 2)), 0)])
EARLIER_CHOSEN = [(1, 0), (0, 4), (0, 0), (4, 4)]
# row 0 comes after row 1, without a period and with delay 3, of the round before
LATER = page(1, 12, 2, [thread(2, period=(5, 5)), thread(1)],
             [(activity(0), 1), (activity(1, (2, 3), 3), NO_LOOP)])
LATER_CHOSEN = [(0, 5), FREE, (5, 5), FREE]
# row 1 after row 0 and its delay, row 2 after row 1 by data, no loop
MASKS = page(2, 12, 2, [thread(1, (0, 2), (4, 4)), thread(2)],
             [(activity(0, (1, 2), 1), NO_LOOP), (activity(1, temporal=[0]), NO_LOOP),
              (activity(1, (1, 2), data=[1]), NO_LOOP)])
MASKS_CHOSEN = [(0, 4), FREE, (5, 4), FREE]
THREE = page(1, 12, 3, [thread(1, (0, 1), (4, 4))], [(activity(0, (1, 3), 1), 0)])
# periods 3 and 4; row 0 after row 1 with delay 2, row 1 after row 0 with delay 3
CROSSED = page(2, 12, 3, [thread(1, (0, 1), (3, 3)), thread(2, (0, 2), (4, 4))],
               [(activity(0, (1, 2), 3), 1), (activity(1, delay=2), 0)])
# row 1 after row 0 of its round, and after itself with delay 2; thread 1, the more urgent, has no period
FOUR = page(1, 12, 4, [thread(2, period=(2, 2)), thread(3, (0, 3))],
            [(activity(0), NO_LOOP), (activity(1, delay=2, temporal=[0]), 1)])
FOUR_CHOSEN = [(0, 2), (0, 0), (2, 2), (1, 0), (4, 2), (3, 0), (6, 2), (0, 0)]
ALONE = page(1, 12, 4, [thread(1, period=(2, 2))], [(activity(0, (1, 2), 1), 0)])
ALONE_CHOSEN = [(0, 2), (2, 2), (4, 2), (6, 2)]
# four rounds of two threads and eight activities: each activity comes after the next one of the round before
FULL = page(8, 4, 4, [thread(1, period=(1, 1))] * 2, [(activity(a % 2), (a + 1) % 8) for a in range(8)])
FULL_CHOSEN = [(k, 1) for k in range(4) for _ in range(2)]
ONE = page(1, 8, 1, S_THREADS, [(row, NO_LOOP) for row in S_ACTIVITIES])
ONE_LOOPED = page(1, 8, 1, S_THREADS, [(row, q) for row, q in zip(S_ACTIVITIES, (0, 2, 1))])
# without a loop, so that round 1 may be the first
EARLY = page(1, 4, 2, [thread(1, (0, 2))], [(activity(0), NO_LOOP)])
# not moved without a period, and a release that is moved to 65535 twice
MOVED = page(1, 4, 3, [thread(1, (0, 65535)), thread(0, (0, 63535), (1000, 1000))], [(activity(0), NO_LOOP)])
MOVED_CHOSEN = [FREE, (0, 1000), (1, 0), (64535, 1000), (2, 0), (65535, 1000)]

# what it shows; the page; release and period of each thread; durations; the grid; the rows; the figures, or the first
# activity that is late; a misreading under which the answer or a row is another
PAGES = (
    ("R: i 2, the first row after the last of the round before", R, [(0, 5), (5, 5)], [2, 3, 1, 2],
     [1, 1, 2, 2, 2, 0, 4, 8, 8, 0], [3, 0, 3, 1], "8 10 9", "the loop left out, or without its delay"),
    ("i 2, a row's loop to itself", OWN, OWN_CHOSEN, [2, 2], OWN_GRID, [1, 0], "4 8 6", "no loop to the own row"),
    ("the same, release 4 of 3..4 in round 1", OWN, [(0, 3), (4, 3)], [1, 2], [1, 0, 0, 0, 2, 2, 0, 0], [2, 1], "3 8 6",
     "a round's release is round 0's moved on by the period"),
    ("i 2, a loop to an earlier row", EARLIER, EARLIER_CHOSEN, [2, 1, 2, 2], [2, 1, 1, 4, 4, 0, 8, 8, 0, 0],
     [NONE, 3, NONE, 0], "7 10 8", "the loop from the same round, or with the row's own delay"),
    ("i 2, a loop to a later row", LATER, LATER_CHOSEN, [1, 3, 1, 2], [1, 2, 2, 2, 8, 8, 0, 4, 0, 0, 0, 0],
     [4, NONE, 2, NONE], "7 12 8", "the loop turned round"),
    ("i 2, both masks, no loop", MASKS, MASKS_CHOSEN, [2, 1, 1, 2, 1, 2], [1, 1, 0, 2, 4, 8, 8, 0, 16, 32, 32, 0],
     [2, NONE, NONE, 2, NONE, NONE], "9 24 11", "a mask not moved"),
    ("i 3, a row's loop to itself", THREE, [(0, 4), (5, 4), (8, 4)], [3, 3, 2], [1, 1, 1, 0, 0, 2, 2, 2, 0, 4, 4, 0],
     [1, 1, 1], "8 12 11", "every round after round 0 alone"),
    ("i 3, two rows with a loop to each other", CROSSED, [(0, 3), (2, 4), (3, 3), (4, 4), (6, 3), (8, 4)],
     [2, 1, 1, 1, 1, 1], [1, 1, 2, 0, 0, 12, 0, 0, 16, 32, 0, 0], [1, 3, 0, 2, 0, 2], "7 24 10",
     "the release moved by the other thread's period"),
    ("i 4, a mask and a loop of one row", FOUR, FOUR_CHOSEN, [1] * 8, [1, 2, 4, 0, 8, 16, 64, 32, 0, 0, 128, 0],
     [1, NONE, 1, NONE, 0, NONE, 1, NONE], "8 12 11", "the loop in place of the mask"),
    ("i 4, ends 7 and 9 of 4 + 2 and 6 + 2", ALONE, ALONE_CHOSEN, [1, 2, 2, 1], [1, 0, 2, 2, 0, 4, 4, 0, 8, 0, 0, 0],
     [1, 0, -1, -1], 2, "A a row of the page"),
    ("i 4, n 2, m 8: 8 threads and 32 activities", FULL, FULL_CHOSEN, [1] * 32, [255 << 8 * k for k in range(4)],
     [0] * 32, "32 32 4", "51 at 8 or at 32"),
    ("i 1, no loop: S", ONE, S_CHOSEN, S_DURATIONS, S_GRID, [NONE, 4, 2], "5 8 6", "activity rows of 15 bytes"),
    ("i 1, each row with a loop: S", ONE_LOOPED, S_CHOSEN, S_DURATIONS, S_GRID, [NONE, 4, 2], "5 8 6",
     "a loop inside the round"),
    ("i 2, release 2 in round 0 and 1 in round 1", EARLY, [(2, 0), (1, 0)], [1, 1], [0, 2, 1, 0], [NONE] * 2, "2 4 2",
     "the makespan from the releases of round 0, or rounds in their order without a loop"),
    ("i 3, releases moved to 65535, and 0..65535 without a period", MOVED, MOVED_CHOSEN, [1, 1, 1], [1, 2, 4, 0],
     [NONE] * 3, "3 4 3", "52 at 65535, or without a period"),
)


def late(figures):
    """Whether a page has its first late activity in the place of its figures."""
    return isinstance(figures, int)


# ---- the checks


def check_pages(title, pages):
    checks.part(title)
    for shows, model_bytes, chosen, _, grid, _, figures, misread in pages:
        answer = f"refused 23 {figures} 0" if late(figures) else f"accepted {figures}"
        checks.case(shows, model_bytes, plan(chosen, grid), answer, misread=misread)


def checked():
    check_pages("Several rounds: the plans that the run makes", PAGES)


def broken():
    checks.part("Several rounds: other plans")
    case = checks.case
    case("round 1 starts at 3, end 2 and delay 2", OWN, plan(OWN_CHOSEN, [1, 1, 0, 2, 2, 0, 0, 0]), "refused 25 1 0",
         misread="the loop without its delay")
    case("round 1 of row 1 starts at 5, end 3 and delay 3", EARLIER,
         plan(EARLIER_CHOSEN, [2, 1, 1, 4, 4, 8, 8, 0, 0, 0]), "refused 25 3 0", misread="B a row of round 1")
    case("round 1 of row 0 starts at 6, end 4 and delay 3", LATER,
         plan(LATER_CHOSEN, [1, 2, 2, 2, 8, 8, 4, 0, 0, 0, 0, 0]), "refused 25 2 1", misread="no loop to a later row")
    case("round 2 starts at 8, end 8 and delay 1", THREE,
         plan([(0, 4), (5, 4), (8, 4)], [1, 1, 1, 0, 0, 2, 2, 2, 4, 4, 0, 0]), "refused 25 2 1",
         misread="the loop from round 0")
    case("the temporal mask in round 1", MASKS, plan(MASKS_CHOSEN, [1, 1, 0, 2, 4, 8, 8, 16, 32, 32, 0, 0]),
         "refused 25 4 3", misread="the temporal mask not moved")
    case("the data mask in round 1", MASKS, plan(MASKS_CHOSEN, [1, 1, 0, 2, 4, 8, 8, 32, 16, 32, 0, 0]),
         "refused 26 5 4", misread="the data mask not moved")
    case("the release of round 1 is 4, its start 3", OWN, plan([(0, 3), (4, 3)], [1, 0, 0, 2, 2, 0, 0, 0]),
         "refused 27 1 0", misread="the release of round 0")
    case("round 1 ready at 4, start 5", OWN, plan([(0, 3), (4, 3)], [1, 0, 0, 0, 0, 2, 2, 0]), "accepted 3 8 7",
         "refused 30 4 1", "30 on round 0 alone")
    bare = page(1, 2, 2, [thread(1)], [(activity(0), NO_LOOP)])
    case("round 1 before round 0, without a loop", bare, plan([FREE, FREE], [2, 1]), "accepted 2 2 2", "refused 31 0 0",
         "rounds in their order without a loop")
    case("three ticks in round 1", OWN, plan([(0, 3), (4, 3)], [1, 0, 0, 0, 2, 2, 2, 0]), "refused 22 1 0",
         misread="the duration range of round 0 alone")


def plan_form():
    checks.part("Several rounds: the plan is sent back")
    case = checks.case
    case("n 1 and m 1, as in the page", OWN, plan([(0, 3)], [1, 1, 0, 0, 0, 0, 0, 0]), "refused 10 0 0",
         misread="the page's counts in 10")
    case("version 2", OWN, plan(OWN_CHOSEN, OWN_GRID, version=2), "refused 9 0 0", misread="the model's version in 9")
    case("release 2 of 3..4 in round 1", OWN, plan([(0, 3), (2, 3)], OWN_GRID), "refused 12 1 0",
         misread="the least release not moved")
    case("release 5 of 3..4 in round 1", OWN, plan([(0, 3), (5, 3)], OWN_GRID), "refused 12 1 0",
         misread="the most release moved twice, or A a row of the page")
    case("release 0 in round 1", OWN, plan([(0, 3), (0, 3)], OWN_GRID), "refused 12 1 0", misread="no release moved")
    case("release 2 of 0..1 in round 1, without a period", EARLIER,
         plan([(1, 0), (0, 4), (2, 0), (4, 4)], [2, 1, 1, 4, 4, 0, 8, 8, 0, 0]), "refused 12 2 0",
         misread="A a row of the page")
    case("release 5 there, which the other thread's period would reach", EARLIER,
         plan([(1, 0), (0, 4), (5, 0), (4, 4)], [2, 1, 1, 4, 4, 0, 8, 8, 0, 0]), "refused 12 2 0",
         misread="moved by the other thread's period")
    case("period 6 in round 1", OWN, plan([(0, 3), (3, 6)], OWN_GRID), "refused 12 1 0", misread="the period moved too")
    spare = plan(OWN_CHOSEN, [1, 1, 0, 0, 2, 2, 4, 0], rows=[(0, 2), (4, 6)])
    case("bit 2 with i 2 and m 1", OWN, spare, "refused 14 6 0", misread="14 by 32, or left out")


# ---- the form rules


def versions():
    checks.part("Version 2: its bytes")
    case = checks.case
    case("S with version byte 2", s_model(version=2), S_PLAN, "refused 4 0 0", misread="2, as in paper 01")
    case("a page with version byte 1", put(OWN, 4, 1, 1), OWN_PLAN, "refused 4 0 0", misread="4 without the version")
    case("a page with version byte 4", put(OWN, 4, 1, 4), OWN_PLAN, "refused 2 0 0",
         misread="every version above 1 read as 2")
    case("a page with version byte 0", put(OWN, 4, 1, 0), OWN_PLAN, "refused 2 0 0")
    case("10 bytes of version 2", number(4, 10) + b"\2\1\1\1\0\x08", OWN_PLAN, "refused 4 0 0", misread="1 under 11 bytes")
    case("9 bytes of version 2", number(4, 9) + b"\2\1\1\1\0", OWN_PLAN, "refused 1 0 0")
    case("11 bytes of version 2", number(4, 11) + b"\2\1\1\1\0\x08\2", OWN_PLAN, "refused 4 0 0")
    case("the last loop byte left out", put(OWN, 0, 4, 36)[:36], OWN_PLAN, "refused 4 0 0", misread="4 by 10 + 10n + 16m")
    case("a byte behind the last loop byte", longer(OWN), OWN_PLAN, "refused 4 0 0")


def sized(rounds, n, m):
    """Threads without a period and activities without a loop."""
    return page(1, 8, rounds, [thread(1)] * n, [(activity(0), NO_LOOP)] * m)


TWO = [thread(1, period=(3, 3)), thread(1)]
UNEQUAL = thread(1, period=(3, 4))
TURNED = thread(1, release=(1, 0))
FOREIGN = activity(2)


def two(rounds=2, threads=None, rows=None, loops=(NO_LOOP, NO_LOOP)):
    """Two threads and two activities."""
    return page(1, 8, rounds, threads or TWO, list(zip(rows or [activity(0), activity(1)], loops)))


def rounds_and_sizes():
    checks.part("51: i, i times n, i times m")
    for rounds in (0, 5, 255):
        checks.case(f"i {rounds}", sized(rounds, 1, 1), OWN_PLAN, "refused 51 0 0", misread="51 left out")
    for rounds, n in ((2, 5), (3, 3), (4, 3)):
        checks.case(f"i {rounds}, n {n}", sized(rounds, n, 1), OWN_PLAN, "refused 51 0 0", misread="51 without n")
    for rounds, m in ((2, 17), (3, 11), (4, 9)):
        checks.case(f"i {rounds}, m {m}", sized(rounds, 1, m), OWN_PLAN, "refused 51 0 0", misread="51 without m")
    checks.case("i 128, n 2, m 2: the products agree with 0 modulo 2^8", sized(128, 2, 2), OWN_PLAN, "refused 51 0 0",
                misread="51 by the products alone, in 8 bits")
    for rounds, n, m in ((1, 8, 32), (2, 4, 16), (3, 2, 10), (4, 2, 8)):
        checks.case(f"i {rounds}, n {n}, m {m}, and no plan", sized(rounds, n, m), b"", "refused 8 0 0",
                    misread="51 at 8 or at 32")


def periods():
    checks.part("52: period ends, and a moved release")
    case = checks.case
    case("i 2, period 3..4", two(threads=[TWO[0], UNEQUAL]), OWN_PLAN, "refused 52 1 0", misread="52 left out")
    case("i 1, period 3..4, and no plan", two(1, [TWO[0], UNEQUAL]), b"", "refused 8 0 0", misread="52 with one round")
    case("both threads", two(threads=[UNEQUAL, UNEQUAL]), OWN_PLAN, "refused 52 0 0", misread="the highest A in 52")
    for rounds, most in ((2, 64535), (3, 63535), (4, 62535)):
        for release in (most, most + 1):
            threads = [TWO[0], thread(1, (0, release), (1000, 1000))]
            moved = f"i {rounds}, release 0..{release}, period 1000: to {release + (rounds - 1) * 1000}"
            if release == most:
                case(f"{moved}, and no plan", two(rounds, threads), b"", "refused 8 0 0", misread="52 at 65535")
            else:
                case(moved, two(rounds, threads), OWN_PLAN, "refused 52 1 0", misread="moved by fewer periods")
    case("i 1, release 0..65535, period 1000, and no plan", two(1, [TWO[0], thread(1, (0, 65535), (1000, 1000))]), b"",
         "refused 8 0 0", misread="52 with one round, or moved i times")
    case("i 2, release 1, period 65535", two(threads=[TWO[0], thread(1, (1, 1), (65535, 65535))]), OWN_PLAN,
         "refused 52 1 0", misread="52 in 16 bits")
    case("thread 0 moved too far, thread 1 with unequal ends",
         two(threads=[thread(1, (0, 65535), (1, 1)), UNEQUAL]), OWN_PLAN, "refused 52 0 0",
         misread="52 on all periods before any release")


def loops():
    checks.part("53: the loop byte")
    refused = ((2, "53 above m only"), (3, "53 at m only"), (254, "254 for none"))
    legal = ((0, "53 at the row's own number"), (1, "53 above the row's own number"), (NO_LOOP, "255 refused"))
    for rounds in (1, 2):
        for q, misread in refused:
            misread = "53 with several rounds only" if rounds == 1 else misread
            checks.case(f"i {rounds}, m 2, q {q}", two(rounds, loops=(NO_LOOP, q)), OWN_PLAN, "refused 53 1 0",
                        misread=misread)
        for q, misread in legal:
            checks.case(f"i {rounds}, m 2, q {q} in row 0, and no plan", two(rounds, loops=(q, NO_LOOP)), b"",
                        "refused 8 0 0", misread=misread)
    checks.case("i 2, m 2, q 2 in both rows", two(loops=(2, 2)), OWN_PLAN, "refused 53 0 0", misread="the highest A in 53")
    checks.case("i 4, m 2, q 7: a number of the unrolled model", two(4, loops=(NO_LOOP, 7)), OWN_PLAN, "refused 53 1 0",
                misread="53 by i times m")


def form_order():
    checks.part("Which refusal comes first: 51 to 53 among 1 to 8")
    case = checks.case
    case("H 0 and i 0", put(two(0), 8, 2, 0), OWN_PLAN, "refused 3 0 0", misread="51 before 3")
    case("a byte behind the last row, i 0", longer(two(0)), OWN_PLAN, "refused 4 0 0", misread="51 before 4")
    case("i 5, thread row 1", two(5, [TWO[0], TURNED]), OWN_PLAN, "refused 51 0 0", misread="5 before 51")
    case("thread row 0 breaks 52, row 1 breaks 5", two(threads=[UNEQUAL, TURNED]), OWN_PLAN, "refused 5 1 0",
         misread="5 and 52 in one pass")
    case("thread row 1 breaks 52, activity row 0 breaks 6", two(threads=[TWO[0], UNEQUAL], rows=[FOREIGN, activity(1)]),
         OWN_PLAN, "refused 52 1 0", misread="6 before 52")
    case("row 0 breaks 53, row 1 breaks 6", two(rows=[activity(0), FOREIGN], loops=(2, NO_LOOP)), OWN_PLAN,
         "refused 6 1 0", misread="6 and 53 in one pass")
    case("thread 2 of n 2 with i 2", two(rows=[activity(0), FOREIGN]), OWN_PLAN, "refused 6 1 0",
         misread="6 by i times n")
    own = activity(0, temporal=[0])
    case("row 0 breaks 7, row 1 breaks 53", two(rows=[own, activity(1)], loops=(NO_LOOP, 2)), OWN_PLAN, "refused 53 1 0",
         misread="53 and 7 in one pass")
    case("row 0's own bit, with a loop to itself", two(rows=[own, activity(1)], loops=(0, NO_LOOP)), OWN_PLAN,
         "refused 7 0 0", misread="the own bit allowed by a loop")
    case("row 1 breaks 53, and no plan", two(loops=(NO_LOOP, 2)), b"", "refused 53 1 0", misread="8 before 53")


# ---- the run


def run_pages(title, pages):
    runs.part(title)
    for shows, model_bytes, chosen, durations, grid, _, figures, misread in pages:
        length = len(plan(chosen, grid))
        before = runs.buffer(length + 3)
        if late(figures):
            runs.cleared(shows, model_bytes, choice(chosen, durations), before, length, f"43 {figures} 0", misread)
        else:
            runs.accepted(shows, model_bytes, chosen, durations, before, grid, figures, misread)


def run():
    run_pages("several rounds", PAGES)


def run_refused():
    runs.part("several rounds, refused")
    own = choice(OWN_CHOSEN, [2, 2])
    runs.untouched("56 bytes, where 57 are needed", OWN, own, runs.buffer(56), "41 57 0", "the page's counts in 41")
    # words 1, 2, 0, 0, 4, 8, 0, 0, 16: row 0 after row 1 of the round before with delay 2, row 1 after row 0 by data
    owed = page(1, 9, 3, [thread(1, (0, 3))], [(activity(0), 1), (activity(0, delay=2, data=[0]), NO_LOOP)])
    runs.cleared("i 3, round 2 of row 1 is owed", owed, choice([FREE, FREE, (3, 0)], [1] * 6), runs.buffer(90), 81,
                 "42 5 0", "A a row of the page, or the loop left out")
    for release in (2, 5):
        runs.untouched(f"release {release} of 3..4 in round 1", OWN, choice([(0, 3), (release, 3)], [2, 2]),
                       runs.buffer(60), "12 1 0", "the range not moved, or A a row of the page")
    runs.untouched("duration 3 of 1..2 in round 1", OWN, choice(OWN_CHOSEN, [2, 3]), runs.buffer(60), "13 1 0",
                   "13 over the page's rows")
    runs.untouched("n 1 and m 1, as in the page", OWN, choice([(0, 3)], [2]), runs.buffer(60), "10 0 0",
                   "the page's counts in 10")
    runs.untouched("a choice of version 2", OWN, choice(OWN_CHOSEN, [2, 2], version=2), runs.buffer(60), "9 0 0",
                   "the model's version in 9")
    for shows, model_bytes, answer in REFUSED:
        runs.untouched(f"{shows}, and no byte is lent", model_bytes, own, b"", answer, "41 before it")


# pages that 51 to 53 refuse
REFUSED = (
    ("refused by 51", two(5), "51 0 0"),
    ("refused by 52", two(threads=[TWO[0], UNEQUAL]), "52 1 0"),
    ("refused by 53", two(loops=(NO_LOOP, 2)), "53 1 0"),
)


# ---- the held view and the report


def view():
    views.view("two rounds: a tick of round 1", OWN, OWN_PLAN, 4, 2)
    views.view("two rounds: the horizon", OWN, OWN_PLAN, 8)
    views.view("two rounds: a plan that breaks 25 by a loop has a view", OWN,
               plan(OWN_CHOSEN, [1, 1, 0, 2, 2, 0, 0, 0]), 3, 2)
    views.view("two rounds, release 2 of 3..4 in round 1: refused by 12", OWN, plan([(0, 3), (2, 3)], OWN_GRID), 4,
               refused="12 1 0")
    for shows, model_bytes, answer in REFUSED:
        views.view(f"a page {shows}", model_bytes, OWN_PLAN, 0, refused=answer)
    views.held("two rounds: a tick of round 1, one of round 0, the horizon", OWN, OWN_PLAN, (4, 1, 8), (2, 1, PAST))
    for shows, model_bytes, answer in REFUSED:
        views.held(f"a page {shows}", model_bytes, OWN_PLAN, (4, 1, 8), NEVER, refused=answer)


def listed(rows):
    if rows == rows[:1] * 32:
        return f"32 times {rows[0]}"
    return ", ".join("-" if row == NONE else str(row) for row in rows)


def report_pages(title, pages):
    lateness.part(title)
    for shows, model_bytes, chosen, durations, _, rows, figures, misread in pages:
        answer = f"refused 43 {figures} 0" if late(figures) else f"accepted {figures}"
        lateness.written(f"{shows}: {listed(rows)}", model_bytes, choice(chosen, durations), 33, rows, answer, misread)


def report():
    report_pages("several rounds", PAGES)
    for shows, model_bytes, answer in REFUSED:
        lateness.kept(f"{shows}, 31 rows", model_bytes, choice(OWN_CHOSEN, [2, 2]), 31, answer, "50 before it")
    lateness.kept("31 rows", OWN, choice(OWN_CHOSEN, [2, 2]), 31, "50 0 0")


OF_CHECKS = (checked, broken, plan_form, versions, rounds_and_sizes, periods, loops, form_order)
OF_RUNS = (run, run_refused)
