"""The stored cases of threads that are released late, request U2 of paper 02: "Rule 23 becomes: end ≤ release + period."

Each page is given once, and asked of the checks, of the run and of the report of lateness. Grids, rows and figures are
literals, worked out by hand; a row is release + period less the end.
"""
import checks
import lateness
import runs
from checks import alone
from lateness import NONE
from records import activity, choice, model, plan, thread

NO_RELEASE = "no release added, as in paper 01"
NARROW = "the sum cut to 16 bits"

LATE = alone(release=(2, 2), period=(4, 4))
PAST = alone(release=(5, 5), period=(4, 4))
RANGE = alone(release=(1, 5), period=(2, 9))
LONG = alone(release=(2, 2), period=(65535, 65535))
FREE = alone(release=(2, 2))
LAST = alone(horizon=4096, release=(4095, 4095), period=(65535, 65535))
ANY = alone(release=(0, 65535), period=(1, 1))

# activity 0: released at 2, period 4; activity 1: released at 0, period 3, more urgent
PAIR = model(
    1,
    8,
    [thread(1, release=(2, 2), period=(4, 4)), thread(2, period=(3, 3))],
    [activity(0), activity(1, (1, 4))],
)
# activity 0 is thread 1's, activity 1 is thread 0's
CROSSED = model(
    1,
    8,
    [thread(2, release=(1, 1), period=(2, 2)), thread(1, release=(3, 3), period=(3, 3))],
    [activity(1, (1, 5)), activity(0, (1, 5))],
)

# what it shows; the model; release and period of each thread; durations; the grid; the rows; the figures, or the first
# activity that is late; a misreading under which the answer or a row is another
PAGES = (
    ("end 4 of 2 + 4", LATE, [(2, 4)], [2], [0, 0, 1, 1, 0, 0, 0, 0], [2], "2 8 2", "the release taken off the period"),
    ("end 5 of 2 + 4", LATE, [(2, 4)], [3], [0, 0, 1, 1, 1, 0, 0, 0], [1], "3 8 3", NO_RELEASE),
    ("end 6 of 2 + 4, on the dot", LATE, [(2, 4)], [4], [0, 0, 1, 1, 1, 1, 0, 0], [0], "4 8 4", "late on the dot"),
    ("end 7 of 2 + 4", LATE, [(2, 4)], [5], [0, 0, 1, 1, 1, 1, 1, 0], [-1], 0, "the release added twice, or never late"),
    ("end 6 of 5 + 4", PAST, [(5, 4)], [1], [0, 0, 0, 0, 0, 1, 0, 0], [3], "1 8 1", NO_RELEASE),
    ("end 7 of 3 + 4, release 1..5", RANGE, [(3, 4)], [4], [0, 0, 0, 1, 1, 1, 1, 0], [0], "4 8 4", "the least release"),
    ("end 8 of 3 + 4, release 1..5", RANGE, [(3, 4)], [5], [0, 0, 0, 1, 1, 1, 1, 1], [-1], 0, "the most release"),
    ("end 5 of 2 + 4, and end 4 of 0 + 3", PAIR, [(2, 4), (0, 3)], [1, 4], [2, 2, 2, 2, 1, 0, 0, 0], [1, -1], 1,
     "no release added, or that of the other thread"),
    ("end 6 of 3 + 3, and end 3 of 1 + 2", CROSSED, [(1, 2), (3, 3)], [3, 2], [0, 2, 2, 1, 1, 1, 0, 0], [0, 0], "5 8 5",
     "the release by activity number, or the earliest of all"),
    ("end 3 of 2 + 65535", LONG, [(2, 65535)], [1], [0, 0, 1, 0, 0, 0, 0, 0], [65534], "1 8 1", NARROW),
    ("end 3 without a period, release 2", FREE, [(2, 0)], [1], [0, 0, 1, 0, 0, 0, 0, 0], [NONE], "1 8 1",
     "the release as a deadline"),
)


def late(figures):
    """Whether a page has its first late activity in the place of its figures."""
    return isinstance(figures, int)


def checked():
    checks.part("23 of threads released late: release + period")
    for shows, page, chosen, _, grid, _, figures, misread in PAGES:
        answer = f"refused 23 {figures} 0" if late(figures) else f"accepted {figures}"
        checks.case(shows, page, plan(chosen, grid), answer, misread=misread)
    # active from tick 0 on, before the release: 23 holds, 27 does not
    checks.case("end 2 of 65535 + 1", ANY, plan([(65535, 1)], [1, 1, 0, 0, 0, 0, 0, 0]), "refused 27 0 0", misread=NARROW)


def run():
    runs.part("43 of threads released late: release + period")
    for shows, page, chosen, durations, grid, _, figures, misread in PAGES:
        length = len(plan(chosen, grid))
        before = runs.buffer(length + 3)
        if late(figures):
            runs.cleared(shows, page, choice(chosen, durations), before, length, f"43 {figures} 0", misread)
        else:
            runs.accepted(shows, page, chosen, durations, before, grid, figures, misread)


def report():
    lateness.part("threads released late: release + period")
    for shows, page, chosen, durations, _, rows, figures, misread in PAGES:
        answer = f"refused 43 {figures} 0" if late(figures) else f"accepted {figures}"
        shown = ", ".join("-" if row == NONE else str(row) for row in rows)
        lateness.written(f"{shows}: {shown}", page, choice(chosen, durations), 32, rows, answer, misread)
    lateness.written("end 4096 of 4095 + 65535: 65534", LAST, choice([(4095, 65535)], [1]), 32, [65534],
                     "accepted 1 4096 1", NARROW)
