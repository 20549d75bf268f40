"""The stored cases of activities that take several cores, request U7 of paper 02: "it runs on all its cores or not at all".

Each page is given once, and asked of the checks, of the run and of the report of lateness; plans that leave the rules
follow. Grids, rows and figures are literals, worked out by hand: usage counts each active tick as often as its activity is
wide, and a waiting activity counts "only if its width is at most c less the widths of active activities ranked before it".
"""
import checks
import lateness
import runs
import views
from lateness import NONE
from records import FREE, S_ACTIVITIES, S_CHOSEN, S_DURATIONS, S_GRID, S_PLAN, S_THREADS
from records import activity, choice, longer, number, plan, put, record, s_model, thread
from rounds import NO_LOOP, OWN, OWN_PLAN, check_pages, report_pages, run_pages
from views import NEVER


def page(cores, horizon, rounds, threads, rows, version=3):
    """rows: each an activity, its loop byte and its width."""
    head = number(1, cores) + number(1, len(threads)) + number(1, len(rows)) + number(2, horizon) + number(1, rounds)
    rows = b"".join(row + number(1, q) + number(1, width) for row, q, width in rows)
    return record(version, head + b"".join(threads) + rows)


def gangs(cores, horizon, priorities, rows):
    """One round without loops, threads without a period; rows: thread, ticks and width of each activity."""
    rows = [(activity(owner, (ticks, ticks)), NO_LOOP, width) for owner, ticks, width in rows]
    return page(cores, horizon, 1, [thread(priority) for priority in priorities], rows)


def wide(cores, widths, rounds=1, threads=None, loops=None, **row):
    """Activities of one tick and of one thread, with these widths; row: what all rows have besides."""
    rows = [(activity(0, **row), q, width) for q, width in zip(loops or [NO_LOOP] * len(widths), widths)]
    return page(cores, 8, rounds, threads or [thread(1)], rows)


# model G of samples/: sampling and logging take a core each, the spectrum between them both
G = page(2, 6, 1, [thread(3), thread(2, period=(6, 6)), thread(1)],
         [(activity(0, (1, 2)), NO_LOOP, 1), (activity(1, (1, 2)), NO_LOOP, 2), (activity(2, (1, 3)), NO_LOOP, 1)])
G_CHOSEN = [FREE, (0, 6), FREE]
G_GRID = [5, 5, 2, 2, 4, 0]
G_PLAN = plan(G_CHOSEN, G_GRID)
# with the period range 3..6 of thread 1, and 3 chosen, the spectrum's end at 4 is late
G_LATE = put(G, 21, 2, 3)
G_LATE_CHOICE = choice([FREE, (0, 3), FREE], [2, 2, 3])

LEVEL = gangs(2, 3, [1], [(0, 2, 1), (0, 1, 2), (0, 2, 1)])
FIVE = gangs(5, 3, [1], [(0, 1, 2), (0, 1, 4), (0, 1, 2), (0, 1, 2), (0, 1, 1)])
# 1 does not fit beside 0, whose priority is higher
BESIDE = gangs(4, 2, [3, 2, 1], [(0, 1, 2), (1, 1, 3), (2, 1, 2)])
# the more urgent one has the higher number
TURNED = gangs(2, 3, [1, 2], [(0, 1, 2), (1, 2, 1)])
FOLLOWS = page(2, 3, 1, [thread(1)], [(activity(0), NO_LOOP, 2), (activity(0, data=[0]), NO_LOOP, 1)])
DELAYED = page(2, 4, 1, [thread(1)], [(activity(0, delay=1), NO_LOOP, 2), (activity(0, temporal=[0]), NO_LOOP, 1)])
# two rounds of a gang that comes after itself and a delay of 1, and of a narrow activity without a loop
LOOPED = page(2, 4, 2, [thread(1)], [(activity(0, delay=1), 0, 2), (activity(0, (2, 2)), NO_LOOP, 1)])
# the same, the narrow one with period 3, so that it is released at 3 in round 1
MOVED = page(2, 6, 2, [thread(1), thread(1, period=(3, 3))],
             [(activity(0, delay=1), 0, 2), (activity(1, (2, 2)), NO_LOOP, 1)])
MOVED_CHOSEN = [FREE, (0, 3), FREE, (3, 3)]
FOUR = page(2, 8, 4, [thread(1)], [(activity(0), NO_LOOP, 2), (activity(0), NO_LOOP, 1)])
WIDEST = gangs(8, 3, [1], [(0, 1, 8), (0, 1, 1), (0, 1, 8)])
LONGEST = gangs(8, 32, [1] * 8, [(a % 8, 1, 8) for a in range(32)])
ONE = page(1, 8, 1, S_THREADS, [(row, NO_LOOP, 1) for row in S_ACTIVITIES])
ONES = "the ones of the words as usage"
STOPS = "the walk ends at the first that does not fit"
EVERY = "every waiting activity counts"

# what it shows; the page; release and period of each thread; durations; the grid; the rows; the figures; a misreading under
# which the answer or a row is another
PAGES = (
    ("G: 1 needs both cores, and 2 takes the one that 0 leaves", G, G_CHOSEN, [2, 2, 3], G_GRID, [NONE, 2, NONE], "9 12 5",
     f"{STOPS}, or {ONES}"),
    ("the same by number, at equal priority", LEVEL, [FREE], [2, 1, 2], [5, 5, 2], [NONE] * 3, "6 6 3",
     f"{STOPS}, or ranked before by priority alone"),
    ("c 5, widths 2, 4, 2, 2, 1: two are passed over at tick 0", FIVE, [FREE], [1] * 5, [21, 2, 8], [NONE] * 5, "11 15 3",
     f"{STOPS}, or {ONES}"),
    ("c 4, width 3 beside 2, and a less urgent 2", BESIDE, [FREE] * 3, [1] * 3, [5, 2], [NONE] * 3, "7 8 2",
     f"{EVERY} in 29"),
    ("width 2 beside a more urgent one with the higher number", TURNED, [FREE] * 2, [1, 2], [2, 2, 1], [NONE] * 2, "4 6 3",
     "ranked before by number alone"),
    ("two ticks of two cores", gangs(2, 3, [1], [(0, 2, 2)]), [FREE], [2], [1, 1, 0], [NONE], "4 6 2",
     "durations in core ticks"),
    ("after one tick of two cores, by data", FOLLOWS, [FREE], [1, 1], [1, 2, 0], [NONE] * 2, "3 6 2", "efe in core ticks"),
    ("after one tick of two cores and delay 1", DELAYED, [FREE], [1, 1], [1, 0, 2, 0], [NONE] * 2, "3 8 3",
     "efe in core ticks"),
    ("i 2, a gang's loop to itself: passed over at tick 2", LOOPED, [FREE] * 2, [1, 2, 1, 2], [1, 10, 10, 4], [NONE] * 4,
     "8 8 4", f"width 1 in round 1, or {STOPS}"),
    ("i 2, the gang of round 1 before the narrow one of round 1", MOVED, MOVED_CHOSEN, [1, 2, 1, 2], [1, 2, 2, 4, 8, 8],
     [NONE, 0, NONE, 0], "8 12 6", "width 1 in round 1"),
    ("i 4, a gang and a narrow one in each round", FOUR, [FREE] * 4, [1] * 8, [1, 10, 4, 16, 160, 64, 0, 0], [NONE] * 8,
     "12 16 6", "width 1 in round 1"),
    ("c 8, width 8", WIDEST, [FREE], [1] * 3, [1, 2, 4], [NONE] * 3, "17 24 3", "57 at 8, or beside a gang of all cores"),
    ("32 activities of width 8: 635 bytes", LONGEST, [FREE] * 8, [1] * 32, [1 << t for t in range(32)], [NONE] * 32,
     "256 256 32", ONES),
    ("i 1, no loop, width 1 in each row: S", ONE, S_CHOSEN, S_DURATIONS, S_GRID, [NONE, 4, 2], "5 8 6",
     "activity rows of 16 bytes"),
)


# ---- the checks


def checked():
    check_pages("Gangs: the plans that the run makes", PAGES)


def loads():
    checks.part("Gangs: 28, by widths")
    case = checks.case
    by_ones = "ones for widths in 28"
    pair = [(0, 1, 2), (0, 1, 1)]
    case("widths 2 and 1 on two cores", gangs(2, 2, [1], pair), plan([FREE], [3, 0]), "refused 28 0 0", misread=by_ones)
    case("the same on three", gangs(3, 2, [1], pair), plan([FREE], [3, 0]), "accepted 3 6 1", misread=ONES)
    case("width 8 and one more at tick 1", gangs(8, 2, [1], [(0, 2, 8), (0, 1, 1)]), plan([FREE], [1, 3]), "refused 28 1 0",
         misread="28 at a load of c")
    # tick 0 has a load of 2, while 2 waits with the higher priority
    case("tick 0 breaks 29, tick 1 breaks 28", gangs(2, 3, [1, 2], [(0, 1, 2), (0, 1, 2), (1, 1, 1)]),
         plan([FREE] * 2, [2, 5, 0]), "refused 28 1 0", misread=f"29 before 28, or {by_ones}")
    case("a gang beside a narrow one in round 1", MOVED, plan(MOVED_CHOSEN, [1, 2, 2, 12, 8, 0]), "refused 28 3 0",
         misread="width 1 in round 1")


def preempted():
    checks.part("Gangs: 29")
    case = checks.case
    away = "what fits only with a less urgent one away does not count"
    case("the less urgent gang has both cores", gangs(2, 2, [1, 2], [(0, 1, 2), (1, 1, 1)]), plan([FREE] * 2, [1, 2]),
         "refused 29 0 1", misread=f"ones for widths in 29, or {away}")
    case("two narrow ones in front of a more urgent gang", gangs(2, 3, [1, 2], [(0, 2, 1), (0, 2, 1), (1, 1, 2)]),
         plan([FREE] * 2, [3, 3, 4]), "refused 29 0 2", misread=f"the width below what is left, or {away}")
    case("c 4, width 2 beside 2, and a less urgent 2",
         gangs(4, 2, [3, 2, 1], [(0, 1, 2), (1, 1, 2), (2, 1, 2)]), plan([FREE] * 3, [5, 2]), "refused 29 0 1", misread=away)
    case("1 and 2 wait, and only 2 fits beside 0",
         gangs(3, 3, [3, 2, 1], [(0, 1, 2), (1, 1, 2), (1, 1, 1), (2, 1, 1)]), plan([FREE] * 3, [9, 6, 0]),
         "refused 29 0 2", misread=f"{EVERY}, or a waiting one takes cores")
    case("a free core, and a more urgent gang waits", gangs(2, 2, [2, 1], [(0, 1, 2), (1, 1, 1)]),
         plan([FREE] * 2, [2, 1]), "accepted 3 4 2", "refused 30 0 0", "29 with a free core")


def idle():
    checks.part("Gangs: 30")
    case = checks.case
    misfit = gangs(2, 5, [3, 2, 1], [(0, 2, 1), (1, 1, 2), (2, 2, 1)])
    case("the walk ended at a gang: 1 does not count, 2 does", misfit, plan([FREE] * 3, [1, 1, 2, 4, 4]), "accepted 6 10 5",
         "refused 30 0 2", f"{EVERY}, or a waiting one takes cores")
    case("at equal priority the lower number ranks before", gangs(2, 3, [1], [(0, 2, 1), (0, 1, 2)]),
         plan([FREE], [1, 1, 2]), "accepted 4 6 3", misread="ranked before by priority alone")
    case("and the higher number does not", gangs(2, 3, [1], [(0, 1, 2), (0, 2, 1)]), plan([FREE], [2, 1, 2]),
         "accepted 4 6 3", "refused 30 0 0", "ranked before at equal priority, or c less all active widths")
    case("i 2: the gang of round 1 waits beside a higher number", MOVED, plan(MOVED_CHOSEN, [1, 2, 2, 8, 4, 8]),
         "accepted 8 12 6", "refused 30 3 2", "c less all active widths, or B a row of the page")


def tied():
    checks.part("Gangs: 31")
    case = checks.case
    case("the higher number has both cores", gangs(2, 2, [1], [(0, 1, 1), (0, 1, 2)]), plan([FREE], [2, 1]),
         "accepted 3 4 2", "refused 31 0 0", "ones for widths in 30 or in 31")
    case("a gang of three in the place of 1 and 2", gangs(3, 2, [1], [(0, 1, 3), (0, 1, 1), (0, 1, 2)]),
         plan([FREE], [6, 1]), "accepted 6 6 2", "refused 31 0 0", "c less all active widths")
    case("1 does not fit beside 0, and 2 takes what is left", gangs(3, 2, [1], [(0, 1, 2), (0, 1, 2), (0, 1, 1)]),
         plan([FREE], [5, 2]), "accepted 5 6 2", misread=f"{EVERY}, or ranked before by priority alone")
    case("1 and 2 wait, and only 2 fits beside 0", gangs(3, 3, [1], [(0, 1, 2), (0, 1, 2), (0, 1, 1), (0, 1, 1)]),
         plan([FREE], [9, 6, 0]), "accepted 6 9 2", "refused 31 0 2", f"{EVERY}, or a waiting one takes cores")


# ---- the form rules


def versions():
    checks.part("Version 3: its bytes")
    case = checks.case
    case("S with version byte 3", s_model(version=3), S_PLAN, "refused 4 0 0", misread="2, as before version 3")
    case("a page of version 2 with version byte 3", put(OWN, 4, 1, 3), OWN_PLAN, "refused 4 0 0",
         misread="4 by 11 + 10n + 16m")
    case("a page with version byte 2", put(G, 4, 1, 2), G_PLAN, "refused 4 0 0", misread="4 without the version")
    case("a page with version byte 1", put(G, 4, 1, 1), G_PLAN, "refused 4 0 0", misread="4 without the version")
    for version in (0, 4, 255):
        case(f"a page with version byte {version}", put(G, 4, 1, version), G_PLAN, "refused 2 0 0",
             misread="every version above 2 read as 3" if version else "")
    case("10 bytes of version 3", number(4, 10) + b"\3\1\1\1\0\x08", G_PLAN, "refused 4 0 0", misread="1 under 11 bytes")
    case("the last width left out", put(G, 0, 4, 91)[:91], G_PLAN, "refused 4 0 0", misread="a width of 1 where none is")
    case("a byte behind the last width", longer(G), G_PLAN, "refused 4 0 0")


def widths():
    checks.part("57: the width")
    refused = ((1, 0), (1, 2), (2, 0), (2, 3), (2, 8), (7, 8), (8, 9), (8, 255))
    for cores, width in refused:
        misread = "57 above c only" if width == 0 else "57 above 8 only"
        checks.case(f"c {cores}, width {width}", wide(cores, [1, width, 1]), G_PLAN, "refused 57 1 0", misread=misread)
    for cores in (1, 2, 8):
        checks.case(f"c {cores}, width {cores}, and no plan", wide(cores, [1, cores, 1]), b"", "refused 8 0 0",
                    misread="57 at c")
    checks.case("i 2, width 3 of 2", wide(2, [1, 3], rounds=2), G_PLAN, "refused 57 1 0", misread="57 by c times i")
    checks.case("rows 1 and 2", wide(2, [2, 3, 0]), G_PLAN, "refused 57 1 0", misread="the highest A in 57")


def form_order():
    checks.part("Which refusal comes first: 57 among 1 to 8")
    case = checks.case
    case("i 5, width 0", wide(2, [0, 1], rounds=5), G_PLAN, "refused 51 0 0", misread="57 before 51")
    case("width 0, a thread row breaks 52", wide(2, [0, 1], rounds=2, threads=[thread(1, period=(1, 2))]), G_PLAN,
         "refused 52 0 0", misread="57 before 52")
    foreign = page(2, 8, 1, [thread(1)], [(activity(0), NO_LOOP, 0), (activity(1), NO_LOOP, 1)])
    case("row 0 breaks 57, row 1 breaks 6", foreign, G_PLAN, "refused 6 1 0", misread="57 before 6, or in one pass")
    case("row 0 breaks 57, row 1 breaks 53", wide(2, [0, 1], loops=[NO_LOOP, 2]), G_PLAN, "refused 53 1 0",
         misread="57 before 53, or in one pass")
    own = page(2, 8, 1, [thread(1)], [(activity(0, temporal=[0]), NO_LOOP, 1), (activity(0), NO_LOOP, 3)])
    case("row 0 breaks 7, row 1 breaks 57", own, G_PLAN, "refused 57 1 0", misread="7 before 57, or in one pass")
    case("row 1 breaks 57, and no plan", wide(2, [1, 0]), b"", "refused 57 1 0", misread="8 before 57")


# ---- the run, the held view and the report

TOO_WIDE = wide(2, [1, 3])


def run():
    run_pages("gangs", PAGES)
    # tick 0: 0, 2 and 4; tick 1: 1, beside which 3 does not fit
    short = gangs(5, 2, [1], [(0, 1, 2), (0, 1, 4), (0, 1, 2), (0, 1, 2), (0, 1, 1)])
    runs.cleared("c 5, widths 2, 4, 2, 2, 1 with H 2: 3 is owed", short, choice([FREE], [1] * 5), runs.buffer(44), 41,
                 "42 3 0", STOPS)
    runs.cleared("G with period 3 of 3..6", G_LATE, G_LATE_CHOICE, runs.buffer(60), 57, "43 1 0", STOPS)
    runs.untouched("refused by 57, and no byte is lent", TOO_WIDE, choice([FREE], [1, 1]), b"", "57 1 0", "41 before it")


def view():
    views.view("gangs: a tick of a misfit passed over", G, G_PLAN, 0, 5)
    views.view("gangs: a plan that breaks 28 by widths has a view", gangs(2, 2, [1], [(0, 1, 2), (0, 1, 1)]),
               plan([FREE], [3, 0]), 0, 3)
    views.view("a page refused by 57", TOO_WIDE, G_PLAN, 0, refused="57 1 0")
    views.held("gangs: ticks that go back", G, G_PLAN, (4, 2, 0), (4, 2, 5))
    views.held("a page refused by 57", TOO_WIDE, G_PLAN, (4, 2, 0), NEVER, refused="57 1 0")


def report():
    report_pages("gangs", PAGES)
    lateness.written("G with period 3 of 3..6: -, -1, -", G_LATE, G_LATE_CHOICE, 33, [NONE, -1, NONE], "refused 43 1 0",
                     STOPS)
    lateness.kept("refused by 57, 31 rows", TOO_WIDE, choice([FREE], [1, 1]), 31, "57 1 0", "50 before it")
    lateness.kept("G with 31 rows", G, choice(G_CHOSEN, [2, 2, 3]), 31, "50 0 0")


OF_CHECKS = (checked, loads, preempted, idle, tied, versions, widths, form_order)
