"""The stored cases of marks and clears, request U8 of paper 02: a model, a plan and a list of calls, with what each call
answers and the plan after them.

Every answer is a literal, and so are the words, starts and ends of the plan afterwards, worked out by hand from the request:
"that activity's start is its first marked tick and its end its last plus 1, or both 0 when none is marked". Where a list
leaves the plan as it was, no plan is given. The asks and keeps of request U9 are in keeping.py.
"""
from gangs import G, G_CHOSEN, G_PLAN
from records import FREE, S, S_GRID, S_PLAN, S_ROWS, activity, model, plan, put, replaced, s_plan, thread
from rounds import R
from views import BREAKS_7, BREAKS_12, BREAKS_14, FULL, FULL_PLAN

EDITS = []  # (title of a part,) or (model, plan, calls, lines, plan afterwards, shows, answers, misreading)

MOST = 0xFFFFFFFF
DONE = "done"
VERDICT = "verdict"  # what an ask answers begins with it


def mark(a, t, answer=DONE):
    return 1, a, t, answer


def clear(a, t, answer=DONE):
    return 0, a, t, answer


def line(answer):
    """What is printed of a call: done, a verdict, or refused and the numbers of the refusal."""
    return answer if answer.startswith((DONE, VERDICT)) else f"refused {answer}"


def case(shows, model_bytes, plan_bytes, calls, after=None, misread=""):
    lines = [line(answer) for *_, answer in calls]
    answers = "; ".join(answer for *_, answer in calls)
    return model_bytes, plan_bytes, [call[:3] for call in calls], lines, after or plan_bytes, shows, answers, misread


def edits(*given, **named):
    EDITS.append(case(*given, **named))


def s_rows(**rows):
    """S's starts and ends, with others for some activities, as a0=(1, 3)."""
    return [rows.get(f"a{a}", row) for a, row in enumerate(S_ROWS)]


def strokes():
    EDITS.append(("one call on S's plan",))
    edits("a mark behind the last", S, S_PLAN, [mark(0, 6)], s_plan([2, 1, 1, 2, 0, 4, 1, 0], rows=s_rows(a0=(1, 7))),
          "the end without plus 1")
    edits("a mark before the first", S, S_PLAN, [mark(2, 3)], s_plan([2, 1, 1, 6, 0, 4, 0, 0], rows=s_rows(a2=(3, 6))),
          "the start left alone")
    edits("a mark between two", S, S_PLAN, [mark(1, 1)], s_plan([2, 3, 1, 2, 0, 4, 0, 0], rows=S_ROWS),
          "the word replaced and not its bit")
    edits("a mark at the last tick", S, S_PLAN, [mark(2, 7)], s_plan([2, 1, 1, 2, 0, 4, 0, 4], rows=s_rows(a2=(5, 8))),
          "an end of H cut off")
    edits("the only tick cleared", S, S_PLAN, [clear(2, 5)], s_plan([2, 1, 1, 2, 0, 0, 0, 0], rows=s_rows(a2=(0, 0))),
          "the old row, or H for none")
    edits("the first tick cleared", S, S_PLAN, [clear(1, 0)], s_plan([0, 1, 1, 2, 0, 4, 0, 0], rows=s_rows(a1=(3, 4))),
          "the old start")
    edits("the last tick cleared", S, S_PLAN, [clear(1, 3)], s_plan([2, 1, 1, 0, 0, 4, 0, 0], rows=s_rows(a1=(0, 1))),
          "the old end, or 0 0 for tick 0 alone")


def disagreeing():
    EDITS.append(("rows that disagree with the bits",))
    edits("its own row lies elsewhere", S, s_plan(rows=s_rows(a2=(1, 2))), [mark(2, 6)],
          s_plan([2, 1, 1, 2, 0, 4, 4, 0], rows=s_rows(a2=(5, 7))), "the old row moved on")
    edits("its own row is too wide", S, s_plan(rows=s_rows(a0=(0, 8))), [clear(0, 1)],
          s_plan([2, 0, 1, 2, 0, 4, 0, 0], rows=s_rows(a0=(2, 3))), "the old row trusted")
    edits("its own row is past the horizon", S, s_plan(rows=s_rows(a2=(65535, 65535))), [clear(2, 5)],
          s_plan([2, 1, 1, 2, 0, 0, 0, 0], rows=s_rows(a2=(0, 0))), "the old row trusted")
    edits("the others' rows are wrong", S, s_plan(rows=[(9, 2), (0, 4), (5, 6)]), [mark(1, 4)],
          s_plan([2, 1, 1, 2, 2, 4, 0, 0], rows=[(9, 2), (0, 5), (5, 6)]), "every row counted anew")
    edits("a wrong row and a refused call", S, s_plan(rows=s_rows(a2=(1, 2))), [mark(2, 5, "60 0 0"), clear(2, 4, "60 0 0")],
          misread="the row counted anew though the call is refused")


def lists():
    EDITS.append(("lists of calls",))
    edits("no call", S, S_PLAN, [])
    edits("a mark and the clear of it", S, S_PLAN, [mark(0, 7), clear(0, 7)])
    edits("cleared, and marked at the last tick", S, S_PLAN, [clear(2, 5), mark(2, 7)],
          s_plan([2, 1, 1, 2, 0, 0, 0, 4], rows=s_rows(a2=(7, 8))), "a start that stays 0")
    edits("a middle tick cleared", S, S_PLAN, [mark(0, 3), clear(0, 2)],
          s_plan([2, 1, 0, 3, 0, 4, 0, 0], rows=s_rows(a0=(1, 4))), "the row of what is left in one piece")
    edits("marked twice", S, S_PLAN, [mark(2, 6), mark(2, 6, "60 0 0")],
          s_plan([2, 1, 1, 2, 0, 4, 4, 0], rows=s_rows(a2=(5, 7))), "the bit turned over")
    edits("cleared twice", S, S_PLAN, [clear(0, 1), clear(0, 1, "60 0 0"), clear(0, 2)],
          s_plan([2, 0, 0, 2, 0, 4, 0, 0], rows=s_rows(a0=(0, 0))), "the bit turned over")
    edits("refused calls between the others", S, S_PLAN,
          [mark(3, 0, "58 0 0"), mark(2, 0), mark(2, 8, "59 0 0"), clear(1, 0), clear(1, 0, "60 0 0"), mark(0, 0)],
          s_plan([5, 1, 1, 2, 0, 4, 0, 0], rows=[(0, 3), (3, 4), (0, 6)]))
    edits("all of a plan cleared", S, S_PLAN, [clear(0, 1), clear(0, 2), clear(1, 0), clear(1, 3), clear(2, 5)],
          s_plan([0] * 8, rows=[(0, 0)] * 3))


def refusals():
    EDITS.append(("refusals and their order",))
    edits("activity m", S, S_PLAN, [mark(3, 0, "58 0 0"), clear(3, 0, "58 0 0")], misread="a bit at or above m set")
    edits("activity 31", S, S_PLAN, [mark(31, 0, "58 0 0")])
    edits("activity 32", S, S_PLAN, [mark(32, 0, "58 0 0")], misread="a shift by 32")
    edits("activity 255", S, S_PLAN, [mark(255, 0, "58 0 0")])
    edits("activity 256 + 2", S, S_PLAN, [mark(258, 6, "58 0 0")], misread="the low byte of the activity")
    edits("the greatest activity", S, S_PLAN, [mark(MOST, 0, "58 0 0"), clear(MOST, 0, "58 0 0")])
    edits("tick H", S, S_PLAN, [mark(0, 8, "59 0 0"), clear(0, 8, "59 0 0")], misread="≤ for <, or 60 for a clear")
    edits("tick 65536 + 6", S, S_PLAN, [mark(2, 65542, "59 0 0")], misread="the low 2 bytes of the tick")
    edits("tick 2^30", S, S_PLAN, [clear(2, 1 << 30, "59 0 0")], misread="a place of 4t in 32 bits")
    edits("the greatest tick", S, S_PLAN, [mark(2, MOST, "59 0 0"), clear(2, MOST, "59 0 0")])
    edits("a set bit marked, a clear one cleared", S, S_PLAN, [mark(1, 3, "60 0 0"), clear(1, 4, "60 0 0")])
    edits("activity m at tick H", S, S_PLAN, [mark(3, 8, "58 0 0"), clear(MOST, MOST, "58 0 0")], misread="59 first")
    edits("no model and no plan", b"", b"", [mark(3, 8, "1 0 0")])
    edits("temporal mask 2 in activity 1's row", BREAKS_7, b"", [mark(3, 8, "7 1 0")], misread="the plan first")
    edits("no plan", S, b"", [mark(3, 8, "8 0 0")], misread="58 first")
    edits("a plan of version 2", S, s_plan(version=2), [mark(3, 8, "9 0 0")])
    edits("a plan of 9 ticks", S, s_plan([*S_GRID, 0]), [mark(0, 8, "10 0 0")], misread="the plan's own H")
    edits("a byte too few", S, S_PLAN[:-1], [mark(0, 0, "8 0 0")])
    edits("release 3 for thread 0", S, BREAKS_12, [mark(0, 0, "12 0 0")])
    edits("bit 3 at tick 7", S, BREAKS_14, [clear(3, 7, "14 7 0"), mark(0, 0, "14 7 0")], misread="58 first")


# R's plan: activities 2 and 3 are 0 and 1 in round 1
R_CHOSEN = [(0, 5), (5, 5)]
R_GRID = [1, 1, 2, 2, 2, 0, 4, 8, 8, 0]
R_ROWS = [(0, 2), (2, 5), (6, 7), (7, 9)]
R_PLAN = plan(R_CHOSEN, R_GRID, R_ROWS)

# 32 activities of one thread and of one tick each, and a plan of two ticks at which none is marked
WHOLE_WORD = model(8, 2, [thread(1)], [activity(0)] * 32)
EMPTY = plan([FREE], [0, 0], [(0, 0)] * 32)


def pages():
    EDITS.append(("pages of several rounds, of gangs, and the largest",))
    edits("an activity of round 1", R, R_PLAN, [mark(3, 9), clear(2, 6)],
          plan(R_CHOSEN, [1, 1, 2, 2, 2, 0, 0, 8, 8, 8], [(0, 2), (2, 5), (0, 0), (7, 10)]), "58 by the page's own m")
    edits("activity i times m", R, R_PLAN, [mark(4, 0, "58 0 0")])
    edits("a gang", G, G_PLAN, [mark(1, 4), clear(1, 2)],
          plan(G_CHOSEN, [5, 5, 0, 2, 6, 0], [(0, 2), (3, 5), (0, 5)]), "a bit for each of its cores")
    edits("a gang's bit that is set", G, G_PLAN, [mark(1, 2, "60 0 0"), clear(1, 0, "60 0 0")])
    edits("bit 31", WHOLE_WORD, EMPTY, [mark(31, 1), mark(0, 1), mark(31, 0), clear(0, 1)],
          plan([FREE], [1 << 31, 1 << 31], replaced([(0, 0)] * 32, 31, (0, 2))), "a word with a sign")
    edits("the largest plan: its last tick", FULL, FULL_PLAN, [mark(0, 4095), clear(31, 4095)],
          put(put(put(FULL_PLAN, 16549, 4, 0x7F000001), 41, 4, 4096), 165, 4, (3072 << 16) + 4095),
          "a tick's place in 8 or 12 bits")
    edits("the largest plan: the horizon", FULL, FULL_PLAN, [mark(0, 4096, "59 0 0")])


SECTIONS = (strokes, disagreeing, lists, refusals, pages)
