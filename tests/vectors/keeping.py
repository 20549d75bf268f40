"""The stored cases of asks and keeps, request U9 of paper 02: a model, a plan and a list of asks, keeps and direct edits,
with what each call answers and the plan after them. An editing state goes through the calls of a case, and begins with
nothing asked.

Every answer and every plan is a literal, worked out by hand: a verdict from rules 21 to 29 on the plan that the edit would
make, with the row of that activity counted anew, and 61 from "keeping with nothing asked, or with any kept edit since the
asking". Where a list leaves the plan as it was, no plan is given.
"""
from edits import DONE, EMPTY, MOST, R_CHOSEN, R_PLAN, VERDICT, WHOLE_WORD, case, clear, mark, s_rows
from gangs import G, G_CHOSEN, G_PLAN
from records import FREE, S, S_LATE, S_PLAN, plan, put, replaced, s_plan
from rounds import R
from views import BREAKS_7, BREAKS_14, FULL, FULL_PLAN

KEEPS = []  # as the edits, with asks and keeps among the calls

NONE_ASKED = "61 0 0"


def keeps(*given, **named):
    KEEPS.append(case(*given, **named))


def ask(edit, verdict=None):
    """An ask for that mark or clear: with the verdict, or refused as the edit would be."""
    which, a, t, answer = edit
    return which + 2, a, t, answer if verdict is None else f"{VERDICT} {verdict}"


def keep(answer=DONE):
    return 4, 0, 0, answer


# S's plan with tick 6 of activity 2 marked, an ask for that, and the plan with tick 2 of activity 0 cleared
DOUBLED = s_plan([2, 1, 1, 2, 0, 4, 4, 0], rows=s_rows(a2=(5, 7)))
DOUBLING = ask(mark(2, 6), "refused 22 2 0")
SHORTENED = s_plan([2, 1, 0, 2, 0, 4, 0, 0], rows=s_rows(a0=(1, 2)))
SHORTENING = ask(clear(0, 2), "accepted 4 8 6")


def kept():
    KEEPS.append(("asks and keeps",))
    keeps("ask", S, S_PLAN, [DOUBLING, SHORTENING], misread="made when asked")
    keeps("ask, keep", S, S_PLAN, [DOUBLING, keep()], DOUBLED, "21 to 29 as a refused ask")
    keeps("ask, ask, keep", S, S_PLAN, [DOUBLING, SHORTENING, keep()], SHORTENED, "the first one kept, or both")
    keeps("ask, the same ask, keep", S, S_PLAN, [DOUBLING, DOUBLING, keep()], DOUBLED, "60 at the second")
    keeps("ask, keep, keep", S, S_PLAN, [DOUBLING, keep(), keep(NONE_ASKED)], DOUBLED, "60, or done again")
    keeps("keep, keep, ask, keep", S, S_PLAN, [keep(NONE_ASKED), keep(NONE_ASKED), DOUBLING, keep()], DOUBLED,
          "a clear of activity 0 at tick 0 as asked at first")
    keeps("ask, refused ask, keep", S, S_PLAN,
          [SHORTENING, ask(mark(3, 0, "58 0 0")), keep(NONE_ASKED), SHORTENING, ask(clear(2, 8, "59 0 0")), keep(NONE_ASKED),
           SHORTENING, ask(mark(2, 5, "60 0 0")), keep(NONE_ASKED)], misread="the ask before it stands")


def direct():
    KEEPS.append(("asks, keeps and direct edits",))
    keeps("ask, direct edit, keep", S, S_PLAN,
          [DOUBLING, clear(0, 2), keep(NONE_ASKED), ask(clear(2, 5), "refused 21 2 0"), mark(0, 3), keep(NONE_ASKED)],
          s_plan([2, 1, 0, 3, 0, 4, 0, 0], rows=s_rows(a0=(1, 4))), "kept, since the bit is as it was")
    keeps("ask, the same edit made directly, keep", S, S_PLAN, [DOUBLING, mark(2, 6), keep(NONE_ASKED)], DOUBLED, "60")
    keeps("ask, direct edit and its undoing, keep", S, S_PLAN, [DOUBLING, mark(0, 7), clear(0, 7), keep(NONE_ASKED)],
          misread="kept, since the plan is as it was")
    keeps("ask, refused direct edits, keep", S, S_PLAN,
          [DOUBLING, mark(3, 0, "58 0 0"), clear(0, 8, "59 0 0"), mark(0, 1, "60 0 0"), keep()], DOUBLED,
          "61 after any direct edit")
    keeps("verdicts of the plan as it is left", S, S_PLAN,
          [ask(clear(2, 5), "refused 21 2 0"), keep(), ask(mark(2, 4), "refused 25 2 1"), ask(mark(2, 7), "accepted 5 8 8"),
           clear(2, 7, "60 0 0"), keep(), keep(NONE_ASKED), mark(2, 6), ask(clear(2, 7), "accepted 5 8 7"), keep()],
          s_plan([2, 1, 1, 2, 0, 0, 4, 0], rows=s_rows(a2=(6, 7))), "verdicts of the plan at first")


def verdicts():
    KEEPS.append(("the verdict of each rule",))
    keeps("21: no tick is left", S, S_PLAN, [ask(clear(2, 5), "refused 21 2 0")], misread="22 for a count of 0")
    keeps("22: one tick is left", S, S_PLAN, [ask(clear(1, 3), "refused 22 1 0")], misread="the old end: 21 1 0")
    keeps("23: end 7, period 6 chosen of 5..8", S_LATE, s_plan(chosen=[(1, 0), (0, 6)]), [ask(mark(1, 6), "refused 23 1 0")],
          misread="the old end")
    keeps("25: end 5 and delay 1 of activity 1", S, S_PLAN, [ask(mark(1, 4), "refused 25 2 1")], misread="the old end")
    keeps("26: end 7 of activity 0", S, S_PLAN, [clear(0, 2), ask(mark(0, 6), "refused 26 2 0")], SHORTENED, "the old end")
    keeps("27: start 0, release 1", S, S_PLAN, [clear(0, 2), ask(mark(0, 0), "refused 27 0 0")], SHORTENED,
          "28 at tick 0 first")
    keeps("28: two at tick 1", S, S_PLAN, [ask(mark(1, 1), "refused 28 1 0")], misread="the words as they are")
    keeps("29: activity 0 waits at tick 1", S, S_PLAN, [clear(0, 1), ask(mark(1, 1), "refused 29 1 0")],
          s_plan([2, 0, 1, 2, 0, 4, 0, 0], rows=s_rows(a0=(2, 3))), "the words as they are")
    keeps("two ways out of 28", S, s_plan([2, 3, 1, 2, 0, 4, 0, 0]),
          [ask(clear(0, 1), "refused 29 1 0"), ask(clear(1, 1), "accepted 5 8 6"), keep()], S_PLAN,
          "the verdict of the plan as it is")
    keeps("activity 2 waits at tick 5", S, DOUBLED, [ask(clear(2, 5), "accepted 5 8 7")],
          misread="the strict verdict: 30 5 2")


def disagreeing():
    KEEPS.append(("asks, with rows that disagree with the bits",))
    keeps("its own row lies elsewhere", S, s_plan(rows=s_rows(a2=(1, 2))), [DOUBLING, keep()], DOUBLED, "the old row: 21 2 0")
    keeps("its own row is too wide", S, s_plan(rows=s_rows(a0=(0, 8))), [ask(clear(0, 2), "accepted 4 8 6")],
          misread="the row put right when asked")
    keeps("another's row is wrong", S, s_plan(rows=[(9, 2), (0, 4), (5, 6)]), [ask(mark(1, 4), "refused 21 0 0"), keep()],
          s_plan([2, 1, 1, 2, 2, 4, 0, 0], rows=[(9, 2), (0, 5), (5, 6)]), "every row counted anew: 25 2 1")


def refusals():
    KEEPS.append(("refused asks and keeps, and their order",))
    keeps("58 before 59, and no number cut off", S, S_PLAN,
          [ask(mark(3, 8, "58 0 0")), ask(clear(MOST, MOST, "58 0 0")), ask(mark(258, 6, "58 0 0")),
           ask(mark(2, 65542, "59 0 0")), keep(NONE_ASKED)])
    keeps("a set bit to be marked, a clear one to be cleared", S, S_PLAN,
          [ask(mark(1, 3, "60 0 0")), ask(clear(1, 4, "60 0 0")), keep(NONE_ASKED)],
          misread="the verdict of the plan as it is")
    keeps("no model", b"", S_PLAN, [keep("1 0 0"), ask(mark(3, 8, "1 0 0"))], misread="61 first")
    keeps("temporal mask 2 in activity 1's row", BREAKS_7, b"", [keep("7 1 0"), ask(mark(3, 8, "7 1 0"))], misread="61 first")
    keeps("no plan", S, b"", [keep("8 0 0"), ask(mark(3, 8, "8 0 0"))], misread="61 first")
    keeps("bit 3 at tick 7", S, BREAKS_14, [keep("14 7 0"), ask(clear(3, 7, "14 7 0")), keep("14 7 0")], misread="61 first")


def pages():
    KEEPS.append(("asks on pages of several rounds, of gangs, and the largest",))
    keeps("round 1 after round 0 and a delay of 1", R, R_PLAN,
          [ask(mark(4, 0, "58 0 0")), ask(mark(3, 9), "accepted 9 10 10"), ask(mark(2, 5), "refused 25 2 1"),
           ask(clear(1, 4), "accepted 7 10 9"), keep(), ask(mark(2, 5), "accepted 8 10 9"), keep()],
          plan(R_CHOSEN, [1, 1, 2, 2, 0, 4, 4, 8, 8, 0], [(0, 2), (2, 4), (5, 7), (7, 9)]), "the loop left out")
    keeps("loads and usage by widths", G, G_PLAN,
          [ask(clear(1, 3), "accepted 7 12 5"), clear(0, 1), ask(clear(1, 3), "accepted 6 12 5"),
           ask(mark(0, 2), "refused 28 2 0"), ask(mark(0, 4), "refused 29 2 0"), keep()],
          plan(G_CHOSEN, [5, 4, 2, 2, 5, 0], [(0, 5), (2, 4), (0, 5)]), "ones for widths")
    keeps("bit 31", WHOLE_WORD, EMPTY, [ask(mark(31, 1), "refused 21 0 0"), keep(), keep(NONE_ASKED)],
          plan([FREE], [0, 1 << 31], replaced([(0, 0)] * 32, 31, (1, 2))), "a word with a sign")
    keeps("the largest plan: its last tick", FULL, FULL_PLAN,
          [ask(mark(0, 4096, "59 0 0")), ask(mark(0, 4095), "refused 28 4095 0"),
           ask(clear(31, 4095), "accepted 32767 32768 4096"), keep(),
           ask(mark(0, 4095), "accepted 32768 32768 4096"), keep()],
          put(put(put(FULL_PLAN, 16549, 4, 0x7F000001), 41, 4, 4096), 165, 4, (3072 << 16) + 4095),
          "a tick's place in 8 or 12 bits")


SECTIONS = (kept, direct, verdicts, disagreeing, refusals, pages)
