"""The stored cases of the held view: a model, a plan and a tick, with what the making answers and the word or past. Of one
view that is asked three times: a model, a plan and three ticks, with what the making answers and the word or past at each.

The words are those that the plan is made of; the refusals, and that a view gives past, follow from the paper's rules 1 to
14 and from H.
"""
from records import S, S_ACTIVITIES, S_PLAN, S_ROWS, activity, model, plan, replaced, s_model, s_plan, thread

VIEWS = []  # (model, plan, tick, lines, shows)
HELD = []  # (model, plan, three ticks, lines, shows)
PAST = None
NEVER = (PAST, PAST, PAST)  # past at three ticks


def making(refused):
    return "made" if refused is None else f"refused {refused}"


def gives(word):
    return "past" if word is PAST else f"word {word}"


def view(shows, model_bytes, plan_bytes, tick, word=PAST, refused=None):
    VIEWS.append((model_bytes, plan_bytes, tick, [making(refused), gives(word)], shows))


def held(shows, model_bytes, plan_bytes, ticks, words, refused=None):
    HELD.append((model_bytes, plan_bytes, ticks, [making(refused), *map(gives, words)], shows))


def ticks():
    view("S's plan: the first tick", S, S_PLAN, 0, 2)
    view("activity 2's tick", S, S_PLAN, 5, 4)
    view("the last tick: nothing is active", S, S_PLAN, 7, 0)
    view("the horizon", S, S_PLAN, 8)
    view("a tick whose place 4t is 0 modulo 2^64", S, S_PLAN, 1 << 62)
    view("the greatest tick there is", S, S_PLAN, (1 << 64) - 1)


# plans for S: over the first there is a view, over the others its making is refused
BREAKS_25 = s_plan([2, 1, 1, 2, 4, 0, 0, 0])
BREAKS_12 = s_plan(chosen=[(3, 0), (0, 8)])
BREAKS_14 = s_plan([2, 1, 1, 2, 0, 4, 0, 8], rows=S_ROWS)
# S with an own bit in the temporal mask of activity 1
BREAKS_7 = s_model(activities=replaced(S_ACTIVITIES, 1, activity(1, (2, 3), delay=1, temporal=[1])))


def makings():
    view("a plan that breaks 25 has a view", S, BREAKS_25, 4, 4)
    view("release 3 for thread 0: refused by 12", S, BREAKS_12, 5, refused="12 0 0")
    view("bit 3 at tick 7: refused by 14", S, BREAKS_14, 0, refused="14 7 0")
    view("temporal mask 2 in activity 1's row: refused by 7", BREAKS_7, S_PLAN, 0, refused="7 1 0")
    view("no plan", S, b"", 0, refused="8 0 0")
    view("no model", b"", S_PLAN, 0, refused="1 0 0")


FULL = model(8, 4096, [thread(5)] * 8, [activity(a % 8, (1, 4096)) for a in range(32)])
FULL_PLAN = plan([(0, 0)] * 8, [255 << 8 * (t // 1024) for t in range(4096)])


def largest():
    view("the largest records: the last tick", FULL, FULL_PLAN, 4095, 255 << 24)
    view("the largest records: the horizon", FULL, FULL_PLAN, 4096)


# ---- asked three times


def held_ticks():
    held("S's plan: a tick asked again", S, S_PLAN, (5, 0, 5), (4, 2, 4))
    held("ticks that go back", S, S_PLAN, (5, 3, 1), (4, 2, 1))
    held("one tick three times", S, S_PLAN, (3, 3, 3), (2, 2, 2))
    held("the last tick, the horizon, the first tick", S, S_PLAN, (7, 8, 0), (0, PAST, 2))
    held("a tick whose place 4t is 0 modulo 2^64 between two that have words", S, S_PLAN, (0, 1 << 62, 5), (2, PAST, 4))
    held("the greatest tick there is, before two that have words", S, S_PLAN, ((1 << 64) - 1, 5, 0), (PAST, 4, 2))
    held("no tick of the grid", S, S_PLAN, (8, 9, 10), NEVER)


def held_makings():
    held("a plan that breaks 25 has a view", S, BREAKS_25, (4, 5, 0), (4, 0, 2))
    held("release 3 for thread 0: refused by 12", S, BREAKS_12, (5, 0, 7), NEVER, refused="12 0 0")
    held("bit 3 at tick 7: refused by 14", S, BREAKS_14, (0, 7, 5), NEVER, refused="14 7 0")
    held("temporal mask 2 in activity 1's row: refused by 7", BREAKS_7, S_PLAN, (5, 0, 3), NEVER, refused="7 1 0")
    held("no plan", S, b"", (0, 1, 2), NEVER, refused="8 0 0")
    held("no model", b"", S_PLAN, (0, 5, 3), NEVER, refused="1 0 0")


def held_largest():
    held("the largest records: the last tick, the horizon, the first tick", FULL, FULL_PLAN, (4095, 4096, 0),
         (255 << 24, PAST, 255))


SECTIONS = (ticks, makings, largest, held_ticks, held_makings, held_largest)
