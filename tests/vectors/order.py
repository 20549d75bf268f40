"""The stored cases of the checks in which several rules or places are broken: which rule is named, and which place.

"The rules, each tried over everything before the next", "Each number is tried over all its rows before the next, lowest A
first". In each case below two places are broken, and the answer names the one that these sentences put first.
"""
from checks import alone, case, one_thread, part, priorities
from records import FREE, S, S_ACTIVITIES, S_CHOSEN, S_PLAN, S_THREADS
from records import activity, longer, model, plan, put, replaced, s_model, s_plan, thread


def form_rules():
    part("Which refusal comes first: 1 to 12")
    both = put(s_model(version=4), 0, 4, len(S) + 1)
    case("a model's length and version", both, S_PLAN, "refused 1 0 0", misread="2 before 1")
    case("c 0 and a byte behind the last row", longer(s_model(cores=0)), S_PLAN, "refused 3 0 0", misread="4 before 3")
    period = s_model(threads=replaced(S_THREADS, 1, thread(3, period=(9, 8))))
    case("a byte behind the last row, a thread row", longer(period), S_PLAN, "refused 4 0 0", misread="5 before 4")
    both = put(s_plan(version=2), 0, 4, len(S_PLAN) + 1)
    case("a plan's length and version", S, both, "refused 8 0 0", misread="9 before 8")
    both = s_plan(chosen=[*S_CHOSEN, FREE], version=2)
    case("a plan's version and n", S, both, "refused 9 0 0", misread="10 before 9")
    # 62 bytes; the formula asks for 61 with the model's H and for 65 with H 9
    both = longer(put(S_PLAN, 7, 2, 9))
    case("a plan's H and length", S, both, "refused 10 0 0", misread="11 before 10")
    both = longer(s_plan(chosen=[(3, 0), (0, 8)]))
    case("a byte behind the last word, release 3", S, both, "refused 11 0 0", misread="12 before 11")


def duration_and_deadline():
    part("Which rule comes first: 21 to 31")
    case(
        "activity 0 breaks 22 and 23",
        alone((1, 1), period=(1, 1)),
        plan([(0, 1)], [1, 1, 0, 0, 0, 0, 0, 0]),
        "refused 22 0 0",
        misread="23 before 22",
    )
    bounded = [thread(0, period=(1, 1)), thread(0)]
    case(
        "activity 0 breaks 23, activity 1 breaks 22",
        model(1, 4, bounded, [activity(0, (1, 5)), activity(1)]),
        plan([(0, 1), FREE], [1, 1, 2, 2]),
        "refused 22 1 0",
        misread="22 and 23 in one pass",
    )
    case(
        "activity 1 breaks 23 and 25",
        model(1, 4, bounded, [activity(1), activity(0, temporal=[0])]),
        plan([(0, 1), FREE], [0, 2, 1, 0]),
        "refused 23 1 0",
        misread="25 before 23",
    )
    case(
        "activity 1 breaks 25, activity 2 breaks 23",
        model(1, 4, bounded, [activity(1), activity(1, temporal=[0]), activity(0)]),
        plan([(0, 1), FREE], [2, 1, 4, 0]),
        "refused 23 2 0",
        misread="23 and 25 in one pass",
    )


def start_and_cores():
    late = [thread(0), thread(0, release=(3, 3))]
    case(
        "activity 0 breaks 27, activity 2 breaks 26",
        model(1, 4, late, [activity(1), activity(0), activity(0, data=[1])]),
        plan([FREE, (3, 0)], [4, 1, 2, 0]),
        "refused 26 2 1",
        misread="26 and 27 in one pass",
    )
    case(
        "tick 0 breaks 28, activity 2 breaks 27",
        model(1, 4, late, [activity(0), activity(0), activity(1)]),
        plan([FREE, (3, 0)], [3, 4, 0, 0]),
        "refused 27 2 0",
        misread="27 and 28 in one pass",
    )
    # both wait at tick 0, where nothing is active
    case(
        "tick 0 breaks 30, tick 1 breaks 29",
        priorities(1, 3, 1, 2),
        plan([FREE] * 2, [0, 1, 2]),
        "refused 29 1 1",
        misread="29 and 30 in one pass",
    )


def thread_rows():
    part("Which place comes first: 5, 6, 7 and 12")
    period, release = thread(3, period=(9, 8)), thread(3, release=(1, 0))
    case(
        "thread row 0's period, row 1's release",
        s_model(threads=[period, release]),
        S_PLAN,
        "refused 5 0 0",
        misread="5 on all releases before any period",
    )
    case(
        "thread 0's period, thread 1's release",
        S,
        s_plan(chosen=[(1, 8), (1, 8)]),
        "refused 12 0 0",
        misread="12 on all releases before any period",
    )
    case(
        "thread 0's release, thread 1's period",
        S,
        s_plan(chosen=[(3, 0), (0, 9)]),
        "refused 12 0 0",
        misread="12 on all periods before any release",
    )
    case(
        "both releases",
        S,
        s_plan(chosen=[(3, 0), (1, 8)]),
        "refused 12 0 0",
        misread="the highest A in 12",
    )


def activity_rows():
    foreign, turned, none = activity(2), activity(0, (3, 2)), activity(0, (0, 3))
    last = S_ACTIVITIES[2]
    case(
        "row 0's durations 3..2, row 1's thread",
        s_model(activities=[turned, foreign, last]),
        S_PLAN,
        "refused 6 0 0",
        misread="6 on all threads before any duration",
    )
    case(
        "row 0's thread, row 1's duration 0",
        s_model(activities=[foreign, none, last]),
        S_PLAN,
        "refused 6 0 0",
        misread="6 on all durations before any thread",
    )
    case(
        "threads of rows 0 and 1",
        s_model(activities=[foreign, foreign, last]),
        S_PLAN,
        "refused 6 0 0",
        misread="the highest A in 6",
    )


def masks():
    def rows(second, third):
        return s_model(activities=[S_ACTIVITIES[0], activity(1, (2, 3), **second), activity(1, **third)])

    case(
        "row 1's data mask, row 2's temporal mask",
        rows({"data": [1]}, {"temporal": [2]}),
        S_PLAN,
        "refused 7 1 0",
        misread="7 on all temporal masks before any data mask",
    )
    case(
        "row 1's temporal mask, row 2's data mask",
        rows({"temporal": [1]}, {"data": [2]}),
        S_PLAN,
        "refused 7 1 0",
        misread="7 on all data masks before any temporal mask",
    )
    case(
        "the temporal masks of rows 1 and 2",
        rows({"temporal": [1]}, {"temporal": [2]}),
        S_PLAN,
        "refused 7 1 0",
        misread="the highest A in 7",
    )


def windows():
    part("Which place comes first: 21 to 31")
    # activity 0 is active at ticks 1 and 2, activity 2 at tick 5
    case(
        "activity 0's first bit, activity 2's start and end",
        S,
        s_plan(rows=[(0, 3), (0, 4), (5, 5)]),
        "refused 21 0 0",
        misread="start < end of all before any bit",
    )
    case(
        "activity 0's first bit, a bit of activity 2 outside",
        S,
        s_plan([2, 1, 1, 2, 0, 4, 4, 0], rows=[(0, 3), (0, 4), (5, 6)]),
        "refused 21 0 0",
        misread="none outside of all before the ends",
    )
    case(
        "a bit of activity 0 outside, activity 2's last bit",
        S,
        s_plan(rows=[(1, 2), (0, 4), (5, 7)]),
        "refused 21 0 0",
        misread="none outside of all after the ends",
    )
    case(
        "the starts of activities 0 and 2",
        S,
        s_plan(rows=[(0, 3), (0, 4), (4, 6)]),
        "refused 21 0 0",
        misread="the highest A in 21",
    )


def counts_and_deadlines():
    case(
        "activity 0 above its most, activity 1 below its least",
        S,
        s_plan([2, 1, 1, 1, 0, 4, 0, 0]),
        "refused 22 0 0",
        misread="22 on all least durations before any most",
    )
    case(
        "activity 0 below its least, activity 1 above its most",
        model(1, 4, [thread(0)], [activity(0, (2, 3)), activity(0)]),
        plan([FREE], [1, 2, 2, 0]),
        "refused 22 0 0",
        misread="22 on all most durations before any least",
    )
    case(
        "activities 0 and 1 above their most",
        one_thread(2),
        plan([FREE], [1, 1, 2, 2, 0, 0, 0, 0]),
        "refused 22 0 0",
        misread="the highest A in 22",
    )
    # ends 2 and 3, both past 1; activity 0 is thread 1's, activity 1 is thread 0's
    case(
        "activities 0 and 1 past their deadlines, of threads 1 and 0",
        model(1, 4, [thread(0, period=(1, 1))] * 2, [activity(1), activity(0)]),
        plan([(0, 1)] * 2, [0, 1, 2, 0]),
        "refused 23 0 0",
        misread="23 thread by thread, and the highest A",
    )


def starts():
    rows = [activity(0), activity(0), activity(0, data=[1]), activity(0, data=[0])]
    case(
        "activity 2 breaks 26 by 1, activity 3 by 0",
        model(1, 4, [thread(0)], rows),
        plan([FREE], [8, 4, 2, 1]),
        "refused 26 2 1",
        misread="the lowest B before the lowest A in 26, and the highest A",
    )
    case(
        "activity 1 starts at 0 and activity 0 at 1, both released at 2",
        model(1, 4, [thread(0, release=(2, 2))], [activity(0), activity(0)]),
        plan([(2, 0)], [2, 1, 0, 0]),
        "refused 27 0 0",
        misread="27 in the order of the starts, and the highest A",
    )
    case(
        "two ones at tick 0, three at tick 1",
        one_thread(5),
        plan([FREE], [3, 28, 0, 0, 0, 0, 0, 0]),
        "refused 28 0 0",
        misread="the fullest word in 28, and the highest A",
    )


def waiting():
    # Tick 0: 2 and 3 are above activity 0's priority, 1 is below. Tick 1: 1, 2 and 3 are above activity 4's.
    case(
        "29 at tick 0 by 2 and 3, at tick 1 by 1 too",
        priorities(1, 5, 5, 3, 7, 8, 1),
        plan([FREE] * 5, [1, 16, 8, 4, 2]),
        "refused 29 0 2",
        misread="the lowest B before the lowest A in 29",
    )
    late = [thread(1, release=(1, 1)), thread(1)]
    case(
        "30 at tick 0 by 1, at tick 1 by 0 too",
        model(1, 4, late, [activity(0), activity(1)]),
        plan([(1, 0), FREE], [0, 0, 1, 2]),
        "accepted 2 4 4",
        "refused 30 0 1",
        "the lowest B before the lowest A in 30",
    )
    # tick 0: activity 1 waits for activity 2; tick 1: activities 0, released at 1, and 1 wait for activity 3
    case(
        "31 at tick 0 by 1, at tick 1 by 0 too",
        model(1, 4, late, [activity(0), activity(1), activity(1), activity(1)]),
        plan([(1, 0), FREE], [4, 8, 1, 2]),
        "accepted 4 4 4",
        "refused 31 0 1",
        "the lowest B before the lowest A in 31",
    )


RULES = (form_rules, duration_and_deadline, start_and_cores)
PLACES = (thread_rows, activity_rows, masks, windows, counts_and_deadlines, starts, waiting)
SECTIONS = (*RULES, *PLACES)
