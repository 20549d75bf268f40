"""The stored cases of the run in which priorities are equal, or several activities are owed or late.

"Rank the ready by priority, highest first, then by lower activity number."
"""
from records import FREE, activity, choice, model, thread
from runs import accepted, buffer, cleared, part

BY_THREAD = "ties by the lower thread number"
STAYS = "a tie leaves the core to the one that has it"


def between_threads():
    part("ties between threads")
    two = [thread(5), thread(5)]
    crossed = model(1, 2, two, [activity(1), activity(0)])
    accepted("activity 0 of thread 1, activity 1 of thread 0: words 1, 2", crossed, [FREE] * 2, [1, 1], buffer(40),
             [1, 2], "2 2 2", BY_THREAD)
    four = model(2, 2, two, [activity(1), activity(0), activity(1), activity(0)])
    accepted("four on two cores, threads 1, 0, 1, 0: words 3, 12", four, [FREE] * 2, [1] * 4, buffer(48), [3, 12],
             "4 4 2", BY_THREAD)
    urgent = model(2, 2, [*two, thread(9)], [activity(1), activity(0), activity(2)])
    accepted("a more urgent one of a higher number besides: words 5, 2", urgent, [FREE] * 3, [1] * 3, buffer(48), [5, 2],
             "3 4 2", "the number before the priority")
    # activity 1 has the core at tick 0; activity 0 is released at tick 1
    released = model(1, 4, [thread(5), thread(5, release=(1, 1))], [activity(1), activity(0, (3, 3))])
    accepted("a lower number, of a higher thread number, is released at 1: words 2, 1, 2, 2", released, [FREE, (1, 0)],
             [1, 3], buffer(48), [2, 1, 2, 2], "4 4 4", STAYS)


def inside_a_thread():
    part("ties inside a thread")
    pair = model(1, 3, [thread(5)], [activity(0, (2, 2)), activity(0)])
    accepted("two ticks of activity 0, one of activity 1: words 1, 1, 2", pair, [FREE], [2, 1], buffer(40), [1, 1, 2],
             "3 3 3", "the shorter first, or in turns")
    # activity 0 ends at 1, and with its delay 2 activity 1 is ready at 3
    freed = model(1, 5, [thread(5)], [activity(0, delay=2), activity(0, temporal=[0]), activity(0, (3, 3))])
    accepted("a lower number is ready at 3: words 1, 4, 4, 2, 4", freed, [FREE], [1, 1, 3], buffer(48), [1, 4, 4, 2, 4],
             "5 5 5", STAYS)


def several():
    part("several activities owed, or late")
    # activity 3 runs, then activity 1; 0 and 2 are owed, 2 the more urgent
    owed = model(1, 2, [thread(1), thread(3), thread(2), thread(4)], [activity(a) for a in range(4)])
    cleared("activities 0 and 2 are owed", owed, choice([FREE] * 4, [1] * 4), buffer(52), 49, "42 0 0",
            "the highest A in 42, or the most urgent")
    # words 2, 2, 1: ends 3 and 2, both past 1; activity 0 is thread 1's, activity 1 is thread 0's
    both = model(1, 4, [thread(2, period=(1, 1)), thread(1, period=(1, 1))], [activity(1), activity(0, (2, 2))])
    cleared("activity 1 ends at 2 and activity 0 at 3, past 1", both, choice([(0, 1)] * 2, [1, 2]), buffer(44), 41,
            "43 0 0", "the highest A in 43, or the first to be late")


SECTIONS = (between_threads, inside_a_thread, several)
