"""The stored cases of the checks from comet.txt: the solutions that source document 000 prints.

The figures are literals of comet.txt. All 30 are refused by the strict check with 31 0 0, worked out from its rules: at
tick 0 activity 5 holds the only core, while activity 0 waits, of the same priority and of a lower number; and where no
activity is active, each that has not ended awaits the delay of activity 3 or the end of activity 4.
"""
import pathlib

from checks import case, part
from records import activity, mask, model, plan, thread

SOLUTIONS = pathlib.Path(__file__).resolve().parent / "comet.txt"


def blocks():
    """The blocks of comet.txt but for the comment: a list of lines for each key."""
    for text in SOLUTIONS.read_text().split("\n\n")[1:]:
        block = {}
        for line in text.splitlines():
            key, _, rest = line.partition(" ")
            block.setdefault(key, []).append(rest.split())
        yield block


def highest(words):
    """What the solver left open is taken at its highest."""
    return [int(word.split("..")[-1]) for word in words]


def document_model(given, delays):
    def pairs(least, most):
        return list(zip(highest(given[least][0]), highest(given[most][0])))

    urgencies, owners = highest(given["priority"][0]), highest(given["thread"][0])
    periods, releases, durations = pairs("min_p", "max_p"), pairs("min_r", "max_r"), pairs("min_d", "max_d")

    def before(table, a):
        return [b for b, row in enumerate(given[table]) if row[a] == "1"]

    threads = [thread(p, release, period) for p, release, period in zip(urgencies, releases, periods)]
    activities = [
        activity(owner, durations[a], delays[a], before("tp", a), before("dd", a)) for a, owner in enumerate(owners)
    ]
    return model(int(given["c"][0][0]), int(given["horizon"][0][0]), threads, activities)


def document_plan(horizon, solution):
    ticks = [highest(row) for row in solution["act"]]
    grid = [mask(a for a, on in enumerate(ticks) if t in on) for t in range(horizon)]
    chosen = zip(highest(solution["r"][0]), highest(solution["p"][0]))
    rows = zip(highest(solution["start"][0]), highest(solution["end"][0]))
    return plan(list(chosen), grid, list(rows))


def document_case(given, solution):
    kind, value = solution["objective"][0]
    usage, capacity, makespan = solution["figures"][0]
    assert value == {"usage": usage, "makespan": makespan}[kind]
    case(
        f"solution {solution['solution'][0][0]}, {' '.join(solution['section'][0])}: {kind} {value}",
        document_model(given, highest(solution["delay"][0])),
        document_plan(int(given["horizon"][0][0]), solution),
        f"accepted {usage} {capacity} {makespan}",
        "refused 31 0 0",
    )


def solutions():
    part("The solutions that source document 000 prints, with the printed objective")
    given, *found = blocks()
    for solution in found:
        document_case(given, solution)
