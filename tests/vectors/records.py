"""The records of the stored cases, from their values."""


def number(size, value):
    return value.to_bytes(size, "big")


def record(version, body):
    return number(4, 5 + len(body)) + number(1, version) + body


def mask(numbers):
    return sum(1 << b for b in numbers)


def thread(priority, release=(0, 0), period=(0, 0)):
    return b"".join(number(2, x) for x in (*period, *release, priority))


def activity(owner, duration=(1, 1), delay=0, temporal=(), data=()):
    fields = number(1, owner) + number(2, duration[0]) + number(2, duration[1]) + number(2, delay)
    return fields + number(4, mask(temporal)) + number(4, mask(data))


def model(cores, horizon, threads, activities, version=1):
    head = number(1, cores) + number(1, len(threads)) + number(1, len(activities)) + number(2, horizon)
    return record(version, head + b"".join(threads) + b"".join(activities))


def plan(chosen, grid, rows=None, version=1):
    """chosen: (release, period) of each thread. grid: a word for each tick. rows: (start, end) of each activity, by
    default its first active tick and the tick after its last."""
    if rows is None:
        count = max(grid).bit_length()
        ticks = [[t for t, word in enumerate(grid) if word >> a & 1] for a in range(count)]
        rows = [(on[0], on[-1] + 1) for on in ticks]
    head = number(1, len(chosen)) + number(1, len(rows)) + number(2, len(grid))
    pairs = b"".join(number(2, x) + number(2, y) for x, y in [*chosen, *rows])
    return record(version, head + pairs + b"".join(number(4, word) for word in grid))


def choice(chosen, durations, version=1):
    """chosen: (release, period) of each thread. durations: of each activity."""
    head = number(1, len(chosen)) + number(1, len(durations))
    pairs = b"".join(number(2, x) + number(2, y) for x, y in chosen)
    return record(version, head + pairs + b"".join(number(2, d) for d in durations))


def wrapped(series, issue, flag, model_bytes):
    """A model wrapped for exchange; flag: 1 for a withdrawn page, 0 for a live one."""
    return record(1, number(4, series) + number(2, issue) + number(1, flag) + model_bytes)


def put(bytes_, at, size, value):
    return bytes_[:at] + number(size, value) + bytes_[at + size :]


def longer(bytes_):
    """One byte more, and the length that counts it."""
    return number(4, len(bytes_) + 1) + bytes_[4:] + b"\0"


def sized(bytes_):
    """A record as the files of cases hold it, behind its length."""
    return number(4, len(bytes_)) + bytes_


FREE = (0, 0)  # release 0 and no deadline

# Model S

S_THREADS = [thread(5, release=(0, 2)), thread(3, period=(8, 8))]
S_ACTIVITIES = [
    activity(0, (1, 2)),
    activity(1, (2, 3), delay=1),
    activity(1, (1, 1), temporal=[1], data=[0]),
]
S_CHOSEN = [(1, 0), (0, 8)]
S_GRID = [2, 1, 1, 2, 0, 4, 0, 0]
S_ROWS = [(1, 3), (0, 4), (5, 6)]


def s_model(cores=1, horizon=8, threads=None, activities=None, version=1):
    return model(cores, horizon, threads or S_THREADS, activities or S_ACTIVITIES, version)


def s_plan(grid=None, chosen=None, rows=None, version=1):
    return plan(chosen or S_CHOSEN, grid or S_GRID, rows, version=version)


def replaced(items, at, item):
    return [*items[:at], item, *items[at + 1 :]]


S = s_model()
S_PLAN = s_plan()
S_LATE = s_model(threads=replaced(S_THREADS, 1, thread(3, period=(5, 8))))
S_DURATIONS = [2, 2, 1]
S_CHOICE = choice(S_CHOSEN, S_DURATIONS)
