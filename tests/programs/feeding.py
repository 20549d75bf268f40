"""What the scripts that feed a built program share: the ways to start it, and the cases that several programs have.

The first difference ends the script with a message and a status that is not 0.
"""
import os
import pathlib
import signal
import subprocess
import sys
import tempfile
import threading
import time

os.chdir(pathlib.Path(__file__).resolve().parent.parent.parent)
LIMIT = 17189  # "at most 17,189 bytes of standard input"
WAIT = 20  # seconds after which a program counts as hanging
MODEL = pathlib.Path("samples/S.model").read_bytes()
CHOICE = pathlib.Path("samples/S.choice").read_bytes()
GANGS = pathlib.Path("samples/G.model").read_bytes()


def be(value, size):
    return value.to_bytes(size, "big")


def in_pieces(data, size):
    return [data[at:at + size] for at in range(0, len(data), size)]


def patched(record, at, new):
    """A record with other bytes in place from a position on."""
    return record[:at] + bytes(new) + record[at + len(new):]


def with_period(period):
    """S's pair, thread 1's period range 5..8 and this one chosen."""
    return patched(MODEL, 20, be(5, 2)) + patched(CHOICE, 13, be(period, 2))


def run_refused(number, a=0, b=0):
    """The last line of gridrun and of gridlate where the run is refused."""
    return b"run refused %d %d %d\n" % (number, a, b)


def largest_model(ticks, priorities=bytes(8), periods=bytes(8), version=1):
    """The longest model of a version, 570, 603 or 635 bytes: 8 cores, 8 threads, 32 activities of so many ticks, H 4096. No
    predecessors, from version 2 on one round without loops, and in version 3 each activity takes all cores."""
    length, rounds, last = [(570, b"", b""), (603, b"\x01", b"\xff"), (635, b"\x01", b"\xff\x08")][version - 1]
    threads = (be(period, 2) + be(period, 2) + bytes(4) + be(p, 2) for p, period in zip(priorities, periods))
    model = be(length, 4) + bytes([version, 8, 8, 32]) + be(4096, 2) + rounds + b"".join(threads)
    return model + b"".join(bytes([a % 8]) + be(ticks, 2) + be(ticks, 2) + bytes(10) + last for a in range(32))


def largest_pair(ticks, priorities=bytes(8), periods=bytes(8), version=1):
    """The longest model of a version and its choice, of 103 bytes. All releases are 0."""
    choice = be(103, 4) + bytes([1, 8, 32]) + b"".join(bytes(2) + be(period, 2) for period in periods)
    return largest_model(ticks, priorities, periods, version) + choice + 32 * be(ticks, 2)


def largest_words(ticks, version=1):
    """Its words where all priorities are equal: activities 0 to 7 first, then 8 to 15, and so on; in version 3 one by
    one."""
    abreast = 1 if version == 3 else 8
    first = (1 << abreast) - 1
    return [first << abreast * (t // ticks) if t < 32 // abreast * ticks else 0 for t in range(4096)]


def stopped(program):
    """Stops the program, and lets it go on."""
    program.send_signal(signal.SIGSTOP)
    time.sleep(0.01)
    program.send_signal(signal.SIGCONT)


def shown(data):
    return repr(data) if len(data) <= 200 else "%r .. (%d bytes)" % (data[:200], len(data))


class Fed:
    """The built program of a name, or the one that the command line names, relative to the repository's root."""

    def __init__(self, name):
        self.name = name
        self.path = os.path.join(".", sys.argv[1] if len(sys.argv) > 1 else "crates/%s/out/%s" % (name, name))
        self.done = 0
        if not os.path.isfile(self.path) or not os.access(self.path, os.X_OK):
            self.fail("no program %s; rt ci builds it, and so does rt run in crates/%s" % (self.path, name))

    def fail(self, message):
        sys.exit("check-%s: %s" % (self.name, message))

    def expect(self, what, ended, expected):
        """Both are the status, what stands on standard output and what stands on standard error; of the last, a word that
        its one line contains is expected, or None where nothing may stand there."""
        status, said, errors = ended
        ends_with, printed, message = expected
        if said != printed:
            self.fail("%s: expected %s, but it printed %s" % (what, shown(printed), shown(said)))
        if errors != b"" if message is None else message not in errors or errors.count(b"\n") != 1:
            self.fail("%s: expected on standard error %r, but it has %s" % (what, message or b"", shown(errors)))
        if status != ends_with:
            self.fail("%s: the program ended with %d" % (what, status))
        self.done += 1

    def started(self, what, command, expected, **options):
        options = {"stdout": subprocess.PIPE, "stderr": subprocess.PIPE, **options}
        try:
            ended = subprocess.run(command, timeout=WAIT, **options)
        except subprocess.TimeoutExpired:
            self.fail("%s: the program hangs" % what)
        self.expect(what, (ended.returncode, ended.stdout or b"", ended.stderr), expected)

    def left(self, what, program, read):
        """What a program that was started leaves, its standard output by read, and its status."""
        hanging = threading.Timer(WAIT, program.kill)
        hanging.start()
        said, errors = read(), program.stderr.read()
        status = program.wait()
        if not hanging.is_alive():
            self.fail("%s: the program hangs" % what)
        hanging.cancel()
        program.stderr.close()
        return status, said, errors

    def run(self, what, data, printed):
        """The program on bytes that stand ready."""
        self.started(what, [self.path], (0, printed, None), input=data)

    def shell(self, what, command, message):
        """The program, which is $0, under a shell command that opens or closes its descriptors; it prints nothing."""
        self.started(what, ["sh", "-c", command, self.path], (0, b"", message), stdin=subprocess.DEVNULL)

    def fed(self, what, pieces, printed, close=True, between=None):
        """The program on a pipe that is filled piece by piece; the end comes before or only after the answer."""
        program = subprocess.Popen([self.path], stdin=subprocess.PIPE, stdout=subprocess.PIPE, stderr=subprocess.PIPE)
        try:
            for piece in pieces:
                program.stdin.write(piece)
                program.stdin.flush()
                time.sleep(0.005)
                if between is not None:
                    between(program)
        except BrokenPipeError:
            self.fail("%s: the program ended before its input" % what)
        if close:
            program.stdin.close()
        self.expect(what, self.left(what, program, program.stdout.read), (0, printed, None))
        for end in (program.stdin, program.stdout):
            end.close()

    def refused_neighbours(self):
        """Neighbours of S for which gridrun and gridlate print the last line alone."""
        self.run("S with H 5", patched(MODEL, 8, be(5, 2)) + CHOICE, run_refused(42, 2))
        self.run("release 3 for thread 0", MODEL + patched(CHOICE, 7, be(3, 2)), run_refused(12))
        self.run("duration 3 for activity 0", MODEL + patched(CHOICE, 15, be(3, 2)), run_refused(13))
        self.run("a model of version 4", patched(MODEL, 4, [4]) + CHOICE, run_refused(2))
        self.run("version 3 in the record of version 1", patched(MODEL, 4, [3]) + CHOICE, run_refused(4))
        self.run("width 3 of 2 cores in activity 1's row", patched(GANGS, 74, [3]) + CHOICE, run_refused(57, 1))
        self.run("temporal mask 2 in activity 1's row", patched(MODEL, 52, be(2, 4)) + CHOICE, run_refused(7, 1))

    def parts(self, pair, refused):
        """Where the two records part; refused gives what is printed of a number with place 0 0."""
        def first_length(value):
            return be(value, 4) + pair[4:]

        self.run("nothing", b"", refused(1))
        self.run("a model alone", MODEL, refused(8))
        self.run("a model less a byte", MODEL[:-1], refused(1))
        for n in range(1, 4):
            self.run("%d bytes, too few for a length" % n, bytes(n), refused(1))
        for n in range(4):
            self.run("a first length of %d" % n, first_length(n), refused(1))
            self.run("a first length of %d and nothing behind it" % n, be(n, 4), refused(1))
        self.run("a first length of 4 and nothing behind it", be(4, 4), refused(1))
        self.run("a first length that reaches the end", first_length(len(pair)), refused(4))
        self.run("a first length that passes the end", first_length(len(pair) + 1), refused(1))
        self.run("the largest first length", first_length(2 ** 32 - 1), refused(1))

    def limit(self, second, refused):
        """What follows 17,189 bytes is not read; refused gives what is printed of a number with place 0 0."""
        def first_length(value, size):
            return (be(value, 4) + MODEL[4:] + second).ljust(size, b"\0")

        def second_length(value, size):
            return (MODEL + be(value, 4) + second[4:]).ljust(size, b"\0")

        for n in (LIMIT - 1, LIMIT, LIMIT + 1, 100000):
            self.run("S's model and zeros, %d bytes" % n, MODEL.ljust(n, b"\0"), refused(8))
            self.run("S's pair and zeros, %d bytes" % n, (MODEL + second).ljust(n, b"\0"), refused(8))
            # a second length that holds at the limit only: 11, its length differs from its formula, and not 8
            self.run("a second record up to the limit, %d bytes" % n, second_length(LIMIT - len(MODEL), n),
                     refused(8 if n < LIMIT else 11))
            # one that would hold if the byte behind the limit were read
            self.run("a second record past the limit, %d bytes" % n, second_length(LIMIT + 1 - len(MODEL), n), refused(8))
            # the same of the first record: 4 and not 1
            self.run("a first record up to the limit, %d bytes" % n, first_length(LIMIT, n),
                     refused(1 if n < LIMIT else 4))
            self.run("a first record past the limit, %d bytes" % n, first_length(LIMIT + 1, n), refused(1))
        self.fed("a second record up to the limit, in pieces, the pipe left open",
                 in_pieces(second_length(LIMIT - len(MODEL), LIMIT), 4000), refused(11), close=False)
        with tempfile.TemporaryFile() as file:
            file.write(MODEL.ljust(100000, b"\0"))
            file.seek(0)
            self.started("a file of 100,000 bytes", [self.path], (0, refused(8), None), stdin=file)
            if os.lseek(file.fileno(), 0, os.SEEK_CUR) != LIMIT:
                self.fail("a file of 100,000 bytes: it is not left at the limit")

    def unreadable(self, pair):
        """An input that cannot be read: a message, and nothing on standard output."""
        message = b"%s: standard input: " % self.name.encode()
        self.shell("a closed standard input", 'exec "$0" <&-', message)
        self.shell("a directory as standard input", 'exec "$0" <samples', message)
        read_end, write_end = os.pipe()
        os.set_blocking(read_end, False)
        os.write(write_end, pair)
        self.started("a read that fails behind S's pair", [self.path], (0, b"", message), stdin=read_end)
        os.close(read_end)
        os.close(write_end)

    def unwritable(self, pair, files):
        """An output that cannot be written: a message where there is room for one. The files have the pair's bytes."""
        message = b"%s: standard output: " % self.name.encode()
        feed = "cat %s | " % files
        self.shell("a closed standard output", feed + '"$0" >&-', message)
        self.shell("a full standard output", feed + '"$0" >/dev/full', message)
        self.shell("closed standard output and standard error", feed + '"$0" >&- 2>&-', None)
        # a program that rt builds ignores the signal from its start on
        for how, action in (("ignored", signal.SIG_IGN), ("left", signal.SIG_DFL)):
            self.unread(how, action, pair, (0, b"", message))

    def unread(self, how, action, pair, expected):
        """The program writes to a pipe that nobody reads."""
        read_end, write_end = os.pipe()
        os.close(read_end)
        self.started("a pipe that nobody reads, its signal " + how, [self.path], expected, input=pair, stdout=write_end,
                     restore_signals=False, preexec_fn=lambda: signal.signal(signal.SIGPIPE, action))
        os.close(write_end)

    def print_done(self):
        print("check-%s: %d cases as expected" % (self.name, self.done))
