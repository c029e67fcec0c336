#!/usr/bin/env python3
"""Inputs, outputs, calls of the system and allocations that fail, for pathtool and upath; and large
inputs.

Inputs are made here with their expected answers, except pathtool's stored input. Needs bash, to
limit an address space, and cc for interrupt_call.c and refuse_request.c, which change one call.
"""
import collections
import contextlib
import itertools
import os
import random
import re
import subprocess
import sys
import tempfile
import threading
import time
import tty

from support import PROGRAM, UPATH, Case, main, needs, read, shim

SECONDS = 100
PIPES = {"stdout": subprocess.PIPE, "stderr": subprocess.PIPE}
READ, WRITE, MEMORY = b"read error\n", b"write error\n", b"out of memory\n"
# The exit statuses of a program for which the system or the loader has too little memory.
NOT_STARTED = (127, 126, -9, -11, 137, 139)
LIMITS = 20
# The number of bytes that pathtool reads at a time, and the size of the buffer of Rust's BufWriter.
CHUNK, BUFFER = 65536, 8192
# To change a call is to interrupt it, to make it fail, or to let a write accept no byte. If there
# are more calls than MOST_CALLS, only the first FIRST_CALLS and the last are changed.
MOST_CALLS, FIRST_CALLS = 150, 12
COUNTS = re.compile(rb"(.*)reads: (\d+), writes: (\d+)\n", re.S)
LINE, ANSWER = b"parts\t///foo///bar\n", b"/\tfoo\tbar\n"


def copies(line, answer):
    """Returns a function that makes an input of this many lines, and their answers."""
    return lambda count: (line * count, answer * count)


def numbered(count):
    """Returns this many lines, which each command of upath below answers with themselves."""
    lines = b"".join(b"a/%06d\n" % it for it in range(count))
    return lines, lines


# A program as it is run: its name; its words; a function that makes an input of that many lines,
# and their answers; its status if something fails; what its messages begin with; and what it says
# of a pipe without a reader.
Tool = collections.namedtuple("Tool", "name words lines status head no_reader")
PATHTOOL = Tool("pathtool", [PROGRAM], copies(LINE, ANSWER), 1, b"", WRITE)
CANON = Tool("upath canon", [UPATH, "canon"], copies(b"a//b\n", b"a/b\n"), 3, b"upath: ", b"")
SORT, UNIQ = (CANON._replace(name=f"upath {it}", words=[UPATH, it], lines=numbered)
              for it in ("sort", "uniq"))
TOOLS = [PATHTOOL, CANON, SORT, UNIQ]

# Commands of upath whose allocations fail one after the other.
REFUSED = [
    "canon", "canon -p a//b c", "resolve", "parent", "name", "stem", "ext", "parts", "parts -b",
    "join a", "join --beneath a", "join --in-root a", "join --verbatim a", "strip a", "relative a",
    "relative --from=a", "key", "unkey", "unkey -z", "escapes", "escapes -v --reason", "under a",
    "under --strip -v a", "under --by-components a", "sort", "sort -ur", "sort b a a/.", "uniq",
    "uniq b a a/.", "equal a b", "--help", "--version", "canon --nul", "canon --help", "archive",
    "archive --closed --reason",
]


def run(words, **more):
    """Returns the status, standard output and standard error of a run."""
    found = subprocess.run(words, timeout=SECONDS, check=False, **{**PIPES, **more})
    return found.returncode, found.stdout, found.stderr


def from_file(words, data, **more):
    """Returns the same for a run whose input is a file."""
    with tempfile.TemporaryFile() as file:
        file.write(data)
        file.seek(0)
        return run(words, stdin=file, **more)


def limited(words, kibibytes, data):
    """Returns the same for a run in an address space of this size."""
    line = ["bash", "-c", 'ulimit -v "$1" && shift && exec "$@"', "bash", str(kibibytes), *words]
    return from_file(line, data)


def feed(pipe, data, step=None):
    """Writes the data, this many bytes at a time, and stops if the program no longer reads."""
    try:
        for at in range(0, len(data), step or len(data)):
            pipe.write(data[at:at + (step or len(data))])
            pipe.flush()
        pipe.close()
    except BrokenPipeError:
        pass


@contextlib.contextmanager
def fed(tool, data, step=None):
    """Yields the running program, with a pipe at each end, while a thread feeds it. It is killed
    after SECONDS."""
    with subprocess.Popen(tool.words, stdin=subprocess.PIPE, **PIPES) as process:
        watch = threading.Timer(SECONDS, process.kill)
        watch.daemon = True
        watch.start()
        feeder = threading.Thread(target=feed, args=(process.stdin, data, step))
        feeder.start()
        yield process
        feeder.join()


def random_bytes(count):
    return random.Random(20).getrandbits(8 * count).to_bytes(count, "little")


def least(is_enough, low, high):
    """Returns the least number above `low` that is enough, if `high` is enough."""
    while low + 1 < high:
        middle = (low + high) // 2
        low, high = (low, middle) if is_enough(middle) else (middle, high)
    return high


def numbers(count):
    """Returns the numbers of the calls that are changed, of this many."""
    if count > MOST_CALLS:
        return [*range(1, FIRST_CALLS + 1), count]
    return range(1, count + 1)


class Faults(Case):
    """Rows of a program with an end that fails."""

    def same(self, found, wanted):
        """Fails if a run was otherwise. Shows the beginning of long outputs."""
        if found != wanted:
            short = [[it[:80] if isinstance(it, bytes) else it for it in one]
                     for one in (found, wanted)]
            self.fail(f"{short[0]} instead of {short[1]}")


class Ends(Faults):
    """Inputs and outputs that fail."""

    def test_full_output(self):
        """Standard output accepts no byte. The program fails if it has something to write."""
        for tool, count in itertools.product(TOOLS, (1, 100_000, 0)):
            with self.row("a full output", tool.name, count), open("/dev/full", "wb") as full:
                fails = (tool.status, None, tool.head + WRITE)
                self.same(run(tool.words, input=tool.lines(count)[0], stdout=full),
                          fails if count else (0, None, b""))
        with self.row("a full output, pathtool, an empty line"), open("/dev/full", "wb") as full:
            self.same(run([PROGRAM], input=b"\n", stdout=full), (1, None, WRITE))

    def test_full_error_output(self):
        """The message can't be written either, and the status stays the same."""
        for tool in TOOLS:
            with self.row("a full error output", tool.name), open("/dev/full", "wb") as full:
                found = run(tool.words, input=tool.lines(1)[0], stdout=full, stderr=full)
                self.same(found, (tool.status, None, None))

    def test_closed_output(self):
        for tool in TOOLS:
            with self.row("a closed output", tool.name):
                found = run(tool.words, input=tool.lines(100)[0], stdout=None,
                               preexec_fn=lambda: os.close(1))
                self.same(found, (tool.status, None, tool.head + WRITE))

    def test_no_reader(self):
        """The reader of a pipe closes it before the program starts."""
        for tool in TOOLS:
            with self.row("a pipe without a reader", tool.name):
                reader, writer = os.pipe()
                os.close(reader)
                found = run(tool.words, input=tool.lines(100)[0], stdout=writer)
                os.close(writer)
                self.same(found, (tool.status, None, tool.no_reader))

    def test_reader_goes_away(self):
        """The reader of a pipe reads some bytes of more than the pipe can hold, and closes it."""
        for tool in TOOLS:
            data, answers = tool.lines(100_000)
            with self.row("a reader that goes away", tool.name), fed(tool, data) as process:
                begun = process.stdout.read(3)
                process.stdout.close()
                found = process.wait(), begun, process.stderr.read()
                self.same(found, (tool.status, answers[:3], tool.no_reader))

    def test_no_input(self):
        """The input is closed, or is a directory."""
        for tool in TOOLS:
            fails = (tool.status, b"", tool.head + READ)
            with self.row("a closed input", tool.name):
                self.same(run(tool.words, preexec_fn=lambda: os.close(0)), fails)
            with self.row("a directory", tool.name):
                folder = os.open("/", os.O_RDONLY)
                self.same(run(tool.words, stdin=folder), fails)
                os.close(folder)

    def test_cut_off_input(self):
        """An input that fails after some lines: `sort` prints nothing, and other commands answer
        the lines before. The input is a terminal whose other end closes."""
        for words, wanted in [("canon", b"b/a\nc\nb/a\n"), ("sort", b""), ("sort -u", b""),
                              ("uniq", b"b//a\nc\n")]:
            with self.row("an input that is cut off, upath", words):
                reader, writer = os.openpty()
                tty.setraw(writer)
                os.write(writer, b"b//a\nc\nb/a\na")
                os.close(writer)
                found = run([UPATH, *words.split()], stdin=reader)
                os.close(reader)
                self.same(found, (3, wanted, b"upath: read error\n"))

    def test_whole_inputs(self):
        """Inputs without a line, with an empty line, and without a newline at the end."""
        for data, answers in [(b"", b""), (b"\n", b"bad command\n"), (b"parts\ta", b"a\n"),
                              (b"parts\ta\nparts\t./b", b"a\n.\tb\n"),
                              (b"parts\ta\n\n", b"a\nbad command\n")]:
            with self.row("pathtool", data):
                self.same(run([PROGRAM], input=data), (0, answers, b""))

    def test_input_by_bytes(self):
        for tool in TOOLS:
            data, answers = tool.lines(1500)
            with self.row("input byte by byte", tool.name), fed(tool, data, 1) as process:
                output, error = process.stdout.read(), process.stderr.read()
                self.same((process.wait(), output, error), (0, answers, b""))

    def test_slow_reader(self):
        """Reads a few bytes at a time, of more than a pipe holds, with pauses."""
        for tool in TOOLS:
            data, answers = tool.lines(40_000)
            with self.row("a slow reader", tool.name), fed(tool, data) as process:
                output = b""
                for count in [1] * 50 + [997] * 150:
                    time.sleep(0.001)
                    output += os.read(process.stdout.fileno(), count)
                output += process.stdout.read()
                self.same((process.wait(), output, process.stderr.read()), (0, answers, b""))


class Large(Faults):
    """Large inputs of pathtool."""

    def test_random_input(self):
        """50 MB of random bytes, in which no line is a command."""
        data = random_bytes(50_000_000)
        count = data.count(b"\n") + (not data.endswith(b"\n"))
        self.same(run([PROGRAM], input=data), (0, b"bad command\n" * count, b""))

    def test_random_paths(self):
        """50 MB of random bytes, with a path to show on each line."""
        lines = random_bytes(50_000_000).split(b"\n")
        answers = [b"bad command" if b"\t" in line else line.decode(errors="replace").encode()
                   for line in lines]
        data = b"".join(b"show\t" + line + b"\n" for line in lines)
        self.same(run([PROGRAM], input=data), (0, b"\n".join(answers) + b"\n", b""))

    def test_no_newline(self):
        """100 MB without a newline: many components, and then no command."""
        count = 50_000_000
        self.same(run([PROGRAM], input=b"parts\t" + b"a/" * count),
                  (0, b"a\t" * (count - 1) + b"a\n", b""))
        self.same(run([PROGRAM], input=b"/." * count), (0, b"bad command\n", b""))


def growing_answers():
    """Returns some lines with answers of growing lengths, the last of 32 MB."""
    data = answers = b""
    for names in [2 ** power for power in range(4, 13)]:
        whole = b"/".join([b"name"] * names)
        data += b"ancestors\t" + whole + b"\n"
        answers += b"\t".join(whole[:5 * count - 1] if count else b""
                              for count in range(names, -1, -1)) + b"\n"
    return data, answers


@needs("bash")
class Memory(Faults):
    """Runs in a small address space."""

    def test_pathtool(self):
        """Memory runs out while lines are read, and while answers are made."""
        with self.row("little memory to read"):
            self.with_limits(*PATHTOOL.lines(8_000_000 // len(LINE)))
        with self.row("little memory to answer"):
            self.with_limits(*growing_answers())

    def with_limits(self, data, answers):
        """Runs pathtool with memory limits, from what an empty program needs to what this one
        needs. The system places the heap differently from run to run, so a limit just below what
        is enough may sometimes be enough."""
        whole = (0, answers, b"")
        self.same(run([PROGRAM], input=data), whole)
        low = least(lambda limit: limited(["/bin/true"], limit, b"")[0] == 0, 0, 1 << 20)
        enough = least(lambda limit: limited([PROGRAM], limit, data) == whole, low, 1 << 20)
        limits = [low + (enough - 1 - low) * place // (LIMITS - 1) for place in range(LIMITS)]
        short = sum(self.is_short(limit, place, data, answers)
                    for place, limit in enumerate(limits))
        self.assertGreaterEqual(short, LIMITS - 4, f"limits of {limits} that are too low")

    def is_short(self, limit, place, data, answers):
        """Returns true if pathtool ends for lack of memory, after a beginning of the answers."""
        status, output, error = found = limited([PROGRAM], limit, data)
        if (status, error) == (1, MEMORY) and answers.startswith(output):
            return True
        is_unborn = place < 2 and status in NOT_STARTED and not output and not error.endswith(
            (READ, WRITE, MEMORY))
        if not is_unborn:
            self.same(found, (0, answers, b""))
        return False

    def test_upath(self):
        """A long line, and more paths than `sort` or `uniq` can keep."""
        short = b"".join(b"a/%d\n" % it for it in range(2_000_000))
        for name, data, what in [
                ("canon", b"a" * 100_000_000, "a long line"), ("sort", short, "many paths"),
                ("uniq", short, "many paths"), ("sort", b"a\n" * 20_000_000, "one path"),
                ("uniq", b"a" * 100_000_000, "a long line")]:
            with self.row("little memory, upath", name, what):
                status, output, error = limited([UPATH, name], 60000, data)
                self.same((status, error), (3, b"upath: out of memory\n"))
                is_prefix = data.startswith(output) and len(output) < len(data)
                self.assertTrue(not output or name == "uniq" and is_prefix, output[:99])


@needs("cc")
class Requests(Faults):
    """Each allocation of upath fails in turn: the status is 3, and the output a prefix."""

    def test_upath(self):
        preload = shim("refuse_request", self.folder)
        for line in REFUSED:
            self.refuse_each(line, preload)

    def refuse_each(self, line, preload):
        """Runs a command with its first allocation failing, then with its second, up to its last.
        Its input has paths that are answered and paths that are not."""
        words, data = [UPATH, *line.split()], b"b/../x\n/a//b\n\n..\n61006200\na/b\n/a/b\n"
        data = b"l\0x\0/a\0f\0x/b\0\0" if line.startswith("archive") else data
        whole = run(words, input=data)[1]
        for number in itertools.count(1):
            status, output, error = run(words, input=data, env={
                **os.environ, "LD_PRELOAD": preload, "REFUSED_REQUEST": str(number)})
            if b"refused: 0 bytes\n" in error:
                break
            with self.row("upath", line, "allocation", number):
                self.same((status, whole.startswith(output)), (3, True))
                self.assertIn(b"upath: out of memory\nrequests: ", error)
        with self.row("upath", line, "allocations"):
            self.assertGreater(number, 2)


def writes_of(answers, most):
    """Returns the writes of pathtool for these answers: for each its bytes, at most `most`, and the
    number of the buffer that held them. As in Rust's BufWriter, an answer of BUFFER bytes or more
    bypasses the buffer after the buffer is written, and has no number."""
    blocks = []
    for text in answers:
        while len(text) >= BUFFER:
            blocks.append((text[:most], False))
            text = text[most:]
        if blocks and blocks[-1][1] and len(blocks[-1][0] + text) <= BUFFER:
            blocks[-1] = blocks[-1][0] + text, True
        elif text:
            blocks.append((text, True))
    return [(block[at:at + most], number if is_held else None)
            for number, (block, is_held) in enumerate(blocks) for at in range(0, len(block), most)]


class Lines:
    """An input of pathtool, and the reads and writes of a run over it, each of at most `most`
    bytes."""

    def __init__(self, data, answers, most=None):
        self.data, self.most = data, most
        self.reads = -(-len(data) // (most or CHUNK)) + 1
        self.writes = writes_of(answers, most or sys.maxsize)

    def written(self, failed):
        """Returns what is written if the write with this number fails. When the buffer is dropped,
        it tries once more to write its contents, as Rust's does."""
        place = self.writes[failed - 1][1]
        left = [it for it in self.writes[failed - 1:] if place is not None and it[1] == place]
        return [taken for taken, _ in self.writes[:failed - 1] + left]

    def wanted(self, kind, call, number):
        """Returns what a run has to have if this call is changed: its status, its standard output,
        its standard error, and the numbers of its reads and of its writes."""
        if kind in ("counted", "interrupted"):
            output = b"".join(taken for taken, _ in self.writes)
            return (0, output, b"", self.reads + (call == "READ"),
                    len(self.writes) + (call == "WRITE"))
        if call == "READ":
            return 1, b"", READ, number, 0
        written = self.written(number)
        return 1, b"".join(written), WRITE, self.reads, len(written) + 1


def inputs():
    """Returns four inputs: the stored input; the same, read and written byte by byte; long answers,
    each after a short one; and, byte by byte, an answer whose first nine bytes bypass the buffer,
    which then holds the rest."""
    data, answers = read("crates/pathtool/stdin"), read("crates/pathtool/stdout").splitlines(True)
    names = BUFFER // 2 + 4
    return [Lines(data, answers), Lines(data, answers, 1),
            Lines((LINE + b"parts\t" + b"a/" * 5000 + b"\n") * 9,
                  [ANSWER, b"a\t" * 4999 + b"a\n"] * 9),
            Lines(b"parts\t" + b"a/" * names, [b"a\t" * (names - 1) + b"a\n"], 1)]


@needs("cc")
class Calls(Faults):
    """Each read and each write is changed once, also if each moves one byte."""

    def setUp(self):
        self.preload = shim("interrupt_call", self.folder)

    def counted(self, words, data, most, **changed):
        """Returns the status, standard output and error, reads and writes of a run with these
        variables, in which each call moves at most `most` bytes."""
        env = {**os.environ, "LD_PRELOAD": self.preload, **changed}
        env.update({"MOST_BYTES": str(most)} if most else {})
        status, output, error = from_file(words, data, env=env)
        made = COUNTS.fullmatch(error) or [error, error, 0, 0]
        return status, output, made[1], int(made[2]), int(made[3])

    def test_counted(self):
        """Each input of pathtool takes the expected number of reads and writes."""
        for lines in inputs():
            with self.row("counted, pathtool", len(lines.data), lines.most):
                self.same(self.counted([PROGRAM], lines.data, lines.most),
                          lines.wanted("counted", None, 0))

    def test_pathtool(self):
        """An interrupted call is made again; a run ends with a call that fails, and with a write
        that accepts no byte."""
        kinds = [("interrupted", "READ"), ("interrupted", "WRITE"), ("failed", "READ"),
                 ("failed", "WRITE"), ("empty", "WRITE")]
        for (kind, call), lines in itertools.product(kinds, inputs()):
            self.each(lambda number: self.same(
                self.counted([PROGRAM], lines.data, lines.most,
                             **{f"{kind.upper()}_{call}": str(number)}),
                lines.wanted(kind, call, number)),
                numbers(lines.reads if call == "READ" else len(lines.writes)))

    def test_upath(self):
        """The same for upath, whose output is a beginning of the answers if a call fails."""
        for tool, most in itertools.product((CANON, SORT, UNIQ), (None, 1)):
            data = tool.lines(30)[0]
            whole = self.counted(tool.words, data, most)
            self.same(whole[:3], (0, tool.lines(30)[1], b""))
            for call, number in [("READ", it) for it in numbers(whole[3])] + [
                    ("WRITE", it) for it in numbers(whole[4])]:
                with self.row("changed", tool.name, most, call, number):
                    self.change(tool, whole, call, number, most)

    def change(self, tool, whole, call, number, most):
        """Interrupts this call, and then lets it fail."""
        data = tool.lines(30)[0]
        found = self.counted(tool.words, data, most, **{f"INTERRUPTED_{call}": str(number)})
        self.same(found, (*whole[:3], whole[3] + (call == "READ"), whole[4] + (call == "WRITE")))
        for kind in ["FAILED"] + ["EMPTY"] * (call == "WRITE"):
            found = self.counted(tool.words, data, most, **{f"{kind}_{call}": str(number)})
            self.assertTrue(whole[1].startswith(found[1]), found)
            self.same((found[0], found[2]),
                      (tool.status, tool.head + (READ if call == "READ" else WRITE)))


if __name__ == "__main__":
    main()
