"""For tools/try-sizes: texts of any length, what a case runs and what is expected of it, and its runs."""
import hashlib
import os
import resource
import shutil
import signal
import sys
import tempfile

# How long a run may take.
SECONDS = 600
MEGABYTE = 1 << 20
# How much of a text is in memory at once.
PIECE = 1 << 16
# The stack of most systems, and the most memory that a run may take.
STACK, MEMORY = 8 * MEGABYTE, 12 << 30

# ---- texts: bytes, or a list of parts, each bytes, or bytes and how often they are repeated, or a function that yields bytes


def repeated(piece, count):
    at_once = max(1, PIECE // max(1, len(piece)))
    while count > 0:
        yield piece * min(count, at_once)
        count -= at_once


def gathered(pieces):
    """Joins many short pieces."""
    short = []
    for piece in pieces:
        short.append(piece)
        if len(short) == 4096:
            yield b"".join(short)
            short = []
    yield b"".join(short)


def chunks(text):
    for part in [text] if isinstance(text, bytes) else text:
        if callable(part):
            yield from gathered(part())
        elif isinstance(part, tuple):
            yield from repeated(*part)
        else:
            yield part


class Sum:
    """What is compared of a text that is too long to be stored: its length, its hash, and its beginning."""

    def __init__(self, pieces=()):
        self.count, self.hash, self.front = 0, hashlib.blake2b(digest_size=16), b""
        for piece in pieces:
            self.add(piece)

    def add(self, piece):
        self.count += len(piece)
        self.hash.update(piece)
        self.front += piece[: 400 - len(self.front)]

    def equals(self, other):
        return self.count == other.count and self.hash.digest() == other.hash.digest()

    def __str__(self):
        return f"{self.count:,} bytes, {self.front[:300]!r}"


def file_pieces(path):
    with open(path, "rb") as file:
        yield from iter(lambda: file.read(PIECE), b"")


def put(path, text):
    with open(path, "wb") as file:
        for piece in chunks(text):
            file.write(piece)


# ---- what a case runs, and what is expected of it


class Task:
    """A run: the files to be made, the arguments of the program, and the expected status and texts."""

    def __init__(self, files, words, out=b"", status=0, error=b"", folder=None):
        self.files, self.words, self.folder = files, words, folder
        self.out, self.status, self.error = out, status, error
        self.program, self.stack, self.outputs, self.signals = "hbs", STACK, {}, False


def renders(source, data=b"null", out=b"", folder=None, strict=False):
    words = [*(["--strict"] if strict else []), "t.hbs", "d.json", *(["folder"] if folder else [])]
    return Task({"t.hbs": source, "d.json": data}, words, out, folder=folder)


def refused(task, error, status=1):
    task.status, task.error = status, error
    return task


def rendering_error(reason, line=1, column=1, name="Unnamed template"):
    parts = [reason] if isinstance(reason, bytes) else reason
    return [f'Error rendering "{name}" line {line}, col {column}: '.encode(), *parts, b"\n"]


def length_of(text):
    return sum(len(it[0]) * it[1] if isinstance(it, tuple) else len(it) for it in text)


def line_shown(content, column, number=0):
    """The line of a source with a syntax error, as the error shows it: with a character for each of its bytes below."""
    length = length_of(content)
    before = min(column, length)
    behind = [b"^", (b"-", length - column - 1)] if column < length else []
    return [b"%4d | " % number, *content, b"\n     |", (b"-", before), *behind, b"\n"]


def source_error(reason, line, column, shown):
    """What is printed for a source that doesn't compile. `shown` are the lines around the error, with numbers from 0."""
    reason = [reason] if isinstance(reason, bytes) else reason
    place = f'\n    --> Template error in "Unnamed":{line}:{column}\n     |\n'.encode()
    lines = [part for line in shown for part in line]
    front, behind = b"Failed to parse template Template error: ", b"     |\n     = reason: "
    return [front, *reason, place, *lines, behind, *reason, b"\n\n"]


def refused_line(message, source, column=1):
    """A source of one line that is rejected at a column."""
    reason = b"invalid handlebars syntax: " + message
    return refused(renders(source), source_error(reason, 1, column, [line_shown(source, column)]))


UNREADABLE, TOO_DEEP = b"unreadable tag", b"nesting too deep"

# ---- runs


class Ran:
    """The result of a run: its status, its output, the seconds of user time, and the peak memory in bytes."""

    def __init__(self, status, out, error, usage, late):
        self.status, self.out, self.error, self.late = status, out, error, late
        self.seconds, self.memory = usage.ru_utime, usage.ru_maxrss * 1024


def begin_child(program, task, room, out):
    """In the child: sets its folder, its outputs and its limits, and then executes the program."""
    try:
        os.chdir(room)
        os.dup2(out, 1)
        os.dup2(os.open("err", os.O_WRONLY | os.O_CREAT | os.O_TRUNC, 0o600), 2)
        for number, output in task.outputs.items():
            give_output(number, output)
        signal.signal(signal.SIGPIPE, signal.SIG_DFL if task.signals else signal.SIG_IGN)
        hard = resource.getrlimit(resource.RLIMIT_STACK)[1]
        resource.setrlimit(resource.RLIMIT_STACK, (task.stack, hard))
        resource.setrlimit(resource.RLIMIT_AS, (MEMORY, MEMORY))
        resource.setrlimit(resource.RLIMIT_CORE, (0, 0))
        os.execv(program, [program, *task.words])
    except Exception as cause:
        os.write(2, f"{program} can't be run: {cause}\n".encode())
    finally:
        os._exit(97)


def give_output(number, output):
    """An output that fails: closed, a full disk, or a pipe that nobody reads."""
    if output == "closed":
        os.close(number)
    elif output == "full":
        os.dup2(os.open("/dev/full", os.O_WRONLY), number)
    else:
        reads, writes = os.pipe()
        os.close(reads)
        os.dup2(writes, number)
        os.close(writes)


def status_of(waited):
    """The status as a shell reports it, but negative if a signal ended the program."""
    return -os.WTERMSIG(waited) if os.WIFSIGNALED(waited) else os.WEXITSTATUS(waited)


def ended(child, reads):
    """What a child wrote to a pipe, its status, its resource usage, and whether it had to be ended."""
    late = []

    def too_long(_number, _frame):
        late.append(True)
        os.kill(child, signal.SIGKILL)

    signal.signal(signal.SIGALRM, too_long)
    signal.alarm(SECONDS)
    try:
        out = Sum(iter(lambda: os.read(reads, PIECE), b""))
    except BaseException:
        os.kill(child, signal.SIGKILL)
        raise
    _child, waited, usage = os.wait4(child, 0)
    signal.alarm(0)
    return out, status_of(waited), usage, bool(late)


def run(programs, task, room):
    program = str(programs[task.program])
    if not os.access(program, os.X_OK):
        sys.exit(f"try-sizes: {program} is not there: run `rt ci` first")
    reads, writes = os.pipe()
    sys.stdout.flush()
    child = os.fork()
    if child == 0:
        begin_child(program, task, room, writes)
    os.close(writes)
    out, status, usage, late = ended(child, reads)
    os.close(reads)
    return Ran(status, out, Sum(file_pieces(f"{room}/err")), usage, late)


def faults_of(task, ran):
    """What differs from the expected result."""
    if ran.late:
        return [f"didn't end within {SECONDS} seconds"]
    faults = []
    if ran.status != task.status:
        faults.append(f"status {ran.status}, and not {task.status}")
    for name, came, wanted in [("output", ran.out, task.out), ("error", ran.error, task.error)]:
        wanted = Sum(chunks(wanted))
        if not came.equals(wanted):
            faults.append(f"{name} {came}, and not {wanted}")
    return faults


def fill(room, task):
    """Makes the files of a run, and its folder if it has one."""
    for name, text in task.files.items():
        put(f"{room}/{name}", text)
    if task.folder:
        os.mkdir(f"{room}/folder")
        task.folder(f"{room}/folder".encode())


def run_alone(programs, task):
    """Runs a task in a new folder, which is removed after it."""
    room = tempfile.mkdtemp(prefix="try-sizes-")
    try:
        fill(room, task)
        return run(programs, task, room)
    finally:
        shutil.rmtree(room.encode())
