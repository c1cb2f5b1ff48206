"""The cases of tools/try-sizes with partials, with folders, and with outputs that fail."""
import errno
import json
import os
import signal

from sizes_cases import CASES, OPENING, Case, fixed, several, sized
from sizes_runs import MEGABYTE, STACK, Task, put, refused, rendering_error, renders

# ---- partials


def inclusion_files(files, blocks, opening, end, innermost=()):
    """Files p0, p1 and so on. Each writes a character and includes the next one within blocks."""

    def make(folder):
        for it in range(files):
            inside = [b"{{> p%d}}" % (it + 1)] if it + 1 < files else innermost
            put(folder + b"/p%d.hbs" % it, [b"x", (opening, blocks), *inside, (end, blocks)])

    return make


def nested_inclusions(files, blocks=200, opening=OPENING, end=b"{{/if}}"):
    source = [(opening, blocks), b"{{> p0}}", (end, blocks)]
    return renders(source, b"[0]", [(b"x", min(files, 64))], inclusion_files(files, blocks, opening, end))


@fixed
def inclusions_64_of_200_blocks():
    return nested_inclusions(64)


@fixed
def inclusions_65_of_200_blocks():
    place = {"line": 1, "column": 1 + 200 * len(OPENING) + 1, "name": "p63"}
    return refused(nested_inclusions(65), rendering_error(b"Inclusions nest deeper than 64", **place))


def blocks_in_all(size, opening, end):
    """This many nested blocks: in a source and in 64 templates, of which each includes the next one."""
    return nested_inclusions(64, size // 65, opening, end)


several(
    "stack",
    13_000,
    "blocks",
    blocks_in_all,
    [
        ("of-blocks", OPENING, b"{{/if}}"),
        ("of-if-true", b"{{#if true}}", b"{{/if}}"),
        ("of-sections", b"{{#@root}}", b"{{/@root}}"),
        ("of-each", b"{{#each @root}}", b"{{/each}}"),
        ("of-with", b"{{#with @root}}", b"{{/with}}"),
        ("of-or", b"{{#or 1}}", b"{{/or}}"),
        ("of-pairs", b"{{#if 1 includeZero=true}}", b"{{/if}}"),
    ],
    seeks_stack=True,
)


def row_of_inclusions(size, stack=STACK):
    """Two templates that include each other, as often as the limit allows, and once more."""
    row = {"templates": {"a": "x{{> b}}", "b": "y{{> a}}"}, "limit": size, "source": "{{> a}}"}
    row.update(text=[["xy", size // 2], "x" * (size % 2)], reason=f"Inclusions nest deeper than {size}")
    row.update(line=1, column=2, template="ba"[size % 2])
    task = Task({"row.json": json.dumps([row]).encode()}, ["row.json"], b"row.json: 0 of 1 test cases differ\n")
    task.program, task.stack = "tests", stack
    return task


def data_of_depth(depth):
    """Nested objects around 1, as a long text of a test case."""
    return [['{"n":', depth], "1", ["}", depth]]


@fixed
def inclusions_of_itself_200_blocks():
    """A template that includes itself within 200 blocks, as deep as the data are: from a source 64 times, by its name 64 times
    in addition to itself, and then without an end. No script and no test case of CI nests so deeply, since these are also built
    by Rattle's own compiler, where a block takes more of the stack."""
    ends = {"p": "{{#if @root.n}}" * 199 + "x{{#with n}}{{> p}}{{/with}}" + "{{/if}}" * 199}
    endless = {"p": "{{#if n}}" * 200 + "{{> p}}" + "{{/if}}" * 200}
    error = {"reason": "Inclusions nest deeper than 64", "line": 1, "column": 1801, "template": "p"}
    rows = [
        {"templates": ends, "source": "{{> p}}", "json": data_of_depth(63), "text": "x" * 64},
        {"templates": ends, "name": "p", "json": data_of_depth(64), "text": "x" * 65},
        {"templates": endless, "name": "p", "json": data_of_depth(63), "text": "", **error},
    ]
    task = Task({"rows.json": json.dumps(rows).encode()}, ["rows.json"], b"rows.json: 0 of 3 test cases differ\n")
    task.program, task.stack = "tests", 64 * MEGABYTE
    return task


@sized(65_535, "inclusions")
def inclusions_in_each_other(size):
    return row_of_inclusions(size, 1 << 30)


@fixed
def inclusions_without_stack():
    """If the stack is too small for them, the system ends the program."""
    task = row_of_inclusions(65_535)
    task.status, task.out = -signal.SIGSEGV, b""
    return task


CASES.append(Case("stack-of-inclusions", row_of_inclusions, 8192, "inclusions", True))


@sized(100_000)
def tags_within_4000_blocks_of_scope(size):
    """A name is looked up in each enclosing scope frame, since each may bind it."""
    files = inclusion_files(20, 200, b"{{#with @root}}", b"{{/with}}", [(b"{{a}}", size // 5)])
    return renders(b"{{> p0}}", b'{"a":7}', [(b"x", 20), (b"7", size // 5)], files)


# ---- the check of HTML

ITEM = b'<li class="row {{kind}}"><a href="/items/{{id}}?page={{page}}" title="{{title}}">{{title}}</a></li>\n'


@sized(4_000, "templates")
def check_of_html(size):
    """Templates of 5 KB, of which each includes three others."""

    def make(folder):
        for it in range(size):
            others = [b"{{> p%d}}\n" % min(size - 1, it + 1 + 17 * step) for step in range(3) if it + 1 < size]
            put(folder + b"/p%d.hbs" % it, [b"<ul>\n", *others, (ITEM, 5_000 // len(ITEM)), b"</ul>\n"])

    words = ["check", "--html", "-p", "folder", "t.hbs"]
    said = b"%d templates: no problems\n" % (size + 1)
    task = Task({"t.hbs": b"<!doctype html>{{> p0}}"}, words, said, folder=make)
    task.program = "hb"
    return task


# ---- folders


def put_many(folder, paths, text):
    """Files with the same text. A thousand of them are links to one file, which is faster."""
    for number, path in enumerate(paths):
        path = folder + b"/" + path
        if number % 1000 == 0:
            first = path
            put(first, text)
        else:
            os.link(first, path)


def names(size):
    return (b"t%06d" % it for it in range(size))


@sized(100_000, "files")
def folder_of_files(size):
    make = lambda folder: put_many(folder, (it + b".hbs" for it in names(size)), b"x")
    return renders(b"{{> t000000}}{{> t%06d}}" % (size - 1), out=b"xx", folder=make)


@sized(20_000, "folders")
def folder_of_folders(size):
    def make(folder):
        for name in names(size):
            os.mkdir(folder + b"/" + name)
        put_many(folder, (it + b"/a.hbs" for it in names(size)), b"x")

    return renders(b"{{> t000000/a}}{{> t%06d/a}}" % (size - 1), out=b"xx", folder=make)


@sized(100_000, "files")
def folder_of_other_files(size):
    """Files that aren't registered."""

    def make(folder):
        put_many(folder, (it + b".txt" for it in names(size)), b"{{")
        put(folder + b"/a.hbs", b"x")

    return renders(b"{{> a}}", out=b"x", folder=make)


def levels(count):
    """Nested folders, the first one in the given one, with a file in each."""

    def make(folder):
        for number in range(count + 1):
            put(folder + b"/f.hbs", b"%d" % number)
            folder += b"/d"
            if number < count:
                os.mkdir(folder)

    return make


@fixed
def folder_64_levels():
    return renders(b"{{> f}} {{> %bf}}" % (b"d/" * 64), out=b"0 64", folder=levels(64))


@fixed
def folder_66_levels():
    front = b"{{> %bf}} " % (b"d/" * 64)
    task = renders(front + b"{{> %bf}}" % (b"d/" * 65), out=b"64 ", folder=levels(66))
    return refused(task, rendering_error(b"Partial not found " + b"d/" * 65 + b"f", column=len(front) + 1))


@fixed
def folder_paths_too_long():
    """Folders whose paths are longer than the system allows count as empty."""

    def make(folder):
        before = os.getcwd()
        os.chdir(folder)
        put("a.hbs", b"x")
        for _ in range(60):
            os.mkdir("d" * 200)
            os.chdir("d" * 200)
            put("b.hbs", b"x")
        os.chdir(before)

    return renders(b"{{> a}}", out=b"x", folder=make)


@fixed
def folder_names_not_utf_8():
    """Files and folders whose names aren't UTF-8 are left out."""

    def make(folder):
        put(folder + b"/a.hbs", b"x")
        put(folder + b"/\xff.hbs", b"{{")
        os.mkdir(folder + b"/\xfe")
        put(folder + b"/\xfe/b.hbs", b"{{")

    return renders(b"{{> a}}", out=b"x", folder=make)


@fixed
def folder_text_not_utf_8():
    task = renders(b"{{> a}}", folder=lambda folder: put(folder + b"/a.hbs", b"\xff"))
    return refused(task, b'Template "a": stream did not contain valid UTF-8\n')


@fixed
def folder_link_to_itself():
    """A link counts as a file, and without the extension it isn't registered."""

    def make(folder):
        put(folder + b"/a.hbs", b"x")
        os.symlink(b".", folder + b"/loop")

    return renders(b"{{> a}}", out=b"x", folder=make)


def system_text(number):
    return f"{os.strerror(number)} (os error {number})".encode()


def unreadable_file(link, number):
    task = renders(b"{{> loop}}", folder=lambda folder: os.symlink(link, folder + b"/loop.hbs"))
    return refused(task, [b'Template "loop": ', system_text(number), b"\n"])


@fixed
def folder_link_in_a_circle():
    return unreadable_file(b"loop.hbs", errno.ELOOP)


@fixed
def folder_link_to_a_folder():
    return unreadable_file(b".", errno.EISDIR)


# ---- outputs that fail


def with_output(output, text, error, signals=False):
    """A rendering whose output fails, with one piece that fits into the buffer, or one that doesn't."""
    task = refused(renders([(b"x", text)]), error)
    task.outputs, task.signals = {1: output}, signals
    return task


def behind_all(number):
    return [b"IO Error: ", system_text(number), b"\n"]


def within(number, line=1, column=1):
    return rendering_error([b"IO Error: ", system_text(number)], line, column)


SHORT, LONG = 5, 1_000_000


def failing_outputs():
    outputs = [("closed", errno.EBADF), ("full", errno.ENOSPC), ("pipe", errno.EPIPE), ("pipe-that-signals", errno.EPIPE)]
    for name, number in outputs:
        for length, size, error in [("short", SHORT, behind_all), ("long", LONG, within)]:
            given = name.split("-")[0], size, error(number), name.endswith("signals")
            CASES.append(Case(f"output-{name}-{length}", lambda given=given: with_output(*given)))


failing_outputs()


@fixed
def output_many_pieces_full():
    """The piece that doesn't fit into the buffer any more fails, at its line: 2,730 lines of 3 bytes fit."""
    task = refused(renders([(b"{{a}}\n", 5000)], b'{"a":"xx"}'), within(errno.ENOSPC, 2731, 6))
    task.outputs = {1: "full"}
    return task


@fixed
def output_error_full():
    """If the error can't be printed, the status still reports it."""
    task = refused(renders(b"{{this}}", b"{"), b"", 2)
    task.outputs = {2: "full"}
    return task


@fixed
def output_error_closed():
    task = refused(renders(b"{{this}}", b"{"), b"", 2)
    task.outputs = {2: "closed"}
    return task
