"""The cases of tools/try-sizes with one source and its data: texts, tags, errors, nesting, and JSON.

Those that need more, which are partials, folders and outputs, are in sizes_folders.py."""
from sizes_runs import TOO_DEEP, UNREADABLE, line_shown, put, refused, refused_line, rendering_error, renders, source_error

# ---- cases


class Case:
    """A named case: a task of any size, or of one size only, or one for which the least stack is searched."""

    def __init__(self, name, make, full=None, unit="", seeks_stack=False):
        self.name, self.make, self.full, self.unit, self.seeks_stack = name, make, full, unit, seeks_stack

    def task(self, size):
        return self.make() if self.full is None else self.make(size)


CASES = []


def sized(full, unit="bytes"):
    """A case of any size."""

    def of(make):
        CASES.append(Case(make.__name__.replace("_", "-"), make, full, unit))
        return make

    return of


def fixed(make):
    """A case of one size."""
    CASES.append(Case(make.__name__.replace("_", "-"), make))
    return make


def several(name, full, unit, make, rows, seeks_stack=False):
    """Cases that differ in a word or two."""
    for word, *given in rows:
        made = lambda size, given=given: make(size, *given)
        CASES.append(Case(f"{name}-{word}", made, full, unit, seeks_stack))


# ---- texts

LINE = b"Dear reader, this is a line of the text, and it has one hundred bytes, of which the last ends it...\n"


@sized(100_000_000)
def text_of_lines(size):
    text = [(LINE, size // len(LINE))]
    return renders(text, out=text)


def plain_text(size, piece, written=None):
    count = size // len(piece)
    return renders([(piece, count)], out=[(piece if written is None else written, count)])


several("text", 100_000_000, "bytes", plain_text, [("of-one-line", b"x")])

several(
    "text",
    1_000_000,
    "bytes",
    plain_text,
    [
        ("closing-braces", b"}"),
        ("single-braces", b"{ "),
        ("backslashes", b"\\"),
        ("backslashes-single-braces", b"\\\\{a"),
        ("escaped-tags", b"\\{{a}}", b"{{a}}"),
        ("escaped-four-braces", b"\\{{{{a ", b"{{{{a "),
        ("empty-lines", b"\n"),
        ("blanks", b" "),
        ("nul", b"\0"),
        ("wide", "é".encode()),
    ],
)


@sized(1_000_000)
def text_backslashes_before_tag(size):
    return renders([(b"\\", size), b"{{a}}"], b'{"a":"x"}', [(b"\\", size - 1), b"x"])


# ---- tags, and their parts that may be long


def many(size, tag, written, data=b'{"a":true}', folder=None):
    count = size // len(tag)
    return renders([(tag, count)], data, [(written, count)], folder)


def one_partial(folder):
    put(folder + b"/p.hbs", b"x\n")


several(
    "tags",
    5_000_000,
    "bytes",
    many,
    [
        ("values", b"{{a}}", b"true"),
        ("values-in-lines", b"{{a}}\n", b"true\n"),
        ("missing-values", b"{{b}}", b""),
        ("raw-values", b"{{{a}}}", b"true"),
        ("trimming", b"  {{~a~}}\n", b"true"),
        ("backslashes", b"\\\\{{a}}", b"\\true"),
        ("calls", b"{{eq a true}}", b"true"),
        ("parentheses", b"{{#if (not (not a))}}x{{/if}}", b"x"),
        ("blocks", b"{{#if a}}x{{/if}}", b"x"),
        ("blocks-in-lines", b"{{#if a}}\n  x\n{{/if}}\n", b"  x\n"),
        ("sections", b"{{#a}}x{{/a}}", b"x"),
        ("chains", b"{{#if b}}x{{else if a}}y{{else}}z{{/if}}", b"y"),
        ("raw-blocks", b"{{{{raw}}}}{{x}}{{{{/raw}}}}", b"{{x}}"),
        ("comments", b"{{! a }}", b""),
        ("comments-in-lines", b"{{!-- a --}}\n", b""),
        ("comments-that-seem-long", b"{{!-- a }}", b""),
        ("inline-partials", b'{{#*inline "p"}}x{{/inline}}{{> p}}', b"x"),
        ("inclusions", b"{{> p}}", b"x\n", b"null", one_partial),
        ("indented-inclusions", b"  {{> p}}\n", b"  x\n", b"null", one_partial),
    ],
)


def one_tag(size, front, piece, back, written=b""):
    """A tag that is long because a part of it is repeated. The output may depend on the number of repetitions."""
    count = (size - len(front) - len(back)) // len(piece)
    return renders([front, (piece, count), back], b'{"a":"x"}', written(count) if callable(written) else written)


def digits(count):
    return b"%d" % count


several(
    "one-tag",
    5_000_000,
    "bytes",
    one_tag,
    [
        ("text", b'{{len "', b"x", b'"}}', digits),
        ("text-in-single-quotes", b"{{len '", b"x", b"'}}", digits),
        ("text-of-escapes", b'{{len "', b"\\n", b'"}}', digits),
        ("array", b"{{len [1", b",1", b"]}}", lambda count: digits(count + 1)),
        ("bare-brackets", b"{{and", b" [a]", b"}}", b"true"),
        ("object", b'{{len {"b":1', b',"a":1', b"}}}", b"2"),
        ("parameters", b"{{and", b" 1", b"}}", b"true"),
        ("pairs", b"{{and", b" a=1", b"}}", b"true"),
        ("name", b"{{", b"b", b"}}"),
        ("name-in-brackets", b"{{", b"[", b"]}}"),
        ("white", b"{{", b" \n", b"a}}", b"x"),
        ("comment", b"{{!", b"a", b"}}"),
        ("comment-of-marks", b"{{!--", b"{{!--", b"--}}"),
        ("raw-text", b"{{{{raw}}}}", b"a{{", b"a{{{{/raw}}}}", lambda count: [(b"a{{", count), b"a"]),
    ],
)


@sized(5_000_000)
def one_tag_keys(size):
    count = size // 10
    return renders([b"{{and", lambda: (b" k%07d=1" % (it * 7919 % count) for it in range(count)), b"}}"], out=b"true")


@sized(5_000_000)
def one_tag_known_name(size):
    name = [(b"b", size)]
    return renders([b"{{", *name, b"}}"], [b'{"', *name, b'":"x"}'], b"x")


@sized(5_000_000)
def one_tag_unknown_name(size):
    name = [(b"b", size)]
    task = renders([b"{{", *name, b"}}"], b"{}", strict=True)
    return refused(task, rendering_error([b'Failed to access variable in strict mode Some("', *name, b'")']))


def one_path(size, front, piece, back, written=b""):
    return renders([front, (piece, size), back], b'{"a":"x"}', written)


several(
    "path",
    1_000_000,
    "parts",
    one_path,
    [
        ("of-names", b"{{a", b".a", b"}}"),
        ("of-slashes", b"{{a", b"/a", b"}}"),
        ("upwards", b"{{", b"../", b"a}}", b"x"),
        ("of-this", b"{{a", b".this", b"}}", b"x"),
        ("of-a-variable", b"{{@", b"../", b"index}}"),
        ("in-a-call", b"{{len a", b".a", b"}}", b"0"),
        ("of-a-block", b"{{#with a", b".a", b"}}x{{else}}y{{/with}}", b"y"),
        ("of-an-inclusion", b"{{#> a", b"/a", b"}}x{{/}}", b"x"),
    ],
)


@sized(1_000_000, "parts")
def path_of_a_section(size):
    parts = [b"a", (b".a", size)]
    return renders([b"{{#", *parts, b"}}x{{else}}y{{/", *parts, b"}}"], b'{"a":1}', b"y")


# ---- sources that are rejected


def refused_at_once(size, front, piece, back=b"", message=UNREADABLE, column=1):
    return refused_line(message, [front, (piece, (size - len(front) - len(back)) // len(piece)), back], column)


several(
    "refused",
    1_000_000,
    "bytes",
    refused_at_once,
    [
        ("opening-braces", b"", b"{"),
        ("parentheses-open", b"{{", b"("),
        ("parentheses-in-a-call", b"{{a ", b"("),
        ("brackets-open", b"{{a ", b"["),
        ("brackets-as-name", b"{{", b"["),
        ("objects-open", b"{{a ", b'{"a":'),
        ("calls-open", b"{{a ", b"(a "),
        ("ends", b"", b"{{/if}}", b"", b"unexpected tag"),
        ("inverses", b"", b"{{else}}", b"", b"unexpected tag"),
        ("openings", b"", b"{{#if a}}", b"", TOO_DEEP, 200 * 9 + 1),
        ("sections", b"", b"{{#a}}", b"", TOO_DEEP, 200 * 6 + 1),
        ("raw-blocks", b"", b"{{{{raw}}}}", b"", UNREADABLE, 12),
    ],
)

several(
    "refused",
    5_000_000,
    "bytes",
    refused_at_once,
    [
        ("comment-open", b"{{!", b"a"),
        ("long-comment-open", b"{{!-- ", b"a"),
        ("comments-without-end", b"", b"{{!--"),
        ("quote-open", b'{{a "', b"x"),
        ("single-quote-open", b"{{a '", b"x"),
        ("quotes-across-tags", b"", b'{{a "b}}'),
        ("block-open", b"{{#if a}}", b"x", b"", b"block not closed"),
    ],
)


@sized(5_000_000)
def refused_behind_all(size):
    return refused_line(UNREADABLE, [(b"x", size - 2), b"{{"], size - 1)


def closed_pairs(size, front, opens, between, closes, back):
    count = size // 2
    return refused_line(TOO_DEEP, [front, (opens, count), between, (closes, count), back])


several(
    "refused",
    1_000_000,
    "bytes",
    closed_pairs,
    [
        ("parentheses-closed", b"{{", b"(", b"a", b")", b"}}"),
        ("brackets-closed", b"{{a ", b"[", b"", b"]", b"}}"),
        ("objects-closed", b"{{a ", b'{"a":', b"1", b"}", b" }}"),
    ],
)


@sized(1_000_000, "lines")
def refused_behind_lines(size):
    shown = [[b"%4d | a\n" % (size - 2)], [b"%4d | a\n" % (size - 1)], line_shown([b"{{"], 1, size)]
    reason = b"invalid handlebars syntax: " + UNREADABLE
    return refused(renders([(b"a\n", size), b"{{"]), source_error(reason, size + 1, 1, shown))


@sized(5_000_000)
def refused_for_a_name(size):
    name = [(b"b", size)]
    source = [b"{{#", *name, b"}}{{/c}}"]
    reason = [b'helper "', *name, b'" was opened, but "c" is closing']
    return refused(renders(source), source_error(reason, 1, size + 6, [line_shown(source, size + 6)]))


@sized(5_000_000)
def refused_for_a_literal(size):
    literal = [b"[", (b"1,", size // 2), b"0.5]"]
    error = [b'Failed to parse template invalid parameter "', *literal, b'"\n']
    return refused(renders([b"{{len ", *literal, b"}}"]), error)


# ---- what nests in a source

OPENING = b"{{#if this}}"


def blocks(count, inside):
    return [(OPENING, count), *inside, (b"{{/if}}", count)]


@fixed
def nesting_200_blocks():
    return renders(blocks(200, [b"x"]), b"[0]", b"x")


@fixed
def nesting_201_blocks():
    return refused_line(TOO_DEEP, blocks(201, [b"x"]), 200 * len(OPENING) + 1)


@fixed
def nesting_200_parentheses():
    return renders([b"{{and ", (b"(not ", 200), b"1", (b")", 200), b"}}"], out=b"true")


@fixed
def nesting_201_parentheses():
    return refused_line(TOO_DEEP, [b"{{and ", (b"(not ", 201), b"1", (b")", 201), b"}}"])


def chain(count):
    return [b"{{#if a}}x", (b"{{else if a}}x", count), b"{{else}}y{{/if}}"]


@fixed
def nesting_199_chained_inverses():
    return renders(chain(199), b'{"a":false}', b"y")


@fixed
def nesting_200_chained_inverses():
    return refused_line(TOO_DEEP, chain(200), 10 + 199 * 14 + 1)


@fixed
def nesting_127_brackets():
    return renders([b"{{eq a ", (b"[", 127), (b"]", 127), b"}}"], [b'{"a":', (b"[", 126), (b"]", 126), b"}"], b"false")


@fixed
def nesting_128_brackets():
    literal = [(b"[", 128), (b"]", 128)]
    error = [b'Failed to parse template invalid parameter "', *literal, b'"\n']
    return refused(renders([b"{{len ", *literal, b"}}"]), error)


# ---- data


def brackets(count):
    return [(b"[", count), (b"]", count)]


@fixed
def json_127_deep():
    return renders(b"{{this}}", brackets(127), brackets(127))


@fixed
def json_128_deep():
    return refused(renders(b"{{this}}", brackets(128)), b"hbs: not JSON: d.json\n", 2)


def not_json(size, piece):
    return refused(renders(b"", [(piece, size // len(piece))]), b"hbs: not JSON: d.json\n", 2)


several("json", 1_000_000, "bytes", not_json, [("brackets", b"["), ("objects", b'{"a":'), ("minus", b"-"), ("blanks", b" ")])


@sized(5_000_000)
def json_text_open(size):
    return refused(renders(b"", [b'"', (b"x", size)]), b"hbs: not JSON: d.json\n", 2)


@sized(5_000_000)
def json_digits(size):
    return not_json(size, b"1")


def one_value(size, piece, written, source=b"{{this}}"):
    count = size // len(piece)
    return renders(source, [b'"', (piece, count), b'"'], [(written, count)])


several(
    "value",
    100_000_000,
    "bytes",
    one_value,
    [
        ("plain", b"x", b"x"),
        ("of-marks", b"<", b"&lt;"),
        ("of-marks-and-letters", b"a'", b"a&#x27;"),
        ("raw", b"<", b"<", b"{{{this}}}"),
        ("of-escapes", b"\\u0041", b"A"),
    ],
)


@sized(5_000_000, "bytes")
def value_under_indentation(size):
    count = size // 3
    task = renders(b"  {{> p}}", [b'"', (b"a\\n", count), b'"'], [(b"  a\n", count)])
    task.folder, task.words = (lambda folder: put(folder + b"/p.hbs", b"{{this}}")), [*task.words, "folder"]
    return task


def array(size):
    return [b"[", (b"7,", size - 1), b"7]"]


def over_an_array(size, source, written, back=b""):
    return renders(source, array(size), [(written, size), back])


several(
    "array",
    1_000_000,
    "items",
    over_an_array,
    [
        ("each", b"{{#each this}}{{this}},{{/each}}", b"7,"),
        ("section", b"{{#this}}{{this}},{{/this}}", b"7,"),
        ("bound", b"{{#each this as |v|}}{{v}},{{/each}}", b"7,"),
        ("inclusions", b'{{#*inline "p"}}{{this}},{{/inline}}{{#each this}}{{> p}}{{/each}}', b"7,"),
        ("inline-partials", b'{{#each this}}{{#*inline "p"}}{{this}},{{/inline}}{{> p}}{{/each}}', b"7,"),
        ("last", b"{{#each this}}{{#if @last}}x{{/if}}{{/each}}", b"", b"x"),
    ],
)


@sized(1_000_000, "items")
def array_as_a_value(size):
    return renders(b"{{this}}", array(size), [b"[", (b"7, ", size - 1), b"7]"])


@sized(1_000_000, "items")
def array_of_a_call(size):
    """It has no path, and so it is copied into the scope frame."""
    return renders(b"{{#each (lookup this 0)}}{{this}},{{/each}}", [b"[", *array(size), b"]"], [(b"7,", size)])


@sized(1_000_000, "items")
def array_of_objects(size):
    data = [b"[", (b'{"a":{"b":1}},', size - 1), b'{"a":{"b":2}}]']
    return renders(b"{{#each this}}{{a.b}}{{/each}}", data, [(b"1", size - 1), b"2"])


def mixed_keys(size):
    """All numbers below the size, each once, unsorted."""
    step = 7919 if size % 7919 else 7907
    return (it * step % size for it in range(size))


@sized(1_000_000, "keys")
def object_each(size):
    members = lambda: (b'"k%07d":%d,' % (it, it) for it in mixed_keys(size))
    written = lambda: (b"k%07d=%d;" % (it, it) for it in range(size))
    return renders(b"{{#each this}}{{@key}}={{this}};{{/each}}", [b"{", members, b'"l":0}'], [written, b"l=0;"])


@sized(1_000_000, "keys")
def object_of_one_key(size):
    return renders(b"{{#each this}}{{@key}}={{this}};{{/each}}", [b"{", (b'"a":1,', size), b'"a":2}'], b"a=2;")


@sized(20_000_000)
def object_of_long_keys(size):
    """The first thousand bytes of all keys are equal, so that many bytes are compared."""
    count, front = size // 1012, b"k" * 1000
    members = lambda: (b'"%b%07d":1,' % (front, it) for it in mixed_keys(count))
    return renders(b"{{#each this}}{{this}}{{/each}}", [b"{", members, b'"l":2}'], [(b"1", count), b"2"])
