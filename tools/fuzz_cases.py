"""What tools/fuzz draws: templates by the grammar of docs/LANGUAGE.md, some of them damaged, data, and how they are rendered.

A template is a list of pieces, each a text or a whole tag. There are few names of data and of partials, so that they are used.
Partial blocks call partials that are later in the list of names, and partial calls without a block call any: so a text that is
captured for `@partial-block` doesn't double in each iteration of an endless recursion."""
import dataclasses


@dataclasses.dataclass
class Case:
    """A template with its partials and data, and the fields of test cases that say how it is rendered."""

    main: list
    partials: dict
    data: object
    fields: dict
    # Whether the texts have no marks, and no tag writes a raw value.
    markless: bool
    # The seed of what is drawn for the test cases.
    seed: int


MARKS = "<>\"'`="
NAMES = ["p", "q", "a/b", "a.b", "a/c/d", "[x y]", "a-b"]

# ---- texts

PLAIN = ["x", "ab ", "y", "é", "日本", "😀", "&", "&amp;", ";", "-", "]", ")", "|", "@", "\u00a0", "\u3000x"]
PLAIN += ["e\u0301", "\u0000"]
LINES = ["\n", "\n", "\n", "\n  ", "\r\n", "\r", " ", "  ", "\t", "a\n  b\n", "\n\n", " \n", "\u2028", "\u0085"]
MARKED = ["<b>", "</b>", '"', "'", "`", "=", "<a href='x'>", "<!--", "&lt;", "}", "}}", "{ ", "\\ ", "\\{{t}}", "\\\\{{t}}"]
MARKED += ["\\\\\\{{{t}}}", "\\{{{t}}", "\\{{{{t", "--}}", "\\\\x"]
SPECIAL = [*"<>\"'`=&", "<b>", "</p>", "\"><i>", "<>\"'`=", "'='", "&lt;", "&#x27;", "``", "{{t}}", "\\", "[object]", "@index"]
UNITS = ["x", "é", "ab\n", "<", "a&", "😀", "x" * 255 + "=", "\r\n", " ", "'x"]
SIZES = [85, 128, 255, 256, 257, 300, 1000, 3000]


def a_long(draw, units):
    unit = draw.choice(units)
    return draw.choice(["", "x", "ab"]) + unit * (draw.choice(SIZES) // len(unit) + 1)


# ---- data

KEYS = ["t", "u", "o", "l", "n", "b", "kids", "e", "a<b"]
NUMBERS = [0, 1, 7, -3, 2**63, 2**64 - 1, -(2**63), 10]


def a_text(draw):
    pool = draw.choices([PLAIN, SPECIAL, LINES, NAMES, ["", "0", "-1", "true", "null"]], [4, 5, 3, 2, 2])[0]
    text = draw.choice(pool)
    while draw.random() < 0.3:
        text += draw.choice(PLAIN + SPECIAL + LINES)
    return text if draw.random() > 0.02 else a_long(draw, UNITS)


def a_value(draw, key, depth):
    """The value of a key. Mostly of one kind, so that paths lead somewhere."""
    if draw.random() < 0.08:
        key = draw.choice(KEYS)
    if key in ("o", "e") and depth > 0:
        return {it: a_value(draw, it, depth - 1) for it in KEYS if draw.random() < 0.7}
    if key in ("l", "kids") and depth > 0:
        inner = "o" if key == "kids" or draw.random() < 0.4 else draw.choice(["t", "t", "t", "n", "b", "l"])
        return [a_value(draw, inner, depth - 1) for _ in range(draw.choice([0, 1, 1, 2, 2, 3]))]
    if key == "n":
        return draw.choice(NUMBERS)
    if key == "b":
        return draw.choice([True, True, False, None])
    return a_text(draw)


def a_root(draw, names):
    if draw.random() < 0.04:
        return a_value(draw, draw.choice(KEYS), 3)
    root = {it: a_value(draw, it, 3) for it in KEYS if draw.random() < 0.95}
    root["p"] = draw.choice(names or NAMES) if draw.random() < 0.9 else a_value(draw, draw.choice(KEYS), 1)
    root["h"] = draw.choice(["len", "eq", "lookup", "if", "h", "none"])
    if draw.random() < 0.005:
        root["n"] = draw.choice([1.5, 2**64, -1e30, -(2**63) - 1])
    return root


# ---- the content of tags

PATHS = ["t", "u", "t", "u", "this", ".", "o.t", "o.u", "o.o.t", "l.0", "l.[0]", "kids.0.t", "n", "b", "e", "[a<b]", "o/t"]
PATHS += ["o.[a<b]", "../t", "../u", "../this", "../../t", "@root.t", "@root.o.u", "@root.l.0", "this.t", "./u", "[t]"]
PATHS += ["this/o/t", "./o.[t]", "..", "../..", "@root", "kids", "o", "l", "@root/t", "../o.t", "./else", "[as]"]
ASTRAY = ["nothing", "o.nothing", "v", "v.t", "k", "@index", "@key", "@first", "@../index", "@level", "t.[a b]"]
TURNS = ["@index", "@key", "@first", "@last", "@../index", "@../key", "this", "this.t", "../t", "../../u", "@../../last"]
ONES = ["o", "o", "o.o", "this", "..", "@root.o", "l.0", "kids.0", "t", "e", "b", "@root"]
BASES = ["o", "o", "l", "l", "kids", "o.o", "o.l", "this", "../l", "@root.o", "@root.l", "t", "e", "n", "b", "./l", "[a<b]"]
SECTIONS = ["o", "l", "kids", "o.o", "o.l", "this", ".", "../l", "../o", "@root.kids", "t", "e", "n", "b", "[a<b]", "./o"]
SECTIONS += ["o/l", "@first"]
BRANCHES = ["o", "l", "kids", "this", "t", "e", "n", "b", "nothing"]
LITERALS = ['"x"', "'x'", '"<b>"', "'<'", '"t"', '"it\'s"', "'a\"b'", r'"a\"b"', r"'it\'s'", r'"\u00e9\n\\"', r'"\ud83d\ude00"']
LITERALS += ['""', "''", "0", "1", "5", "-7", "9223372036854775807", "-9223372036854775808", "18446744073709551615"]
LITERALS += ["null", "true", "false", "[]", "{}", '[1, "<", [null]]', '{"t":"=", "o":{"u":[1]}}', '[{"t":1},{"t":"&"}]']
LITERALS += ['"p"', '"q"']
LEVELS = ['"warn"', '"ERROR"', '"debug"', '"trace"', '"info"', "n", '"info"']
BAD = ["1.5", "-0", "01", "1E5", "18446744073709551616", "-9223372036854775809", r'"\x"', r'"\ud800"', '{"a":1.5}', "[1.0]"]
HELPERS = {"eq": 2, "ne": 2, "gt": 2, "gte": 2, "lt": 2, "lte": 2, "lookup": 2, "and": 2, "or": 2, "not": 1, "len": 1}
HELPERS.update({"if": 1, "unless": 1, "with": 1, "each": 1, "raw": 0, "log": 2})
SHARES = [3, 1, 2, 1, 2, 1, 5, 2, 2, 3, 4, 0.5, 0.3, 0.3, 0.3, 0.3, 1.5]
KEYS_OF_PAIRS = ["k", "t", "v", "u", "includeZero", "level", "as", "this", "1"]


class Drawn:
    """Draws the pieces of one template."""

    def __init__(self, draw, names, behind, markless, outside=False):
        self.draw, self.names, self.behind, self.markless, self.outside = draw, names, behind, markless, outside
        # the names that the enclosing blocks bind, how many of these blocks iterate, and whether a partial block is around
        self.bound, self.turns, self.handed = [], 0, False

    def maybe(self, share):
        return self.draw.random() < share

    def one(self, things):
        return self.draw.choice(things)

    # -- lines

    def white(self):
        return self.one([" ", "  ", "\n", "\t", "\r\n"]) if self.maybe(0.06) else ""

    def gap(self):
        return self.white() + ("~" + self.white() if self.maybe(0.08) else "")

    def space(self):
        return self.one(["  ", "\n", "\t ", "\r"]) if self.maybe(0.05) else " "

    def path(self):
        if self.maybe(0.01):
            return self.one(["l.t", "kids.t"])
        if self.bound and self.maybe(0.35):
            return self.one(self.bound)
        if self.turns and self.maybe(0.35):
            return self.one(TURNS)
        return self.one(ASTRAY if self.maybe(0.04) else PATHS)

    def literal(self):
        return self.one(BAD if self.maybe(0.006) else LITERALS)

    def parameter(self, depth=2):
        kind = self.draw.random()
        if kind < 0.55:
            return self.path()
        if kind < 0.8 or depth == 0:
            return self.literal()
        return "(" + self.white() + self.call(depth - 1) + self.white() + ")"

    def pair(self, depth=1):
        return self.key() + self.parameter(depth)

    def key(self):
        return self.one(KEYS_OF_PAIRS) + self.white() + "=" + self.white()

    def call(self, depth=2):
        name = self.draw.choices(list(HELPERS), SHARES)[0]
        count = HELPERS[name] + (self.one([-1, 1]) if self.maybe(0.03) else 0)
        words = [self.parameter(depth) for _ in range(count)]
        if name == "lookup" and len(words) > 1:
            words[0], words[1] = self.one(BASES), self.one(['"t"', '"o"', "0", "1", "t", words[1]])
        while self.maybe(0.08):
            words.insert(self.draw.randint(0, len(words)), self.pair(depth))
        if name == "log" and self.maybe(0.5):
            words.append("level=" + ("t" if self.maybe(0.02) else self.one(LEVELS)))
        if self.maybe(0.02):
            name = self.one(['(lookup . "h")', '(lookup @root "h")', "none", "h"])
        return name + "".join(self.space() + it for it in words)

    def tag(self, mark, line):
        return ["{{" + self.gap() + mark + self.white() + line + self.gap() + "}}"]

    # -- tags without a body

    def text(self):
        if self.maybe(0.015):
            return [a_long(self.draw, UNITS[:3] if self.markless else UNITS)]
        pools = [PLAIN, LINES] if self.markless else [PLAIN, LINES, MARKED]
        return ["".join(self.one(self.one(pools)) for _ in range(self.draw.randint(1, 3)))]

    def value(self):
        if self.markless or self.maybe(0.75):
            return self.tag("", self.path() if self.maybe(0.75) else self.call())
        return self.html()

    def html(self):
        line = self.path() if self.maybe(0.7) else self.call()
        kind = self.draw.randrange(3)
        if kind == 0:
            return self.tag("&", line)
        begin = "{{" + self.white() + "~" + self.white() + "{" + self.white() if kind == 1 else "{{{" + self.gap()
        return [begin + line + self.white() + self.one(["}}}", "}}}", "~}}}", "~ }}}", "}~}}", "} ~ }}"])]

    def word(self):
        return self.tag("", self.call())

    def comment(self):
        bodies = [" <t> ", " {{t}} ", "x", "-- a --", "-", "--"]
        body = self.one(bodies)
        return ["{{!--" + body + "--}}" if "{{" in body or self.maybe(0.4) else "{{!" + body + "}}", self.line_end()]

    def raw(self):
        name = self.one(["raw", "raw", "if b", "each l", "with o", "o", "l"])
        if self.markless:
            return self.text()
        text = self.one(["<{{t}}>", "", "\n=", "{{{u}}}\n", "\\{{{{x", "\\{{t", "  \n x", "}}}}"])
        end = "{{{{" + self.gap() + "/" + self.white() + name.split()[0] + self.gap() + "}}}}"
        return ["{{{{" + self.gap() + name + self.gap() + "}}}}", text, end, self.line_end()]

    def line_end(self):
        return self.one(["", "", "\n", "\n", "\r\n", "  \n", "\r", "\t"])

    def line_start(self):
        return self.one(["", "", "", "\n", "\n  ", "\n\t", "  "])

    def decorator(self):
        line = self.one(['inline "p"', "inline", "inline 5", "nope", "inline t"])
        return self.tag("*", line) if self.maybe(0.1) else self.comment()

    # -- blocks with bodies

    def block_line(self):
        """The expression of a block that calls a helper, and the names that it binds."""
        name = self.draw.choices(["if", "unless", "each", "with", "call"], [4, 2, 5, 4, 1])[0]
        if name == "call":
            line = self.call(1)
            return (line, []) if line[0] != "(" else ("none", [])
        if name in ("if", "unless"):
            return f"{name}{self.space()}{self.parameter()}" + (" includeZero=true" if self.maybe(0.1) else ""), []
        base = self.parameter() if self.maybe(0.1) else self.one(BASES if name == "each" or self.maybe(0.1) else ONES)
        if self.bound and self.maybe(0.2):
            base = self.one(self.bound)
        bound = self.names_of(["v", "v k", "v k"] if name == "each" else ["v", "v", "t", "v k"])
        return f"{name}{self.space()}{base}" + self.bars(bound), bound

    def names_of(self, choices):
        return self.one(choices).split() if self.maybe(0.35) else []

    def bars(self, bound):
        return f"{self.space()}as{self.one(['', ' '])}|{self.white()}{' '.join(bound)}{self.white()}|" if bound else ""

    def section_line(self, names):
        bound = self.names_of(["v", "v k"])
        return self.one(names) + self.bars(bound), bound

    def block(self, depth):
        line, bound = self.section_line(SECTIONS) if self.maybe(0.3) else self.block_line()
        parts = [self.line_start(), *self.tag("#", line), self.line_end(), *self.body(line, bound, depth)]
        while self.maybe(0.2):
            chained, bound = self.section_line(BRANCHES) if self.maybe(0.25) else self.block_line()
            parts += [*self.tag("", "else" + self.space() + chained), self.line_end(), *self.body(chained, bound, depth)]
        if self.maybe(0.4):
            parts += [*self.tag("", self.one(["else", "^"])), self.line_end(), *self.nodes(depth - 1)]
        close = line if line.startswith("[") else line.split()[0]
        close = line[: line.index("]") + 1] if line.startswith("[") else close
        return [*parts, *self.tag("/", close), self.line_end()]

    def body(self, line, bound, depth):
        """The body of a block, in which its names are bound."""
        before = self.bound, self.turns
        self.bound = self.bound + bound + (["v.t", "v.o.t"] if "v" in bound else [])
        self.turns += line.startswith("each") or line.split()[0].split(".")[-1] in ("l", "kids")
        nodes = self.nodes(depth - 1)
        self.bound, self.turns = before
        return nodes

    def words(self):
        words = []
        if self.maybe(0.4):
            words.append(self.one(BASES if self.maybe(0.1) else ONES) if self.maybe(0.8) else self.parameter(1))
        pairs = self.one([0, 0, 0, 1, 2])
        words += [self.pair()] if pairs else []
        # The second one is a literal: if two hash arguments had the value of the scope, a partial that calls itself would
        # double that value at each level.
        words += [self.key() + self.literal()] if pairs == 2 else []
        return "".join(self.space() + it for it in words)

    def inclusion(self, depth):
        kind = self.draw.random()
        if kind < (0.03 if self.outside else 0.2):
            return self.hand_on(depth)
        before = self.line_start()
        if kind < 0.7:
            name = self.one(self.names if self.maybe(0.3) else self.behind or self.names)
            if self.maybe(0.1):
                name = f'(lookup {self.one(["@root", "@root", "@root", ".", "o"])} "{self.one(["p"] * 9 + ["t"])}")'
            return [before, *self.tag(">", name + self.words()), self.line_end()]
        return [before, *self.with_block(self.one(self.behind) if self.behind and self.maybe(0.9) else "nope", depth)]

    def hand_on(self, depth):
        """A call of `@partial-block`. In the block of a partial call, none is within an iteration."""
        if self.handed and self.turns:
            return self.text()
        if self.handed or self.maybe(0.3):
            return [self.line_start(), *self.tag(">", "@partial-block"), self.line_end()]
        return [self.line_start(), *self.with_block("@partial-block", depth)]

    def with_block(self, name, depth):
        before, self.handed = self.handed, True
        nodes = self.nodes(depth - 1)
        self.handed = before
        words = "" if name == "@partial-block" else self.words()
        end = self.tag("/", self.one([name, name, ""]))
        return [*self.tag("#>", name + words), self.line_end(), *nodes, *end, self.line_end()]

    def inline(self, depth):
        name = f'"{self.one(self.names + ["i"])}"' if self.maybe(0.96) else self.one(["p", "@root.p", "5", "t"])
        before, self.behind = self.behind, []
        nodes = self.nodes(min(depth - 1, 1))
        self.behind = before
        end = self.tag("/", self.one(["inline", ""]))
        return [*self.tag("#*", "inline " + name), self.line_end(), *nodes, *end, self.line_end()]

    def node(self, depth):
        if depth == 0:
            return self.one([self.text, self.value, self.value])()
        flat = [self.text, self.value, self.word, self.raw, self.comment, self.decorator]
        deep = [self.block, self.inclusion, self.inline]
        made = self.draw.choices([*flat, *deep], [6, 6, 2, 0.5, 0.5, 0.3, 5, 3, 0.8])[0]
        return made(depth) if made in deep else made()

    def nodes(self, depth):
        return [it for _ in range(self.one([1, 2, 3, 3]) if depth > 0 else 1) for it in self.node(max(depth, 0))]


# ---- nesting about as deep as it may be


DEEP_BLOCKS = ["{{#if b}}|x|{{/if}}", "{{#unless b}}|{{else}}y|{{/unless}}", "{{#this}}|{{t}}|{{/this}}"]
DEEP_BLOCKS += ["{{#with o}}|{{t}}|{{else}}z{{/with}}", '{{#*inline "i"}}|x|{{/inline}}', "{{#each .}}|{{@key}}|{{/each}}"]
DEEP_BLOCKS += ["{{#> nope}}|x|{{/nope}}"]
DEEP_WORDS = ["(not |b|)", "[|1|]", '{"t":|1|}', "(len |t|)", '(lookup |.| "o")', "(if |1|)"]


def a_deep(draw):
    count = draw.choice([60, 63, 64, 65, 126, 127, 128, 197, 198, 199, 200, 201])
    if draw.random() < 0.5:
        begin, middle, end = draw.choice(DEEP_BLOCKS).split("|")
        return [begin] * count + [middle] + [end] * count
    begin, middle, end = draw.choice(DEEP_WORDS).split("|")
    if draw.random() < 0.2:
        return ["{{#if n}}x", *["{{else if " + draw.choice(["n", "b"]) + "}}y"] * count, "{{/if}}"]
    return ["{{" + draw.choice(["len ", "not ", "log "]) + begin * count + middle + end * count + " }}"]


# ---- damage

SNIPPETS = [*"{}\\~\"'()[]|=#/>!*&^@. \n\r", "{{", "}}", "{{{", "}}}", "{{{{", "}}}}", "{{~", "~}}", "{{!--", "--}}", "}}{{"]
SNIPPETS += ["{{else}}", "{{^}}", "{{/if}}", "{{/}}", "{{#", "{{>", "\\{{", "\\\\{{", " as |", "../", "@root", "this"]
SNIPPETS += ["{{{{/raw}}}}"]


def hurt_text(draw, text):
    at = draw.randint(0, len(text))
    to = min(len(text), at + draw.choice([1, 1, 1, 2, 5]))
    kind = draw.randrange(6)
    if kind == 0:
        return text[:at] + text[to:]
    if kind == 1:
        return text[:to] + text[at:]
    if kind == 2:
        return text[:at] + text[at + 1 : at + 2] + text[at : at + 1] + text[at + 2 :]
    if kind == 3:
        return text[:at] if draw.random() < 0.3 else text[:at] + text[at + 1 :]
    return text[:at] + draw.choice(SNIPPETS) + text[at:]


def hurt(draw, pieces):
    """Damages pieces or characters, several times."""
    pieces = [it for it in pieces if it]
    for _ in range(draw.choice([1, 1, 2, 3])):
        at, to = (draw.randrange(len(pieces)) if pieces else 0 for _ in range(2))
        kind = draw.random()
        if not pieces or kind < 0.6:
            pieces = [hurt_text(draw, "".join(pieces))]
        elif kind < 0.7:
            del pieces[at]
        elif kind < 0.8:
            pieces.insert(to, pieces[at])
        elif kind < 0.9:
            pieces[at], pieces[to] = pieces[to], pieces[at]
        else:
            pieces.insert(to, draw.choice(SNIPPETS))
    return pieces


# ---- cases


def some_fields(draw, markless):
    fields = {it: True for it in ("strict", "recursive", "prevent_indent") if draw.random() < 0.2}
    if draw.random() < 0.2:
        fields["escape"] = "html" if markless else draw.choice(["plain", "plain", "html"])
    if draw.random() < 0.5:
        fields["limit"] = draw.choice([0, 1, 1, 1, 2, 2, 3, 4, 64])
    if draw.random() < 0.1:
        names = ["h", "helperMissing", "blockHelperMissing", "len", "if", "t"]
        fields["helpers"] = {draw.choice(names): draw.choice([*HELPERS, None]) for _ in range(draw.randint(1, 2))}
    return fields


def a_case(draw):
    names = draw.sample(NAMES, draw.choice([0, 1, 1, 2, 2, 2, 2, 3, 3, 4]))
    markless = draw.random() < 0.3
    partials = {}
    for at, name in enumerate(names):
        partials[name] = Drawn(draw, names, names[at + 1 :], markless).nodes(draw.choice([1, 2, 2]))
    whole = Drawn(draw, names or ["p"], names, markless, outside=True)
    main = [it for _ in range(draw.randint(2, 7)) for it in whole.node(3)]
    if draw.random() < 0.02:
        main[draw.randint(0, len(main)) : 0] = a_deep(draw)
        markless = False
    if draw.random() < 0.35:
        markless = False
        hurts = draw.choice([None, None, *names])
        if hurts is None:
            main = hurt(draw, main)
        else:
            partials[hurts] = hurt(draw, partials[hurts])
    return Case(main, partials, a_root(draw, names), some_fields(draw, markless), markless, draw.randrange(2**32))


def is_text(piece):
    return not piece.startswith("{{")


def keeps_marks_out(case):
    """Whether no text of the case has marks, braces or backslashes, which might make another piece a text."""
    pieces = [it for pieces in [case.main, *case.partials.values()] for it in pieces if is_text(it)]
    return case.markless and not any(it in text for text in pieces for it in MARKS + "{}\\")


# ---- smaller cases that may replace a case


def cuts(things):
    """What is left of a list or a text without a part: halves first, then quarters, and single elements last."""
    size = len(things)
    while size > 1:
        size = (size + 1) // 2
        for at in range(0, len(things), size):
            yield things[:at] + things[at + size :]


def smaller_data(data):
    if isinstance(data, (dict, list)):
        inside = data.items() if isinstance(data, dict) else enumerate(data)
        for key, it in list(inside):
            rest = {k: v for k, v in data.items() if k != key} if isinstance(data, dict) else data[:key] + data[key + 1 :]
            yield rest
            for less in smaller_data(it):
                yield {**data, key: less} if isinstance(data, dict) else [*data[:key], less, *data[key + 1 :]]
    elif isinstance(data, str):
        yield from ([""] if len(data) == 1 else cuts(data))
    elif data not in (None, 0):
        yield 0


def smaller_pieces(case, cut):
    for less in cut(case.main):
        yield dataclasses.replace(case, main=less)
    for name, pieces in case.partials.items():
        for less in cut(pieces):
            yield dataclasses.replace(case, partials={**case.partials, name: less})


def smaller_cases(case):
    for name in case.partials:
        yield dataclasses.replace(case, partials={key: it for key, it in case.partials.items() if key != name})
    for field in case.fields:
        yield dataclasses.replace(case, fields={key: it for key, it in case.fields.items() if key != field})
    yield from smaller_pieces(case, lambda pieces: [*([[]] if pieces else []), *cuts(pieces)])
    if case.data is not None:
        yield dataclasses.replace(case, data=None)
    for less in smaller_data(case.data):
        yield dataclasses.replace(case, data=less)
    # by characters, if it doesn't matter which of them belong to tags
    if not keeps_marks_out(case):
        yield from smaller_pieces(case, lambda pieces: ([it] for it in cuts("".join(pieces))))
