"""The test cases of a case of tools/fuzz, and their answers, read from what the program prints (docs/TEST_CASES.md)."""
import collections
import functools
import json
import random
import re

WANTED = "\u0001wanted\u0001"
# Names that no partial call has, all after those of partials in byte order.
MAINS = ["\u2603main", "\u2603 a/b", '\u2603"<\n{{x}}', "\u2603.hbs"]
OTHER = "\u2603other"
OTHERS = ["", "x", "<b>\n", "{{> p}}", "{{#each .}}{{this}}{{/each}}", "{{> \u2603other}}"]
OTHERS += ['{{#*inline "p"}}i{{/inline}}{{nothing 1}}']
# What is added to a limit. The last one is used if no partial call has hash arguments: with these each level copies what those
# around it copied.
MORE = [1, 1, 2, 64, 1000]
PAIRED = re.compile(r"\{\{[^}]*>[^}]*=")


class Stopped(Exception):
    """Something is wrong with the tool or the program. This is no finding."""


# ---- test cases of a case


def source_of(pieces):
    return "".join(pieces)


def by_bytes(names):
    return sorted(names, key=lambda it: it.encode("utf-8"))


def main_name(case):
    return MAINS[case.seed % len(MAINS)]


def a_folder(draw, templates):
    """The files of a folder that has the templates and more, the step that registers it, and the expected result of that: the
    paths that are asked for, and the name that is registered after each, if any."""
    end = draw.choice([".hbs", ".hbs", ".hbs", ".t", "x.y", ".html"])
    top = draw.choice(["d", "d/e", "d.hbs", "./d", "é"])
    step = {"folder": top, **({"extension": end} if end != ".hbs" or draw.random() < 0.2 else {})}
    step.update({it: draw.random() < 0.5 for it in ("hidden", "temporary") if draw.random() < 0.3})
    folders, files = {top: []}, {}
    for name, source in templates.items():
        put_file(folders, files, top, name + end, source)
    broken = "{{#if"
    for name, taken in ((".zz", step.get("hidden")), ("#zz", step.get("temporary")), (".yy/zz", True), ("b.d/zz", True)):
        if draw.random() < 0.4:
            put_file(folders, files, top, name + end, draw.choice(OTHERS) if taken else broken)
    for name in ("zz.txt", "p" + end + "~", "readme", "p.hbs.bak"):
        if draw.random() < 0.3:
            put_file(folders, files, top, name, broken)
    files[f"{top}/unlisted{end}"] = broken
    for name, content in (("zz", None), ("ww", []), ("vv", {"fault": "PermissionDenied"}), ("q" + end, None)):
        if draw.random() < 0.3:
            folders[top].append(name + "/")
            if content is not None:
                files[f"{top}/{name}"] = content
    for entries in folders.values():
        draw.shuffle(entries)
    return {**files, **folders}, step, walk(step, end, folders, files, top)


def put_file(folders, files, top, name, text):
    *above, own = name.split("/")
    path = top
    for it in above:
        if it + "/" not in folders[path]:
            folders[path].append(it + "/")
        path += "/" + it
        folders.setdefault(path, [])
    folders[path].append(own)
    files[f"{path}/{own}"] = text


def walk(step, end, folders, files, top):
    """The paths that are asked for, each with the name that is registered then, or none."""
    asked = []

    def into(folder):
        asked.append((folder + "/", None))
        for entry in sorted(folders.get(folder, []), key=lambda it: it.rstrip("/").encode("utf-8")):
            path = f"{folder}/{entry}"
            if entry.endswith("/"):
                into(path[:-1])
            elif path.endswith(end) and not hides(step, entry):
                asked.append((path, path[len(top) + 1 : -len(end)]))

    into(top)
    return asked


def hides(step, entry):
    return entry.startswith(".") and not step.get("hidden") or entry.startswith("#") and not step.get("temporary")


class Rows:
    """The test cases of a case by label, and what was drawn for them."""

    def __init__(self, case):
        draw = random.Random(case.seed)
        self.case, self.name = case, main_name(case)
        self.source = source_of(case.main)
        self.partials = {name: source_of(it) for name, it in case.partials.items()}
        self.all = {**self.partials, self.name: self.source}
        self.limit = case.fields.get("limit", 64)
        base = {**case.fields, "text": WANTED}
        alone = {key: it for key, it in base.items() if key != "limit"}
        self.rows = {}
        for name, source in self.all.items():
            self.rows["alone", name] = {**alone, "templates": {name: source}, "source": "", "over": "context"}
        bare = {**base, "source": self.source, "data": case.data}
        plain = {**bare, "templates": self.partials}
        named = {**base, "name": self.name, "data": case.data}
        self.rows["source"] = plain
        self.rows["name"] = {**named, "templates": self.all}
        self.rows["byte"] = {**plain, "to": {"most": 1}}
        self.rows["fails"] = {**plain, "to": self.failing(draw)}
        self.takes = draw.choice([0, 1, 2, 5, 10, 20, 50, 255, 256, 257, 1000])
        self.rows["takes"] = {**plain, "takes": self.takes}
        self.rows["larger"] = {**plain, "limit": self.limit + draw.choice(MORE[:4] if self.has_pairs() else MORE)}
        one, two = draw.choice(OTHERS), draw.choice(OTHERS)
        more = {**plain, "templates": {**self.partials, OTHER: one}}
        self.rows["added"] = more
        self.rows["replaced"] = {**more, "steps": [{"register": {OTHER: two}}]}
        self.rows["taken"] = {**more, "steps": [{"unregister": OTHER}]}
        files, step, self.walk = a_folder(draw, self.partials)
        self.rows["folder"] = {**bare, "files": files, "steps": [step]}
        self.rows["listed"] = {**alone, "files": files, "steps": [{**step, "names": [WANTED]}], "source": "", "over": "context"}
        self.in_dev_mode(draw, bare, named)
        for label, row in self.rows.items():
            if label not in ("byte", "fails", "takes"):
                row["pieces"] = []

    def has_pairs(self):
        """Whether a partial call may have hash arguments."""
        return any(PAIRED.search(it) for it in self.all.values())

    def failing(self, draw):
        to = {"fails": draw.choice([1, 1, 2, 3, 4, 5, 8, 13, 50])}
        if draw.random() < 0.5:
            to["most"] = draw.choice([1, 2, 3, 7, 255, 256, 257])
        if draw.random() < 0.5:
            to["fault"] = draw.choice([0, "BrokenPipe", "Interrupted", "PermissionDenied"])
        return to

    def in_dev_mode(self, draw, bare, named):
        self.paths = {name: f"f/{draw.randrange(1000)}.{at}" for at, name in enumerate(self.all)}
        partials = {name: self.paths[name] for name in self.partials}
        files = {self.paths[name]: source for name, source in self.all.items()}
        dev = {"dev": True}
        self.rows["dev"] = {**bare, "files": files, "steps": [dev, {"file": partials}]}
        self.rows["dev name"] = {**named, "files": files, "steps": [dev, {"file": self.paths}]}
        old = {path: draw.choice(OTHERS) for path in files}
        self.rows["anew"] = {**bare, "files": old, "steps": [dev, {"file": partials}, {"files": files}]}
        self.rows["anew name"] = {**named, "files": old, "steps": [dev, {"file": self.paths}, {"files": files}]}


# ---- what the program prints

STRING = re.compile(r'"([^"\\]*(?:\\.[^"\\]*)*)"')
ESCAPE = re.compile(r"\\(u\{([0-9a-fA-F]+)\}|.)")
ESCAPED = {"n": "\n", "r": "\r", "t": "\t", "0": "\0", "\\": "\\", '"': '"', "'": "'"}
PLACES = [re.compile(r", line (\d+)"), re.compile(r", column (\d+)")]
WAY = re.compile(r"    (expected|registry|converted|template|writer|converting|pieces): +")
Error = collections.namedtuple("Error", "reason line column template")
# The template is the name of an included one, None for an inline partial, and FIRST for the one that is rendered.
Piece = collections.namedtuple("Piece", "kind text template place turns path")
FIRST = False


class Answer:
    """The answer of one render call. A call that returns a text has none if it fails."""

    def __init__(self, text, error):
        self.text, self.error = text, error
        self.printed, self.logged, self.asked, self.pieces = None, [], [], None

    def __repr__(self):
        more = {"printed": self.printed, "logged": self.logged, "asked": self.asked, "pieces": self.pieces}
        return f"{self.text!r}, {self.error}" + "".join(f"\n      {key}: {it!r}" for key, it in more.items() if it)


def unescaped(text):
    def one(found):
        if found[2]:
            return chr(int(found[2], 16))
        return ESCAPED[found[1]]

    return ESCAPE.sub(one, text) if "\\" in text else text


def read_text(line, at):
    found = STRING.match(line, at)
    if not found:
        raise Stopped(f"no text at {at} of {line[:300]!r}")
    return unescaped(found[1]), found.end()


def read_texts(line, at):
    """An array of texts, and where it ends."""
    texts = []
    if line[at] != "[":
        raise Stopped(f"no array at {at} of {line[:300]!r}")
    at += 1
    while line[at] != "]":
        text, at = read_text(line, at)
        texts.append(text)
        at += 2 if line.startswith(", ", at) else 0
    return texts, at + 1


def read_error(line, at):
    """An error, and where it ends."""
    if not line.startswith("refused: ", at):
        raise Stopped(f"no error at {at} of {line[:300]!r}")
    reason, at = read_text(line, at + 9)
    place = []
    for it in PLACES:
        found = it.match(line, at)
        place.append(int(found[1]) if found else None)
        at = found.end() if found else at
    template = None
    if line.startswith(", template ", at):
        template, at = read_text(line, at + len(", template "))
    return Error(reason, *place, template), at


def read_answer(line, at):
    text = error = None
    if line.startswith('"', at):
        text, at = read_text(line, at)
        at += len(", then ") if line.startswith(", then ", at) else 0
    if line.startswith("refused: ", at):
        error, at = read_error(line, at)
    if at != len(line):
        raise Stopped(f"more at {at} of {line[:300]!r}")
    return Answer(text, error)


@functools.lru_cache(maxsize=64)
def read_pieces(text):
    """The pieces of an answer. The test cases of a case mostly have the same."""
    return tuple(read_piece(**it) for it in json.loads(text))


def read_piece(kind, text, template=FIRST, line=None, column=None, turns=(), path=None):
    return Piece(kind, text, template, line and (line, column), tuple(turns), path if path is None else tuple(path))


def read_more(answer, line):
    kind, _, _ = line.strip().partition(":")
    at = line.index(": ") + 2
    if kind == "printed":
        answer.printed = read_text(line, at)[0]
    elif kind == "logged":
        answer.logged.append(read_text(line, at)[0])
    elif kind == "asked":
        answer.asked = read_texts(line, at)[0]
    elif kind == "pieces":
        answer.pieces = read_pieces(line[at:])
    else:
        raise Stopped(f"a line that isn't known: {line[:300]!r}")


def read_answers(printed, count):
    """The answers of each test case, by render call."""
    lines = printed.split("\n")
    if not lines[0].endswith(f": {count} of {count} test cases differ"):
        raise Stopped(f"not all test cases differ: {lines[0][-100:]!r}")
    rows, answer = [], None
    for line in lines[1:]:
        way = WAY.match(line)
        if line.startswith("  test case "):
            rows.append({})
        elif way:
            answer = rows[-1][way[1]] = read_answer(line, way.end())
        elif line:
            read_more(answer, line)
    for row in rows:
        del row["expected"]
    if len(rows) != count:
        raise Stopped(f"{len(rows)} of {count} test cases are printed")
    return rows
