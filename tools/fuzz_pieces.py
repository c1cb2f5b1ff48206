"""The pieces that the templates and the data of a case of tools/fuzz must have: docs/LANGUAGE.md in a few words."""
import functools
import itertools
import re

# Whitespace, as Unicode defines it.
WHITE = "\t\n\v\f\r \x85\xa0\u1680\u2000\u2001\u2002\u2003\u2004\u2005\u2006\u2007\u2008\u2009\u200a\u2028\u2029\u202f\u205f\u3000"
INDENTATION = "indentation"

# ---- pieces in runs


def spot(piece):
    return piece.template, piece.place, piece.turns


def runs(pieces):
    """Successive pieces of the same position, iteration, kind and path: the first piece and all texts, without indentations."""
    for _, group in itertools.groupby(pieces, spot):
        others = (it for it in group if it.kind != INDENTATION)
        for _, same in itertools.groupby(others, lambda it: (it.kind, it.path)):
            first, *more = same
            yield first, [first.text, *(it.text for it in more)]


def are_made_of(texts, are_one, most):
    """Whether the texts, some of them joined, are each accepted by `are_one`. None has more characters than `most`."""
    ends = {0}
    for begin in range(len(texts)):
        joined = ""
        for end in range(begin, len(texts) if begin in ends else 0):
            joined += texts[end]
            if len(joined) > most:
                break
            if are_one(joined):
                ends.add(end + 1)
    return len(texts) in ends


def stray_indentations(pieces):
    """Indentations that are more than blanks and tabs, or don't precede a piece of the same position that may be indented."""
    for piece, behind in itertools.zip_longest(pieces, pieces[1:]):
        if piece.kind == INDENTATION:
            stands = behind and spot(behind) == spot(piece) and behind.kind in ("text", "value", "raw")
            if not stands or piece.text.strip(" \t"):
                yield piece


# ---- the content of a source


@functools.lru_cache(maxsize=1024)
def offset_of(source, place):
    """How many characters precede a line and a column, if the source has them."""
    line, column = place
    lines = source.split("\n")
    if line > len(lines) or column > len(lines[line - 1]) + 1:
        return None
    return sum(len(it) + 1 for it in lines[: line - 1]) + column - 1


TAGS = {braces: re.compile(r"(\\*)" + re.escape(braces)) for braces in ("{{", "{{{{")}


def text_up_to(braces, source, at):
    """The text there up to a tag that begins with these braces, without the backslashes that are dropped."""
    text = ""
    while found := TAGS[braces].search(source, at):
        count = len(found[1])
        text += source[at : found.start()] + "\\" * (count - 1)
        if count != 1:
            return text
        escaped = "{{{{" if source.startswith("{{{{", found.end(1)) else "{{"
        text, at = text + escaped, found.end(1) + len(escaped)
    return text + source[at:]


@functools.lru_cache(maxsize=1024)
def texts_in(source, place):
    """The text at a position of a source, before it is trimmed, and the one of a raw block, if there may be one."""
    at = offset_of(source, place)
    if at is None:
        return []
    raw = [text_up_to("{{{{", source, at)] if source.endswith("}}}}", 0, at) else []
    return [text_up_to("{{", source, at), *raw]


def is_trimmed(text, whole):
    """Whether it is the whole without some whitespace at the start and at the end."""
    core = whole.strip(WHITE)
    if not core:
        return text in whole
    at = whole.index(core)
    front, back = text[: len(text) - len(text.lstrip(WHITE))], text[len(text.rstrip(WHITE)) :]
    return text.strip(WHITE) == core and whole[:at].endswith(front) and whole[at + len(core) :].startswith(back)


def stands_in(sources, first, texts):
    """Whether the texts of a run that begins with this piece occur in one of the sources, as texts of a template or at a
    tag."""
    if first.place is None:
        # every template text has a position, and every tag, except for those of chained inverses
        return first.kind != "text"
    if first.kind != "text":
        return any(it.startswith("{{", at) for it in sources for at in [offset_of(it, first.place)] if at is not None)
    wholes = [whole for it in sources for whole in texts_in(it, first.place)]
    return are_made_of(texts, lambda text: any(is_trimmed(text, it) for it in wholes), max(map(len, wholes), default=0))


# ---- the content of data

ENTITIES = {"<": "&lt;", ">": "&gt;", '"': "&quot;", "&": "&amp;", "'": "&#x27;", "`": "&#x60;", "=": "&#x3D;"}


def rendered(value):
    if isinstance(value, list):
        return "[" + ", ".join(map(rendered, value)) + "]"
    if isinstance(value, bool):
        return "true" if value else "false"
    return "[object]" if isinstance(value, dict) else "" if value is None else str(value)


def is_value(data, first, texts, escapes):
    """Whether the texts of a run are the value at the path of its first piece."""
    for name in first.path:
        try:
            data = data[int(name) if isinstance(data, list) else name]
        except (LookupError, TypeError, ValueError):
            return False
    text = rendered(data)
    if first.kind == "value" and escapes:
        text = "".join(ENTITIES.get(it, it) for it in text)
    return are_made_of(texts, lambda it: it == text, len(text))
