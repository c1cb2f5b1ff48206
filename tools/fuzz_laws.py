"""The laws by which tools/fuzz compares the answers of the test cases of a case."""
import fuzz_cases
import fuzz_pieces
from fuzz_rows import FIRST, Error, by_bytes, read_error, read_texts

# ---- the laws: each yields the labels of the test cases that break it, and what differs

ALL = ("text", "error", "printed", "logged")
# The error for data with a number that no context takes.
NO_DATA = Error("Number outside the kept range", None, None, None)


def is_out(data):
    """Whether no context takes the data."""
    if isinstance(data, (dict, list)):
        return any(map(is_out, data.values() if isinstance(data, dict) else data))
    return isinstance(data, float) or isinstance(data, int) and not -(2**63) <= data < 2**64


def differing(one, other, parts=ALL):
    return [f"{it}: {getattr(one, it)!r} / {getattr(other, it)!r}" for it in parts if getattr(one, it) != getattr(other, it)]


class Judged:
    """A case with its answers, and what the laws say about them."""

    def __init__(self, rows, answers):
        self.rows, self.case, self.answers = rows, rows.case, answers
        self.at = {label: ways["writer"] for label, ways in answers.items() if "writer" in ways}
        self.first = self.at["source"]
        # why templates don't compile
        self.faults = {name: self.at["alone", name].error for name in rows.all}
        self.broken = [it for it in by_bytes(rows.partials) if self.faults[it]]
        self.main_fault = self.faults[rows.name]
        self.no_data = is_out(self.case.data)

    def pieces(self, label):
        """The pieces of a test case, if any are emitted."""
        ways = self.answers[label]
        return ways["pieces"].pieces if "pieces" in ways else None

    def unlike(self, label, other, parts=ALL):
        """What differs in two test cases, also in their pieces if both emit them."""
        what = differing(self.at[label], self.at[other], parts)
        one, two = self.pieces(label), self.pieces(other)
        if one is not None and two is not None and one != two:
            what.append(f"pieces: {one} / {two}")
        return what

    def compiles(self):
        return not self.broken and not self.main_fault and not self.no_data

    def for_the_limit(self):
        return self.first.error is not None and self.first.error.reason == f"Inclusions nest deeper than {self.rows.limit}"

    def ways(self):
        """All render calls of a test case agree with its writer. One that has no writer has a single render call."""
        for label, ways in self.answers.items():
            writer = ways.get("writer")
            for way, it in ways.items() if writer else ():
                handed = way in ("registry", "converted")
                parts = ("error", "printed", "logged", "asked") if handed else (*ALL, "asked")
                what = differing(it, writer, parts)
                if handed and it.text != (None if writer.error else writer.text):
                    what.append(f"text: {it.text!r} / {writer.text!r}")
                if what:
                    yield [label], f"{way} and writer: {what}"

    def alone(self):
        """If a template doesn't compile, the first such error is the error of the case, and nothing is written."""
        wanted = None
        if self.broken:
            wanted = self.faults[self.broken[0]]
        elif self.no_data:
            wanted = NO_DATA
        elif self.main_fault:
            wanted = self.in_unnamed(self.main_fault)
        if wanted and (self.first.error != wanted or self.first.text != ""):
            yield ["source", ("alone", wanted.template or self.rows.name)], f"{self.first!r} / {wanted}"
        for name, fault in self.faults.items():
            if fault and fault.template not in (None, name) or self.at["alone", name].text:
                yield [("alone", name)], f"another template: {fault}"

    def in_unnamed(self, fault):
        return fault._replace(template="Unnamed" if fault.template == self.rows.name else fault.template)

    def name(self):
        """The same by name as by source, except for the template name of the error."""
        wanted, named = self.first.error, self.at["name"]
        if self.no_data and self.main_fault and not self.broken:
            wanted = self.main_fault
        elif wanted and wanted.line is not None and wanted.template in (None, "Unnamed"):
            wanted = wanted._replace(template=self.rows.name)
        what = self.unlike("name", "source", ("text", "logged"))
        if what or named.error != wanted:
            yield ["source", "name"], f"{what} {named.error} / {wanted}"

    def as_first(self, label):
        what = self.unlike(label, "source")
        if what:
            yield ["source", label], str(what)

    def byte(self):
        yield from self.as_first("byte")

    def others(self):
        for label in ("added", "replaced", "taken"):
            yield from self.as_first(label)

    def fails(self):
        failing = self.at["fails"]
        if differing(failing, self.first):
            begins = self.first.text.startswith(failing.text.rstrip("\ufffd")) and len(failing.text) <= len(self.first.text) + 3
            if not failing.error or failing.error.line is None or not begins or self.rejected_early():
                yield ["source", "fails"], f"{failing!r} / {self.first!r}"

    def rejected_early(self):
        return bool(self.broken or self.main_fault or self.no_data)

    def takes(self):
        taking, whole = self.answers["takes"]["template"], self.answers["source"]["template"]
        if len(whole.text.encode("utf-8")) <= self.rows.takes:
            what = differing(taking, whole)
            if what:
                yield ["source", "takes"], str(what)
        elif not taking.error or taking.error.line is None or not whole.text.startswith(taking.text):
            yield ["source", "takes"], f"{taking!r} / {whole!r}"
        elif len(taking.text.encode("utf-8")) > self.rows.takes:
            yield ["takes"], f"{taking!r} is too long"

    def larger(self):
        larger = self.at["larger"]
        if not self.for_the_limit():
            yield from self.as_first("larger")
        elif not larger.text.startswith(self.first.text) or larger.logged[: len(self.first.logged)] != self.first.logged:
            yield ["source", "larger"], f"no beginning: {self.first!r} / {larger!r}"
        elif self.pieces("larger")[: len(self.pieces("source"))] != self.pieces("source"):
            yield ["source", "larger"], f"no beginning: {self.pieces('source')} / {self.pieces('larger')}"

    def step_of(self, label, number):
        """The error of a step that makes a test case fail, the paths that it asked for, and the names that are registered after
        it."""
        answer, begin = self.at[label], f"step {number}: "
        reason, at, fault = answer.error.reason if answer.error else "", len(begin), None
        if not reason.startswith(begin) or answer.error[1:] != (None, None, None):
            return None
        if answer.text or answer.logged or answer.asked:
            return None
        if reason.startswith("refused: ", at):
            fault, at = read_error(reason, at)
            at += len("; ")
        asked, at = read_texts(reason, at + len("asked for "))
        names, at = read_texts(reason, at + len("; has "))
        return (fault, asked, names) if at == len(reason) else None

    def walked(self):
        """The expected result of the step of the folder: it reads files up to the first that doesn't compile."""
        asked, names = [], set()
        for path, name in self.rows.walk:
            asked.append(path)
            if name is not None and self.faults.get(name):
                return self.faults[name], asked, by_bytes(names)
            names |= set() if name is None else {name}
        return None, asked, by_bytes(names)

    def folder(self):
        if self.broken:
            came = self.step_of("folder", 1)
            if came != self.walked():
                yield ["folder", *(("alone", it) for it in self.broken)], f"{came} / {self.walked()}"
        else:
            yield from self.as_first("folder")

    def listed(self):
        came = self.step_of("listed", 1)
        if came != self.walked():
            yield ["listed"], f"{came} / {self.walked()}"

    def read_in(self, order, stops):
        """The paths of files that are read in this order, up to the first that doesn't compile if it stops there."""
        read = []
        for name in order:
            read.append(self.rows.paths[name])
            if stops and self.faults[name]:
                break
        return read

    def dev(self):
        rows, partials = self.rows, by_bytes(self.rows.partials)
        for label, names in (("dev", partials), ("dev name", by_bytes(rows.all))):
            broken = [it for it in names if self.faults[it]]
            if broken:
                came = self.step_of(label, 2)
                wanted = self.faults[broken[0]], self.read_in(names, True), names[: names.index(broken[0])]
                if came != wanted:
                    yield [label], f"{came} / {wanted}"
            else:
                yield from self.as_read(label, partials if label == "dev" else [rows.name, *partials])
        for label in ("anew", "anew name"):
            yield from self.anew(label)

    def anew(self, label):
        rows, partials = self.rows, by_bytes(self.rows.partials)
        order = partials if label == "anew" else [rows.name, *partials]
        broken = [it for it in order if self.faults[it]]
        if self.no_data:
            yield from self.fails_as(label, NO_DATA, [])
        elif label == "anew" and self.main_fault:
            yield from self.fails_as(label, self.in_unnamed(self.main_fault), [])
        elif broken:
            yield from self.fails_as(label, self.faults[broken[0]], self.read_in(order, True))
        else:
            yield from self.as_read(label, order)

    def fails_as(self, label, wanted, asked):
        it = self.at[label]
        if it.error != wanted or it.text or it.logged or it.asked != asked:
            yield [label], f"{it!r} / {wanted}, asked {asked}"

    def as_read(self, label, order):
        other = "name" if "name" in label else "source"
        what = self.unlike(label, other)
        asked = self.read_in(order, True) if not self.rejected_early() else []
        if what or self.at[label].asked != asked:
            yield [label, other], f"{what}, asked {self.at[label].asked} / {asked}"

    def marks(self):
        if not self.keeps_marks_out():
            return
        for label, ways in self.answers.items():
            for way, it in ways.items():
                if any(mark in (it.text or "") for mark in fuzz_cases.MARKS):
                    yield [label], f"{way}: {it.text!r}"

    def keeps_marks_out(self):
        return fuzz_cases.keeps_marks_out(self.case)

    # ---- of pieces

    def emitting(self):
        """The labels of the test cases that emit pieces, each with its pieces. Of those with the same pieces, the first one."""
        rows = {}
        for label in self.answers:
            pieces = self.pieces(label)
            if pieces is not None:
                rows.setdefault(pieces, label)
        return [(label, pieces) for pieces, label in rows.items()]

    def joined(self):
        for label, ways in self.answers.items():
            pieces = self.pieces(label)
            if pieces is not None:
                texts = [it.text for it in pieces]
                if "".join(texts) != ways["pieces"].text or "" in texts:
                    yield [label], f"{texts} / {ways['pieces'].text!r}"

    def sources(self, piece):
        """The sources of the template that the element of a piece may belong to."""
        if piece.template is None:
            return list(self.rows.all.values())
        source = self.rows.source if piece.template is FIRST else self.rows.partials.get(piece.template)
        return [] if source is None else [source]

    def places(self):
        for label, pieces in self.emitting():
            for first, texts in fuzz_pieces.runs(pieces):
                if not fuzz_pieces.stands_in(self.sources(first), first, texts):
                    yield [label], f"{first}, {texts}"
            for piece in fuzz_pieces.stray_indentations(pieces):
                yield [label], str(piece)

    def paths(self):
        for label, pieces in self.emitting():
            for first, texts in fuzz_pieces.runs(pieces):
                if first.path is not None and not fuzz_pieces.is_value(self.case.data, first, texts, self.escapes()):
                    yield [label], f"{first}, {texts}"

    def escaped(self):
        for label, pieces in self.emitting() if self.escapes() else ():
            for it in pieces:
                if it.kind in ("value", "word", "indentation") and set(it.text) & set(fuzz_cases.MARKS):
                    yield [label], str(it)

    def escapes(self):
        return self.case.fields.get("escape", "html") == "html"


LAWS = ["ways", "alone", "name", "byte", "fails", "takes", "larger", "others", "folder", "listed", "dev", "marks"]
LAWS += ["joined", "places", "paths", "escaped"]


def findings(rows, answers):
    """The laws that the answers break, each with labels of test cases and what differs."""
    ended = [label for label, it in answers.items() if isinstance(it, str)]
    if ended:
        return [("ended", ended[:1], answers[ended[0]])]
    judged = Judged(rows, answers)
    return [(law, *it) for law in LAWS for it in getattr(judged, law)()]
