"""Runs of a program that are stored in folders, for tools/try-readme.

A run is a folder RUN with these files. A missing file counts as empty, and a missing `status` as 0:

    args     the arguments, one a line
    program  the program that is run, if it isn't that of the folder
    stdin    the standard input
    status, stdout, stderr
             the expected exit status and output, to the byte
    asked    the paths that it has to open, one a line and in this order, that of a folder with a `/` after it; if there is
             no such file, it may open any
    refused  the system call that fails: an error and the path that it occurs for, as `ENOENT t.hbs`; with `ENOMEM` without a
             path the first request for memory fails
    closed   the stream whose reader is closed, `stdout` or `stderr`
    links    the symbolic links that are there before it, one a line, a path and where it leads, as `b.txt ../a.txt`; `rt ci` takes
             no links below crates
    written  a folder of the files that it has to create or change, to the byte; it may create or change no other ones

A run happens in a copy of the folder where its files are. The runs of examples/NAME/runs are those of `hbs`, or of `hb` by a file
`program`, run in examples/NAME. The runs of crates/PROGRAM/runs/NAME are those of that program, run in crates/PROGRAM/runs/NAME. A C
compiler, `cc`, compiles the library that records the paths and makes calls fail (tools/refuse_files.c, tools/refuse_growth.c)."""
import errno
import os
import pathlib
import shutil
import subprocess
import tempfile

TOP = pathlib.Path(__file__).resolve().parent.parent
STREAMS = ("stdout", "stderr")
SECONDS = 60


class Run:
    """A run: its program, the folder where it runs, and the folder that describes it."""

    def __init__(self, program, where, folder):
        self.where, self.folder, self.name = where, folder, str(folder.relative_to(TOP))
        program = self.given("program", program.encode()).decode().strip()
        self.program = TOP / f"crates/{program}/out/{program}"

    def given(self, name, missing=b""):
        """The content of a file of the run."""
        file = self.folder / name
        return file.read_bytes() if file.exists() else missing

    def wanted(self):
        ends = {"status": self.given("status", b"0\n"), **{it: self.given(it) for it in STREAMS}}
        ends["written"] = listing(files_in(self.folder / "written"))
        asked = self.folder / "asked"
        return {**ends, "asked": asked.read_bytes()} if asked.exists() else ends

    def got(self, refuser):
        """The results of the run, under the names of the expected ones."""
        words = self.given("args").split(b"\n")[:-1]
        closed = self.given("closed").decode().split()
        with tempfile.TemporaryDirectory() as room:
            where = pathlib.Path(room) / "where"
            shutil.copytree(self.where, where, symlinks=True)
            make_links(where, self.given("links").decode().splitlines())
            before = files_in(where)
            asked = pathlib.Path(room) / "asked"
            env = {"LD_PRELOAD": refuser, "ASKED_FILES": str(asked), **error_of(self.given("refused").decode().split())}
            streams = {it: broken_pipe() if it in closed else subprocess.PIPE for it in STREAMS}
            ran = subprocess.run(
                [self.program, *words], cwd=where, env=env, input=self.given("stdin"), timeout=SECONDS, check=False, **streams
            )
            for it in closed:
                os.close(streams[it])
            ends = {"status": b"%d\n" % ran.returncode, "stdout": ran.stdout or b"", "stderr": ran.stderr or b""}
            written = {name: text for name, text in files_in(where).items() if before.get(name) != text}
            return {**ends, "written": listing(written), "asked": asked.read_bytes()}


def make_links(folder, lines):
    """Makes the links of these lines in a folder."""
    for path, leads_to in map(str.split, lines):
        link = folder / path
        link.parent.mkdir(parents=True, exist_ok=True)
        link.symlink_to(leads_to)


def files_in(folder):
    """The files of a folder and of the folders in it, by their paths."""
    return {str(it.relative_to(folder)): it.read_bytes() for it in sorted(folder.rglob("*")) if it.is_file() and not it.is_symlink()}


def listing(files):
    """The files, each under its path."""
    return b"".join(b"== %s\n%s" % (name.encode(), text) for name, text in files.items())


def error_of(words):
    """The environment that makes the error of these words occur."""
    if not words:
        return {}
    if words == ["ENOMEM"]:
        return {"REFUSE_GROWTH": "1"}
    error, path = words
    return {"REFUSE_FILE": path, "REFUSE_WITH": str(getattr(errno, error))}


def broken_pipe():
    """A pipe on which writes fail, since its reader is closed."""
    reader, writer = os.pipe()
    os.close(reader)
    return writer


def made_refuser(room):
    """Compiles the library that is loaded before a program."""
    made = os.path.join(room, "refuse.so")
    sources = [str(TOP / f"tools/{it}.c") for it in ("refuse_files", "refuse_growth")]
    subprocess.run(["cc", "-O2", "-fPIC", "-shared", "-o", made, *sources, "-ldl"], check=True)
    return made


def all_runs():
    """The runs of the examples, and those in the folders of programs."""
    for args in sorted(TOP.glob("examples/*/runs/*/args")):
        yield Run("hbs", args.parents[2], args.parent)
    for args in sorted(TOP.glob("crates/*/runs/*/*/args")):
        yield Run(args.parents[3].name, args.parents[1], args.parent)
