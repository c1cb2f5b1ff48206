"""build_jinja2.py FOLDER NAME TEMPLATE ROWS [I/N]: what `hb build -o FOLDER --to NAME --escape none --shard I/N TEMPLATE ROWS` does,
by jinja2 and Python's csv, for bench-build.

It renders and checks the names of all rows. Then it renders the text of each row of the shard, and writes it to a file beside its
place, which it renames, if there is no file with that text."""
import csv
import os
import sys

# The folder of this program has a file of the module's name.
sys.path.pop(0)
import jinja2


def checked(names):
    """The names, if a file can have each of them beside the other ones."""
    known = set(names)
    if len(known) < len(names):
        sys.exit("two rows have one name")
    for name in names:
        parts = name.split("/")
        if any(part in ("", ".", "..") or "\0" in part for part in parts):
            sys.exit(f"no file may have the name {name!r}")
        if any("/".join(parts[:end]) in known for end in range(1, len(parts))):
            sys.exit(f"a folder of {name!r} is a file")
    return names


def has_text(path, text):
    try:
        with open(path, "rb") as file:
            return file.read() == text
    except FileNotFoundError:
        return False


def main(folder, to, template, rows, shard="1/1"):
    number, count = map(int, shard.split("/"))
    loader = jinja2.FileSystemLoader(os.path.dirname(template))
    environment = jinja2.Environment(loader=loader, autoescape=False, keep_trailing_newline=True, trim_blocks=True)
    to, letter = environment.from_string(to), environment.get_template(os.path.basename(template))
    with open(rows, encoding="utf-8", newline="") as file:
        items = list(csv.DictReader(file))
    names = checked([to.render(item) for item in items])
    os.makedirs(folder, exist_ok=True)
    for at in range(number - 1, len(items), count):
        path, text = f"{folder}/{names[at]}", letter.render(items[at]).encode()
        if has_text(path, text):
            continue
        if "/" in names[at]:
            os.makedirs(os.path.dirname(path), exist_ok=True)
        with open(f"{folder}/.new", "wb") as file:
            file.write(text)
        os.rename(f"{folder}/.new", path)


main(*sys.argv[1:])
