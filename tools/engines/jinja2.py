"""jinja2.py SOURCE DATA PARTIALS COUNT TEXT: as compare-engines says."""
import json
import pathlib
import sys
import time

# The folder of this program has a file of the module's name.
sys.path.pop(0)
import jinja2

source, data, partials, count, text = sys.argv[1:]
sources = json.loads(pathlib.Path(partials).read_text(encoding="utf-8"))
sources["work"] = pathlib.Path(source).read_text(encoding="utf-8")
environment = jinja2.Environment(loader=jinja2.DictLoader(sources), autoescape=True, keep_trailing_newline=True)
template = environment.get_template("work")
given = json.loads(pathlib.Path(data).read_text(encoding="utf-8"))
least = float("inf")
for run in range(2 * int(count)):
    start = time.perf_counter()
    answer = template.render(given)
    taken = (time.perf_counter() - start) * 1e3
    if run >= int(count):
        least = min(least, taken)
pathlib.Path(text).write_text(answer, encoding="utf-8")
print(least)
