"""Compares docs/DEFINITIONS.md with the files of specs/.

A section names its crates in its heading, and the first cell of each row of its table names files: `Module` of the
crate that was named last, or `crate/Module`. The section on Appendix D has a row for each procedure, with the names
of definitions and the file in which they stand.
"""

import collections
import re

from sources import CRATES, TOP, source, spec_files
from table import short

PAGE = TOP / "docs/DEFINITIONS.md"
QUOTED = re.compile(r"`([^`]+)`")
APPENDIX = "Appendix D"


def sections(text):
    """Each heading of the second level with the rows of the tables below it, as lists of cells."""
    for part in re.split(r"^## ", text, flags=re.MULTILINE)[1:]:
        heading, _, rest = part.partition("\n")
        rows = [line.strip("|").split(" | ") for line in rest.split("\n") if line.startswith("| ")]
        yield heading, rows[1:]


def is_crate(name):
    return (CRATES / name).is_dir()


def files_of_row(cell, crate):
    """The files that the first cell of a row names, as `crate/Module`."""
    for name in QUOTED.findall(cell):
        first, _, rest = name.partition("/")
        if is_crate(first):
            crate = first
            name = rest
        if name:
            yield f"{crate}/{name}"


def listed(text):
    """How often each file has a line."""
    found = collections.Counter()
    for heading, rows in sections(text):
        crates = [name for name in QUOTED.findall(heading) if is_crate(name)]
        if crates:
            for row in rows:
                found.update(files_of_row(row[0], crates[0]))
    return found


def faults_of_lines(found):
    present = {short(path) for path in spec_files()}
    lacking = [f"docs/DEFINITIONS.md has no line for {name}" for name in sorted(present - set(found))]
    idle = [f"docs/DEFINITIONS.md has a line for {name}, which is not there" for name in sorted(set(found) - present)]
    twice = [f"docs/DEFINITIONS.md has two lines for {name}" for name in sorted(found) if found[name] > 1]
    return lacking + idle + twice


def faults_of_appendix(text):
    """The names in the table of Appendix D that do not stand where the table says."""
    places = {short(path): path for path in spec_files()}
    rows = [row for heading, rows in sections(text) if APPENDIX in heading for row in rows]
    if not rows:
        return [f"docs/DEFINITIONS.md has no table of {APPENDIX}"]
    wrong = []
    for row in rows:
        for file in QUOTED.findall(row[2]):
            known = source(places[file]).items if file in places else {}
            wrong += [
                f"docs/DEFINITIONS.md says that {name} stands in {file}, which does not define it"
                for name in QUOTED.findall(row[1]) if name not in known
            ]
    return wrong


def faults():
    text = PAGE.read_text()
    return faults_of_lines(listed(text)) + faults_of_appendix(text)
