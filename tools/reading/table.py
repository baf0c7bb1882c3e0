"""The table of docs/READING.md: what is reached, by topic and file, with totals; and what is reached besides."""

import collections
import re

from reach import PROMISE, Trusted
from sources import Source, source, spec_files
from topics import TOPICS

BEGIN = "<!-- begin of what tools/promise --write writes -->"
END = "<!-- end of what tools/promise --write writes -->"
TYPES = ("struct", "enum", "type")
VALUE = re.compile(r" = (.*);", re.DOTALL)
# Of a file that is reached in part, the names are given of which there are fewer, but no more than so many.
MOST_NAMES = 8


def short(path):
    """A file of specs/ as `crate/Module`, and one of src/ as `crate/src/module.rt`."""
    _, crate, folder, *parts = path.parts
    place = "/".join(parts)
    return f"{crate}/{place.removesuffix('.antt')}" if folder == "specs" else f"{crate}/{folder}/{place}"


def link(path):
    return f"[`{short(path)}`](../{path})"


def of_kind(items, *kinds):
    """The items of these kinds, by their files."""
    found = collections.defaultdict(list)
    for item in sorted(items.values(), key=lambda item: (str(item.path), item.name)):
        if item.kind in kinds:
            found[item.path].append(item)
    return found


def lines_of(items):
    return sum(item.lines for item in items)


def misplaced(definitions):
    """What the list of topics has wrong: files that it lacks, and files that are not reached."""
    listed = [name for names in TOPICS.values() for name in names]
    reached = {short(path) for path in definitions}
    lacking = [f"{name} is reached and stands in no topic" for name in sorted(reached - set(listed))]
    idle = [f"{name} stands in a topic and is not reached" for name in listed if name not in reached]
    return lacking + idle + [f"{name} stands in two topics" for name in sorted(set(listed)) if listed.count(name) > 1]


def names_of(items):
    return ", ".join(f"`{item.name}`" for item in items)


def which(here: Source, items):
    """Which definitions of a file are reached, where not all are."""
    all_of_them = here.definitions()
    left = [item for item in all_of_them if item not in items]
    if not left:
        return ""
    if len(left) <= min(MOST_NAMES, len(items)):
        return f"all but {names_of(left)}"
    return names_of([item for item in all_of_them if item in items]) if len(items) <= MOST_NAMES else "a part"


def count(items, everything):
    return str(len(items)) if len(items) == len(everything) else f"{len(items)} of {len(everything)}"


def file_row(path, items):
    here = source(path)
    return f"| {link(path)} | {count(items, here.definitions())} | {lines_of(items)} | {which(here, items)} |"


def topic_rows(topic, paths, definitions):
    items = [item for path in paths for item in definitions[path]]
    head = f"| **{topic}** | **{len(items)}** | **{lines_of(items)}** | |"
    return [head] + [file_row(path, definitions[path]) for path in paths]


def definition_table(definitions):
    places = {short(path): path for path in definitions}
    rows = ["| file | definitions | lines | where not all: which |", "|---|---|---|---|"]
    for topic, names in TOPICS.items():
        rows += topic_rows(topic, [places[name] for name in names], definitions)
    return rows


def table_of_types(items):
    rows = ["| file | types and traits | lines |", "|---|---|---|"]
    for path, found in of_kind(items, *TYPES, "trait").items():
        named = [f"`{item.name}`" + (f" (seen as `{item.seen_as}`)" if item.seen_as else "") for item in found]
        rows.append(f"| {link(path)} | {', '.join(named)} | {lines_of(found)} |")
    return rows


def value(item):
    found = VALUE.search(item.text)[1]
    return "the text there" if '"' in found else f"`{found}`"


def table_of_constants(items):
    rows = ["| file | constants |", "|---|---|"]
    for path, found in of_kind(items, "const").items():
        rows.append(f"| {link(path)} | {', '.join(f'`{item.name}` = {value(item)}' for item in found)} |")
    return rows


def list_of_trusted(trusted):
    counted = collections.Counter(target.module for target in trusted)
    return ["| module | names of it that are used |", "|---|---|"] + [
        f"| `{module}` | {number} |" for module, number in sorted(counted.items())
    ]


def totals(items, definitions, trusted):
    reached = [item for found in definitions.values() for item in found]
    types = [item for item in items.values() if item.kind in (*TYPES, "trait")]
    constants = [item for item in items.values() if item.kind == "const"]
    modules = {target.module for target in trusted}
    return (
        f"The contract of `top` has {items[PROMISE].lines} lines with its head. It reaches {len(reached)} definitions "
        f"in {len(definitions)} files, {lines_of(reached):,} lines without comments. Beside them stand {len(types)} "
        f"types and traits, of {lines_of(types)} lines, {len(constants)} constants, and {len(trusted)} names of "
        f"{len(modules)} modules of the toolchain."
    )


def table(items, trusted):
    """The lines between the two markers."""
    definitions = of_kind(items, "definition")
    parts = [
        [totals(items, definitions, trusted)],
        definition_table(definitions),
        ["The types and traits in `src/` that these name, and what contracts see of a type with private fields:"],
        table_of_types(items),
        ["The constants in `src/` that these name:"],
        table_of_constants(items),
        ["The modules of the toolchain that these name, which are trusted:"],
        list_of_trusted(trusted),
    ]
    return "\n\n".join("\n".join(part) for part in parts)


def unreached(items):
    """The definitions that are not reached, by their files."""
    for path in spec_files():
        left = [item for item in source(path).definitions() if item.key not in items]
        if left:
            yield path, left
