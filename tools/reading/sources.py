"""The files of this repository as items: definitions of .antt files, and types, constants and traits of .rt files.

An item begins with a line that declares it and has a number of lines of text; comments are left out. The names that it
uses are found by cutting its text at white space and brackets. A field that is projected (`x.name`) or is given a value
(`name = ..`) is no use. A variable that has the name of an item counts as a use of it: so one item too many may be
counted, and none too few.
"""

import dataclasses
import functools
import pathlib
import re

TOP = pathlib.Path(__file__).resolve().parent.parent.parent
CRATES = TOP / "crates"

# What stands in quotes, and a comment. Either may have what begins the other.
ANTT_ASIDE = re.compile(r'"(?:\\.|[^"\\])*"|--[^\n]*')
RUST_ASIDE = re.compile(r'"(?:\\.|[^"\\])*"|//[^\n]*', re.DOTALL)
PIECE = re.compile(r"[^\s(){},;]+|[(){},;]")
WORD = re.compile(r"(?<![\w.'])[A-Za-z_]\w*")

GHOST_USE = re.compile(r"^\s*(?:ghost )?use (Rattle\.[^ {;\n]+?)(?:\.\{([^}]*)\}| as (\S+?))?;?$", re.MULTILINE)
RUST_USE = re.compile(r"^(?:pub )?use ([\w:]+?)(?:::\{([^}]*)\})?;", re.MULTILINE)

MUTUAL = re.compile(r"^(?:abbrev |unfoldable )?mutual$")
NO_ITEM = re.compile(r"^(?:use |pub mod |infix)")
DEFINITION = re.compile(
    r"^(?:abbrev |unfoldable )?(?:pub )?(?:(record|data) ([^\s(){}]+)|([^\s(){}-][^\s(){}]*) :(?: |$))"
)
CONSTRUCTOR = re.compile(r"^ +([^\s(){}]+) :(?: |$)")
RUST_ITEM = re.compile(r"^(?:pub(?:\(\w+\))? )?(struct|enum|type|const|trait|fn) (\w+)")
MODEL = re.compile(r"^impl(?:<.*>)? Model for (\w+)")
VALUE = re.compile(r"^ +ghost Value = \{ (.*) \};")
# The names of fields and variants, which are no uses.
FIELD = re.compile(r"\b(?:pub )?\w+: ")
VARIANT = re.compile(r"^    \w+(?=[,({]| \{)", re.MULTILINE)


@dataclasses.dataclass
class Item:
    """What a file declares under a name. `text` is what its names are looked for in."""

    path: pathlib.PurePath
    name: str
    kind: str
    text: str
    lines: int
    constructors: list = dataclasses.field(default_factory=list)
    seen_as: str = ""

    @property
    def key(self):
        return self.path, self.name

    def words(self):
        """The names that the item may use."""
        pieces = PIECE.findall(self.text)
        used = set(WORD.findall(self.text)) if self.path.suffix == ".rt" else set()
        for before, piece, after in zip([""] + pieces, pieces, pieces[1:] + [""]):
            if not (after == "=" and before in ("{", ";", "let")):
                used.add(piece.split(".")[0] or piece)
        return used


@dataclasses.dataclass
class Source:
    """A file: its items by their names, those of constructors too, and what its `use` lines bring in by name."""

    path: pathlib.PurePath
    items: dict
    imports: list

    def definitions(self):
        """The items, each once, in their order."""
        return list({item.name: item for item in self.items.values()}.values())


def imported(text):
    """Each name that `use` lines bring in, as (name here, module, name there); no name there is the whole module."""
    found = []
    for module, names, alias in GHOST_USE.findall(text):
        if alias or not names:
            found.append((alias or module.rpartition(".")[2], module, ""))
        for name in filter(None, (each.strip() for each in names.split(","))):
            there, _, here = name.partition(" as ")
            found.append((here or there, module, there))
    return found


def used_in_rust(text):
    """The same for `use` lines of Rust, whose modules are written with colons."""
    found = []
    for module, names in RUST_USE.findall(text):
        if not names:
            module, _, names = module.rpartition("::")
        for name in filter(None, (each.strip() for each in names.split(","))):
            there, _, here = name.partition(" as ")
            found.append((here or there, module, there))
    return found


def plain(lines, aside):
    """The text of lines without comments and with empty strings, and on how many lines something is left."""
    text = aside.sub(lambda found: '""' * found[0].startswith('"') + "\n" * found[0].count("\n"), "\n".join(lines))
    return text, sum(1 for line in text.split("\n") if line.strip())


def starts_of_definitions(lines):
    """The line and the match of each declaration, and the lines that end the one before without being one."""
    starts, indent = [], ""
    for number, line in enumerate(lines):
        if line[:1].strip() and not line.startswith("--"):
            indent = "  " if MUTUAL.match(line) else ""
            if MUTUAL.match(line) or NO_ITEM.match(line):
                starts.append((number, None))
                continue
        found = DEFINITION.match(line[len(indent):]) if line.startswith(indent) else None
        if found:
            starts.append((number, found))
    return starts + [(len(lines), None)]


def definitions(path, text):
    """The definitions of an .antt file. `record` and `data` have the lines of their parts, and `data` their names."""
    lines, found = text.split("\n"), []
    starts = starts_of_definitions(lines)
    for (first, match), (end, _) in zip(starts, starts[1:]):
        if match:
            body, count = plain(lines[first:end], ANTT_ASIDE)
            parts = filter(None, map(CONSTRUCTOR.match, body.split("\n")[1:])) if match[1] == "data" else []
            name = match[2] or match[3]
            found.append(Item(path, name, "definition", body, count, [part[1] for part in parts]))
    return found


def end_of_item(lines, first, kind):
    """The line behind an item of Rust. Of a function only the head is taken, with its contract."""
    for number in range(first, len(lines)):
        line = lines[number]
        if kind == "fn":
            if line == "{":
                return number
        elif line.startswith("}") or (line.endswith((";", "}")) and (number == first or kind in ("const", "type"))):
            return number + 1
    return len(lines)


def rust_items(path, text):
    """The types, constants, traits and functions of a .rt file that stand at the left edge."""
    lines, found = text.split("\n"), {}
    for number, line in enumerate(lines):
        match, model = RUST_ITEM.match(line), MODEL.match(line)
        if match:
            body, count = plain(lines[number:end_of_item(lines, number, match[1])], RUST_ASIDE)
            body = VARIANT.sub("", body) if match[1] == "enum" else body
            body = FIELD.sub("", body) if match[1] in ("struct", "enum") else body
            found.setdefault(match[2], Item(path, match[2], match[1], body, count))
        if model and model[1] in found:
            see_as_value(found[model[1]], lines[number:end_of_item(lines, number, "impl")])
    return list(found.values())


def see_as_value(item, lines):
    """Contracts see a type that has a model as its `Value`: the fields are private, and are not looked at."""
    value = next(filter(None, map(VALUE.match, lines)), None)
    if value:
        item.seen_as = value[1]
        item.text = value[1]


@functools.lru_cache(maxsize=None)
def source(path):
    """A file, by its path below the top."""
    text = (TOP / path).read_text()
    antt = path.suffix == ".antt"
    items = definitions(path, text) if antt else rust_items(path, text)
    named = {item.name: item for item in items}
    for item in items:
        for constructor in item.constructors:
            named.setdefault(constructor, item)
    return Source(path, named, imported(text) + ([] if antt else used_in_rust(text)))


def spec_files():
    """Each file of definitions, without those that only list the modules of a folder."""
    found = sorted(CRATES.glob("*/specs/**/*.antt"))
    paths = [pathlib.PurePath(path.relative_to(TOP)) for path in found]
    return [path for path in paths if source(path).items]
