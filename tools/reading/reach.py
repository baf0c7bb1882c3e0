"""What is reached from the contract of `top`: each item that it names, and each that a reached item names."""

import dataclasses
import pathlib

from sources import CRATES, TOP, Item, source

PROMISE = pathlib.PurePath("crates/sc_top/src/program.rt"), "top"
# Endings of the names that the toolchain makes beside a type, as in `Tag.TheVariants` and `TagPartialEq.TheImpl`.
DERIVED = ("PartialEq", "Eq", "Clone", "Debug", "Drop")


class Unknown(Exception):
    """A name that a `use` line brings in and no file has."""


@dataclasses.dataclass(frozen=True)
class Trusted:
    """A name of the standard library or of a crate of the toolchain, which is not looked into."""

    module: str
    name: str


def path_of(crate, folder, module, suffix):
    return pathlib.PurePath("crates", crate, folder, *module).with_suffix(suffix)


def item_of(path, name):
    item = source(path).items.get(name) if (TOP / path).is_file() else None
    if item is None:
        raise Unknown(f"{path} has no {name}")
    return item


def without_derived(name):
    """The type of which a derived implementation is, as `Tag` of `TagPartialEq`."""
    return next((name.removesuffix(end) for end in DERIVED if name.endswith(end) and name != end), name)


def declared(crate, parts, name):
    """A type or constant of src, by a path such as `chart.Tag.TheVariants` or `limits.TheConstants`."""
    depth = next(number for number, part in enumerate(parts) if part[0].isupper())
    path = path_of(crate, "src", parts[:depth], ".rt")
    return item_of(path, name if parts[depth] == "TheConstants" else without_derived(parts[depth]))


def ghost_target(module, name):
    """What a name of a `ghost use`, or of a `use` in an .antt file, stands for."""
    _, crate, *parts = module.split(".")
    if not (CRATES / crate).is_dir():
        return Trusted(module, name)
    if parts[0] != "specs":
        raise Unknown(f"{module} is not in specs/, so nothing that is promised may name it")
    if parts[1] in ("declared", "contracts"):
        return declared(crate, parts[2:], name)
    return item_of(path_of(crate, "specs", parts[1:], ".antt"), name)


def rust_target(crate, module, name):
    """What a name of Rust's `use` stands for: an item of a module, or what the module passes on."""
    first, *parts = module.split("::")
    crate = crate if first == "crate" else first
    if not (CRATES / crate).is_dir():
        return Trusted(module, name)
    path = path_of(crate, "src", parts or ["lib"], ".rt")
    if not (TOP / path).is_file():
        raise Unknown(f"{path} is not there")
    if name in source(path).items:
        return source(path).items[name]
    for here, passed, there in source(path).imports:
        if here == name and not passed.startswith("Rattle."):
            return rust_target(crate, from_the_crate(crate, passed), there)
    raise Unknown(f"{path} has no {name}")


def from_the_crate(crate, module):
    """A module that a file passes on, named from the crate where it is one of the crate's own."""
    first = module.split("::")[0]
    return f"crate::{module}" if (TOP / path_of(crate, "src", [first], ".rt")).is_file() else module


def has_name(words, name):
    """Whether a name is among the words of a text, or all parts of it where it is an operator's."""
    return all(part in words for part in name.split("◌") if part) if "◌" in name else name in words


def targets(item):
    """What an item names: items of this repository, and trusted names."""
    here = source(item.path)
    used = item.words()
    crate = item.path.parts[1]
    found = [other for name, other in here.items.items() if has_name(used, name) and other.key != item.key]
    for name, module, there in here.imports:
        if has_name(used, name):
            ghost = module.startswith("Rattle.")
            found.append(ghost_target(module, there) if ghost else rust_target(crate, module, there))
    return found


def reached(start=PROMISE):
    """The items that are reached, by their keys, and the trusted names."""
    items, trusted, waiting = {}, set(), [item_of(*start)]
    while waiting:
        target = waiting.pop()
        if isinstance(target, Trusted):
            trusted.add(target)
        elif target.key not in items:
            items[target.key] = target
            waiting.extend(targets(target))
    return items, trusted
