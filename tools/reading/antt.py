"""The definitions of an .antt file, and the names that each of them uses.

A definition is what a line at the left edge declares, with the equations below it and the comment right above it. The
declarations of a `mutual` block are definitions of their own. Names are found by cutting the text, without comments and
strings, at white space and brackets. What is projected (`x.name`), a field that is given a value (`name = ..`) and a
variable that is bound is not a use of a name.
"""

import dataclasses
import re

COMMENT = re.compile(r"--.*")
STRING = re.compile(r'"(?:\\.|[^"\\])*"')
PIECE = re.compile(r"[^\s(){},;]+|[(){},;]")
USE = re.compile(r"^\s*(?:ghost )?use (Rattle\.[^ {;]+?)(?:\.\{([^}]*)\}| as (\S+?))?;?$", re.MULTILINE)
MUTUAL = re.compile(r"^(?:abbrev |unfoldable )?mutual$")
INFIX = re.compile(r"^infix[lr]? ")
DECLARATION = re.compile(r"^(?:abbrev |unfoldable )?(?:pub )?(?:(record|data) (\S+)|(\S+) :(?: |$))")
MEMBER = re.compile(r"^ +(?:pub )?(\S+) :(?: |$)")
BINDER = re.compile(r"[({]([^(){}:]+) : ")
LAMBDA = re.compile(r"λ (?:\(([^(){}:]+) : [^λ]*?\)|([^().]*))\. ")


@dataclasses.dataclass
class Definition:
    """A declaration with the numbers of its first and last line, and for `record` and `data` the names of its parts."""

    name: str
    kind: str
    first: int
    last: int
    parts: list = dataclasses.field(default_factory=list)
    text: str = ""
    lines: int = 0


def imports(text):
    """Each name that `use` lines bring in, with the module that it stands in and its name there.

    A module that is taken whole has no name there.
    """
    found = []
    for module, names, alias in USE.findall(text):
        if alias or not names:
            found.append((alias or module.rpartition(".")[2], module, None))
            continue
        for name in filter(None, (each.strip() for each in names.split(","))):
            there, _, here = name.partition(" as ")
            found.append((here or there, module, there))
    return found
