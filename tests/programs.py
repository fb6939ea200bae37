"""The wrong programs of a crate, as tests/wrong, tests/promises and oracle/wrong read them; each changes one function.

In crates/NAME/wrong-programs.txt a wrong program is a line `NAME of FUNCTION: what it does wrong`, or
`NAME of FUNCTION in OTHER: ..` where it changes another function of the crate, and pairs of lines: behind `- ` a text
that stands once in the body of the changed function, and behind `+ ` what stands there instead. Those that document 01
names are must-fail edits of the toolchain (crates/NAME/must-fail/NAME.edit), with a `#` for the name in the first line;
one that changes a definition, in specs/, is the toolchain's alone."""
import dataclasses
import re

from rattle import functions, named, root

HEAD = re.compile(r"(?P<name>[\w#]+) of (?P<of>[\w:]+)(?: in (?P<place>[\w:]+))?: (?P<wrong>.+)")
PAIR = re.compile(r"^(?:- |old: )(.*)\n(?:\+ |new: )(.*)$", flags=re.M)


@dataclasses.dataclass
class Program:
    """A wrong program: its name, the function that it is one of, what it does wrong, the function that it changes with
    its lines, and its edits as (file, place, old, new)."""

    name: str
    of: str
    wrong: str
    changed: str
    lines: range
    edits: list


def applied(path, text, edits):
    """The text of a file with those of the edits that are its own."""
    for where, at, old, new in sorted(edits, key=lambda edit: -edit[1]):
        if where == path:
            text = text[:at] + new + text[at + len(old) :]
    return text


def only(found, what):
    """The one thing that was found."""
    assert len(found) == 1, f"{what}: there are {len(found)}"
    return found[0]


def read(crate, known, texts, written, name=None):
    """The wrong program that is written so, by the crate's functions and the texts of its files; a must-fail edit has a
    name of its own."""
    head, pairs = HEAD.match(written), PAIR.findall(written)
    assert head and pairs, f"{crate}: no wrong program: {written}"
    title, edits = f"{crate} {name or head['name']}", []
    place = only(named(known, head["place"] or head["of"]), f"{title}: functions to change")
    for old, new in pairs:
        at = [found.start() for found in re.finditer(re.escape(old), texts[place.file][place.body : place.end])]
        edits.append((place.file, place.body + only(at, f"{title}: places of {old}"), old, new))
    of = only(named(known, head["of"]), f"{title}: functions {head['of']}").path
    lines = range(*(texts[place.file].count("\n", 0, at) + more for at, more in ((place.begin, 1), (place.end, 2))))
    return Program(name or head["name"], of, head["wrong"], f"{crate}::{place.path}", lines, edits)


def programs(crate):
    """The wrong programs of a crate."""
    folder, known = root / "crates" / crate, functions(crate)
    texts = {one.file: (folder / one.file).read_text() for one in known}
    laid = {path: path.read_text() for path in sorted(folder.glob("must-fail/*.edit"))}
    edits = [read(crate, known, texts, text, path.stem) for path, text in laid.items() if "file: specs/" not in text]
    listed = folder / "wrong-programs.txt"
    blocks = re.split(r"\n{2,}", listed.read_text().strip() if listed.is_file() else "")[1:]
    return edits + [read(crate, known, texts, block) for block in blocks]
