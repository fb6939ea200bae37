"""The crates of the tree and the functions of their Rattle source, as every script in Python reads them."""
import dataclasses
import pathlib
import re

root = pathlib.Path(__file__).resolve().parent.parent
IMPL = r"^impl(?:<[^{]*?>)? (?:(?P<law>\w+)(?:<(?P<at>\w+)[^{]*?>)? for )?(?P<owner>\w+)"
MARK = re.compile(IMPL + r'|^\}|^ *(?P<open>pub(?P<within>\(\w+\))? )?(?:extern "C" )?fn (?P<name>\w+)', flags=re.M)
CLAUSE = re.compile(r"\s*\b(?:requires|ensures)\b[^{]*")
BODY = re.compile(r"\s*\{")
QUIET = re.compile(r"//.*|\"[^\"\n]*\"|'.'")


@dataclasses.dataclass
class Function:
    """A function: its path behind the crate's name, its file, whether it is public (no function of a module `inner`
    is), where it, its body and its end begin there, what it takes and answers, and its contract."""

    path: str
    file: str
    public: bool
    begin: int
    body: int
    end: int
    head: str
    contract: str


def crates():
    """The crates in their order, each with those that it stands on."""
    lines = [line.split(":") for line in (root / "crates.txt").read_text().splitlines() if ":" in line]
    listed = {name.split()[0]: below.split() for name, below in lines}
    return {name: [one for one in below if one in listed] for name, below in listed.items()}


def is_program(crate):
    """Whether a crate is a program, and no library."""
    return (root / "crates" / crate / "src" / "main.rt").is_file()


def closed(text, at):
    """The place behind the bracket that closes the one at a place."""
    depth = 0
    for place in range(at, len(text)):
        depth += (text[place] in "({[") - (text[place] in ")}]")
        if depth == 0:
            return place + 1
    raise ValueError(f"nothing closes: {text[at : at + 60]}")


def read(text, file="", module=""):
    """The functions of a text."""
    owner, code = "", QUIET.sub(lambda found: " " * len(found[0]), text)
    for mark in MARK.finditer(text):
        if not mark["name"]:
            owner = "".join(part[0].upper() + part[1:] for part in mark.group("owner", "law", "at") if part)
            owner += "::" if owner else ""
            continue
        taken = closed(code, code.index("(", mark.end()))
        promised = at = min(found.start() for found in (CLAUSE.search(code, taken), BODY.search(code, taken)) if found)
        while clause := CLAUSE.match(code, at):
            at = closed(code, clause.end())
        public = bool(mark["open"]) and not mark["within"] and not module.startswith("inner::")
        end = closed(code, code.index("{", at))
        head = text[mark.start() : promised]
        yield Function(module + owner + mark["name"], file, public, mark.start(), at, end, head, text[promised:at])


def functions(crate):
    """The functions of a crate."""
    found, source = [], root / "crates" / crate / "src"
    for file in sorted(source.rglob("*.rt")):
        name = file.relative_to(source)
        module = "".join(f"{part}::" for part in name.with_suffix("").parts if part not in ("lib", "main"))
        found += read(file.read_text(), f"src/{name}", module)
    return found


def named(known, name):
    """The functions that a name stands for: the one whose path it is, else all whose path ends with it."""
    return [one for one in known if one.path == name] or [one for one in known if one.path.endswith(f"::{name}")]
