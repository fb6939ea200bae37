"""second.py OUT: compiles the library's own Rattle source with rustc, as a dynamic library with the same C interface,
OUT/libsaltkernel.so.

What Rattle has beyond Rust is taken away: contracts, ghost lines and tactics. The kit's calls go to kit.rs, and each
function for C becomes a plain one and a covering one that takes a slice as a pointer and a length. Overflow is checked,
and a panic ends the process."""
import os
import pathlib
import re
import subprocess
import sys

sys.path.insert(0, str(pathlib.Path(__file__).resolve().parent.parent / "tests"))
import rattle  # noqa: E402
from programs import applied  # noqa: E402
from rattle import root  # noqa: E402

TOP = "saltkernel"
GHOST = re.compile(r"^ *ghost .*?(?:;|\},)\n", flags=re.M | re.S)
DROP = re.compile(r"^#\[derive\(Drop\)\]\n", flags=re.M)
TACTIC = re.compile(r"^ *#!?\[tactic\(.*\)\]\n", flags=re.M)
KIT = re.compile(r"\b(std::num|io)::(?=\w+\()")
FOR_C = re.compile(r'#\[unsafe\(no_mangle\)\]\npub extern "C" (fn (\w+)\(([^)]*)\)( -> \w+)?)')
LENDING = """
fn lent<'a, T>(items: *const T, length: usize) -> &'a [T] {
    if length == 0 { &[] } else { unsafe { std::slice::from_raw_parts(items, length) } }
}

fn lent_mut<'a, T>(items: *mut T, length: usize) -> &'a mut [T] {
    if length == 0 { &mut [] } else { unsafe { std::slice::from_raw_parts_mut(items, length) } }
}
"""


class Refused(Exception):
    """What rustc says against a crate."""


def crates():
    """The library's crates in their order, each with those that it stands on."""
    wanted, known = {TOP}, rattle.crates()
    for name in reversed(known):
        wanted |= set(known[name]) if name in wanted else set()
    return {name: below for name, below in known.items() if name in wanted}


def above(crate):
    """A crate and those that stand on it, in order."""
    found = []
    for name, below in crates().items():
        if name == crate or set(below) & set(found):
            found.append(name)
    return found


def as_crossed(parameter):
    """How a parameter of a function for C crosses: its declarations, and the argument made of them."""
    name, kind = parameter.split(": ")
    lent = re.fullmatch(r"&(mut )?(\[(\w+)\]|.+)", kind)
    if not lent:
        return parameter, name
    pointer = "*mut" if lent[1] else "*const"
    if lent[3]:
        return f"{name}: {pointer} {lent[3]}, {name}_length: usize", f"crate::lent{'_mut' if lent[1] else ''}({name}, {name}_length)"
    return f"{name}: {pointer} {lent[2]}", f"&{lent[1] or ''}*{name}"


def covering(found):
    """A function for C as a plain one, behind the one that covers it."""
    crossed = [as_crossed(parameter.strip()) for parameter in found[3].split(",\n" if "\n" in found[3] else ", ") if parameter.strip()]
    declared, given = ", ".join(one for one, _ in crossed), ", ".join(one for _, one in crossed)
    cover = f'#[export_name = "{found[2]}"]\npub unsafe extern "C" fn for_c_{found[2]}({declared}){found[4] or ""} {{\n    {found[2]}({given})\n}}\n'
    return f"{cover}\npub {found[1]}"


def as_rust(text):
    """A Rattle file as Rust."""
    for function in reversed(list(rattle.read(text))):
        text = text[: function.begin] + text[function.begin :].replace(function.contract, "", 1)
    text = DROP.sub("", TACTIC.sub("", GHOST.sub("", text)))
    return FOR_C.sub(covering, KIT.sub("kit::", text))


def sources(crate, edits=()):
    """The files of a crate's source as Rust by name, with a wrong program's edits applied."""
    found = {}
    for file in sorted((root / "crates" / crate / "src").glob("*.rt")):
        found[file.stem + ".rs"] = as_rust(applied(f"src/{file.name}", file.read_text(), edits))
    if crate == TOP:
        found["lib.rs"] += LENDING
    return found


def rustc(place, name, file, kind, below):
    """Compiles a file into a folder that has the crates below it."""
    made = place / f"lib{name}.{'so' if kind == 'cdylib' else kind}"
    made.unlink(missing_ok=True)
    words = ["rustc", "--edition", "2021", "--cap-lints", "allow", "--crate-type", kind, "--crate-name", name, "-L", f"dependency={place}"]
    words += ["-C", "opt-level=2", "-C", "overflow-checks=on", "-C", "panic=abort", "-o", str(made), str(file)]
    for one in below:
        words += ["--extern", f"{one}={place}/lib{one}.rlib"]
    done = subprocess.run(words, text=True, capture_output=True, cwd=place)
    if done.returncode != 0:
        raise Refused(f"{name}: {done.stderr}")


def build(place, base=None, changed=TOP, edits=()):
    """Compiles the library into a folder: all of it, or a crate changed by edits and those above it, with the others
    from where they were built before."""
    place.mkdir(parents=True, exist_ok=True)
    anew = above(changed) if base else list(crates())
    if base:
        for name in ["kit", *crates()]:
            if name not in anew:
                os.symlink(base / f"lib{name}.rlib", place / f"lib{name}.rlib")
    else:
        rustc(place, "kit", root / "oracle" / "kit.rs", "rlib", [])
    for name in anew:
        folder = place / name
        folder.mkdir(exist_ok=True)
        for file, text in sources(name, edits if name == changed else ()).items():
            (folder / file).write_text(text)
        rustc(place, name, folder / "lib.rs", "cdylib" if name == TOP else "rlib", ["kit", *crates()[name]])


if __name__ == "__main__":
    build(pathlib.Path(sys.argv[1]).resolve())
