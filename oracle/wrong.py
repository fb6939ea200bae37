"""wrong.py SECOND [--reasons] [NAME..]: runs the comparison with orion-sdr on the library that second.py compiled
into SECOND, and then on each wrong program of the crates named, or of all. As oracle/wrong calls it."""
import argparse
import concurrent.futures
import os
import pathlib
import re
import subprocess
import sys
import tempfile
import time

import second  # it is what finds tests/
from programs import programs

WORKERS = int(os.environ.get("WORKERS", "2"))
# A run that takes so many times as long as all comparisons of the source as it is doesn't end.
LONGER = 10


def compared(base, place, names=(), limit=None):
    """Runs the comparisons of these names, or all, with the library in a folder: what they find, or None where all
    are equal, and what they print."""
    words = [base / "main", "--first"] + [word for name in names for word in ("--only", name)]
    try:
        done = subprocess.run(words, text=True, capture_output=True, timeout=limit, env=os.environ | {"LD_LIBRARY_PATH": str(place)})
    except subprocess.TimeoutExpired:
        return f"DOES NOT END in {limit:.0f} s", ""
    if done.returncode == 0:
        return None, done.stdout
    differs = re.search(r"^(.*): DIFFERENT", done.stdout, flags=re.M)
    if done.returncode == 1 and differs:
        return f"found by {differs[1]}", done.stdout
    panic = re.search(r"panicked at .*\n(.*)", done.stderr)
    assert panic or done.returncode < 0, f"the comparison ended with {done.returncode}: {done.stderr}"
    last = done.stdout.splitlines()[-1].split(": ")[0]
    return f"PANICS in {last}: {panic[1] if panic else f'signal {-done.returncode}'}", done.stdout


def plain(name):
    """A name's letters and digits alone, in lower case."""
    return re.sub(r"[^a-z0-9]", "", name.lower())


def stages(function, names):
    """Which comparisons are run for a function, one after the other: its own, those of its type and of functions of
    its name, and all."""
    last = function.split("::")[-1].removeprefix("salt_")
    whole = plain(last if "salt_" in function else function)
    heads = {name: name.split(",")[0] for name in names}
    own = [name for name in names if whole.endswith(plain(heads[name])) or plain(heads[name]).startswith(whole)]
    related = [name for name in names if plain(heads[name].split("::")[0]) in whole or plain(last) in plain(heads[name])]
    return [stage for stage in (own, [name for name in related if name not in own]) if stage] + [[]]


def tried(base, names, limit, crate, program):
    """What finds a wrong program: None where nothing does, or that it doesn't compile."""
    with tempfile.TemporaryDirectory() as folder:
        place = pathlib.Path(folder)
        try:
            second.build(place, base, crate, program.edits)
        except second.Refused as reason:
            return f"BAD EDIT: {next(iter(re.findall(r'error.*', str(reason))), reason)}"
        for stage in stages(program.of, names):
            found, _ = compared(base, place, stage, limit)
            if found:
                return found
    return None


def told(crate, results, every):
    """Prints what became of a crate's wrong programs, and counts those that were found and those that were not."""
    found = missed = panics = 0
    for program, how in results:
        bad = how is None or how.startswith("BAD EDIT")
        found += not bad
        missed += bad
        panics += bool(how) and how.startswith("PANICS")
        if bad:
            print(f"{crate} {program.name}: {how or 'NOT FOUND'} ({program.wrong})", flush=True)
        elif every or not how.startswith("found"):
            print(f"{crate} {program.name}: {how}", flush=True)
    print(f"{crate}: {found} of {found + missed} wrong programs found, {panics} of them by a panic", flush=True)
    return found, missed


def arguments():
    """What the command line asks for."""
    parser = argparse.ArgumentParser()
    parser.add_argument("second", type=pathlib.Path)
    parser.add_argument("--reasons", action="store_true")
    parser.add_argument("crates", nargs="*", metavar="NAME", choices=[[], *second.crates()])
    return parser.parse_intermixed_args()


def main():
    words = arguments()
    base = words.second.resolve()
    began = time.monotonic()
    difference, printed = compared(base, base)
    limit = LONGER * (time.monotonic() - began)
    if difference:
        print(f"{printed}the source compiled by rustc: {difference}\n0 passed, 1 failed")
        return 1
    names = re.findall(r"^(.*): \d+ (?:compared with|held against)", printed, flags=re.M)
    print(f"the source compiled by rustc: equal in {len(names)} comparisons", flush=True)
    passed, failed = 1, 0
    with concurrent.futures.ThreadPoolExecutor(WORKERS) as pool:
        for crate in words.crates or second.crates():
            wanted = programs(crate)
            results = zip(wanted, pool.map(lambda program: tried(base, names, limit, crate, program), wanted))
            found, missed = told(crate, results, words.reasons)
            passed, failed = passed + found, failed + missed
    print(f"{passed} passed, {failed} failed")
    return int(failed > 0)


if __name__ == "__main__":
    sys.exit(main())
