"""Checks of one crate that begin from its last proof. A proved library keeps its checked modules in its rlib; laid into the incremental folder of `rt dev`
they are loaded, and only what an edit touches is checked anew. That is no verdict: it trusts the rlibs under target/, which `rt check` and `rt ci` write.

A check stands in a folder of its own, a shadow of the repository: links to the crates and to the rlibs, a crates.txt that lists one crate, and that crate's
files, which may be edited there. So the work tree is never touched, and checks run beside each other."""

import collections
import os
import re
import shutil
import subprocess

ROOT = os.path.abspath(os.path.join(os.path.dirname(__file__), ".."))
CRATES = os.path.join(ROOT, "crates")
RLIBS = os.path.join(ROOT, "target", "rlib")
# Where a crate's own files stand, of which a proof is made.
PARTS = ("src", "specs", "proofs")


class Unseeded(Exception):
    """The modules of a proof are not where they are looked for, or are not taken from there."""


def crates():
    """The crates of crates.txt, each with what it stands on, in the file's order."""
    found = {}
    with open(os.path.join(ROOT, "crates.txt"), encoding="utf-8") as file:
        for line in file:
            name, colon, below = line.split("#")[0].partition(":")
            if colon:
                found[name.strip()] = below.split()
    return found


def is_program(name):
    return os.path.exists(os.path.join(CRATES, name, "src", "main.rt"))


def root_file(name, folder=CRATES):
    return os.path.join(folder, name, "src", "main.rt" if is_program(name) else "lib.rt")


def modules_of(name):
    """The folder of a library's checked modules."""
    folder = os.path.join(RLIBS, name + ".rlib", "toolchain", "checked")
    if not os.path.isdir(folder) or not any(module.endswith(".oantt") for module in os.listdir(folder)):
        raise Unseeded(f"no checked modules in {os.path.relpath(folder, ROOT)}: {name} is not proved, or its rlib is laid out in another way")
    return folder


def shadow(folder, own=None):
    """Makes a shadow of the repository. The crate `own` has a copy of its files there, the others are links."""
    os.makedirs(os.path.join(folder, "crates"))
    os.makedirs(os.path.join(folder, "target", "inc"))
    os.symlink(RLIBS, os.path.join(folder, "target", "rlib"))
    for name in crates():
        if name != own:
            os.symlink(os.path.join(CRATES, name), os.path.join(folder, "crates", name))
    if own:
        for part in PARTS:
            if os.path.isdir(os.path.join(CRATES, own, part)):
                shutil.copytree(os.path.join(CRATES, own, part), os.path.join(folder, "crates", own, part))


def incremental_name(room):
    """The prover keeps modules below a folder that is named after its build: how it is called, as a check of `limits`, which takes a second, makes it."""
    folder = os.path.join(room, "limits")
    shadow(folder)
    said = check(folder, "limits", [])
    made = os.listdir(os.path.join(folder, "target", "inc", "limits"))
    if said.status != 0 or len(made) != 1:
        raise Unseeded(f"a check of limits made {made or 'nothing'} in its incremental folder, and not one folder: it is laid out in another way\n{said.text}")
    shutil.rmtree(folder)
    return made[0]


def seed(folder, inside, name, into=None):
    """Lays the modules of a library's proof into the incremental folder of a check of the crate `into`, or of itself."""
    place = os.path.join(folder, "target", "inc", into or name, inside)
    shutil.copytree(modules_of(name), place, dirs_exist_ok=True)


Said = collections.namedtuple("Said", "status text proved loaded checked first")


def check(folder, name, below, *words):
    """`rt dev` on a crate of a shadow, over the rlibs of the crates below it: its status and its text; whether the crate is proved; how many of its modules were
    loaded and how many checked; and the place of the first error."""
    with open(os.path.join(folder, "crates.txt"), "w", encoding="utf-8") as file:
        file.write(f"{name}: {' '.join(below)}\n")
    ran = subprocess.run(["rt", "dev", name, *words], cwd=folder, stdout=subprocess.PIPE, stderr=subprocess.STDOUT, check=False)
    text = ran.stdout.decode(errors="replace")
    counts = re.search(rf"^crate {name}: modules loaded=(\d+) checked=(\d+)$", text, re.M)
    loaded, checked = map(int, counts.groups()) if counts else (None, None)
    error = re.search(r"^(\S+): error", text, re.M) or re.search(r"^note: (\S+:\d+:\d+):", text, re.M)
    first = error and error.group(1).removeprefix(os.path.join(os.path.realpath(folder), "crates", name, ""))
    proved = ran.returncode == 0 and re.search(r"^logic=proved", text, re.M) is not None
    return Said(ran.returncode, text, proved, loaded, checked, first)
