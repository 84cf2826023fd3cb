"""Programs that measure: each is a crate of its own, which is added to a copy of the repository and built there."""

import os
import subprocess
import tempfile

TOP = os.path.dirname(os.path.dirname(os.path.abspath(__file__)))


def write_files(crate, files):
    for name, text in files.items():
        path = os.path.join(crate, name)
        os.makedirs(os.path.dirname(path), exist_ok=True)
        with open(path, "w") as out:
            out.write(text.lstrip())


def built(folder, name, deps, files, trial):
    """The program of this crate, in a copy of the repository in this folder, built by `rt run`, which runs it with the words of the trial."""
    copy = os.path.join(folder, "copy")
    crate = os.path.join(copy, "crates", name.split()[0])
    if not os.path.exists(copy):
        subprocess.run(["git", "clone", "-q", TOP, copy], check=True)
    if not os.path.exists(crate):
        with open(os.path.join(copy, "crates.txt"), "a") as crates:
            crates.write(f"{name}: {deps}\n")
    write_files(crate, files)
    subprocess.run(["rt", "run", "--", *trial], cwd=crate, check=True, stdin=subprocess.DEVNULL, stdout=subprocess.DEVNULL)
    return [os.path.join(crate, "out", os.path.basename(crate))]


def measured(words, name, deps, files, trial, measure):
    """Builds the program in the folder that the first word names, which is kept, or in one that goes; and measures it. `MEASURED` names a program
    that is there already, with words before its own, if any."""
    if "MEASURED" in os.environ:
        measure(os.environ["MEASURED"].split())
    elif words:
        measure(built(os.path.abspath(words[0]), name, deps, files, trial))
    else:
        with tempfile.TemporaryDirectory() as folder:
            measure(built(folder, name, deps, files, trial))
