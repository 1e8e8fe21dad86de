"""The kit's own rtlib.py, which knows the words that the prover is given for each crate of the repository."""
import importlib.machinery
import importlib.util
import os
import shutil
import subprocess
import sys

ROOT = os.path.abspath(f"{__file__}/../../..")


def look_for_rt():
    """Ends with one line where there is no `rt`."""
    if not shutil.which("rt"):
        sys.exit("rt is missing: put the folder bin of the Rattle kit on the PATH (README.md has its name)")


def kit():
    """The kit's folder and its rtlib.py."""
    look_for_rt()
    told = subprocess.run(["rt", "doc"], stdout=subprocess.PIPE, text=True, check=True).stdout
    folder = os.path.dirname(told.strip())
    loader = importlib.machinery.SourceFileLoader("rtlib", os.path.join(folder, "bin", "rtlib.py"))
    made = importlib.util.module_from_spec(importlib.util.spec_from_loader("rtlib", loader))
    sys.modules["rtlib"] = made
    loader.exec_module(made)
    return folder, made


def crate_of(rtlib, name):
    """The crate, with those below it, as the kit sees it."""
    return rtlib.Crate(os.path.join(ROOT, "crates", name), ROOT, {}, name=None)


def last_change(folder):
    """When a source of the crate was last changed, made or removed."""
    found = [os.path.getmtime(os.path.join(ROOT, "crates.txt"))]
    for part in ("src", "specs", "proofs"):
        for at, _, files in os.walk(os.path.join(folder, part)):
            found += [os.path.getmtime(os.path.join(at, name)) for name in (".", *files)]
    return max(found)
