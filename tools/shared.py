"""What several tools use: another tool as a module, where the program is, what crates.txt says, and files that are linked.
It needs Python 3.8 or later."""
import functools
import importlib.machinery
import importlib.util
import os
import shutil
import subprocess
import sys

TOP = os.path.dirname(os.path.dirname(os.path.abspath(__file__)))


def module(name):
    """Another tool, as a module. It leaves no compiled file beside it."""
    sys.dont_write_bytecode = True
    loader = importlib.machinery.SourceFileLoader(name, f"{TOP}/tools/{name}")
    made = importlib.util.module_from_spec(importlib.util.spec_from_loader(name, loader))
    loader.exec_module(made)
    return made


@functools.lru_cache(None)
def program():
    """Where the program is that bin/threev runs. It is compiled first, where no build is up to date."""
    made = subprocess.run([f"{TOP}/tools/build"], stdout=subprocess.PIPE, text=True)
    return made.stdout.strip() or sys.exit(made.returncode)


@functools.lru_cache(None)
def uses():
    """For each crate those that crates.txt names beside it."""
    with open(f"{TOP}/crates.txt", encoding="utf-8") as it:
        rows = [row.partition("#")[0].partition(":") for row in it]
    return {head.strip(): tail.split() for head, _, tail in rows if head.strip()}


@functools.lru_cache(None)
def below(crate):
    """All crates on which a crate depends, itself first, and then each before those that only others name."""
    found = [crate]
    for it in found:
        found += [one for one in uses().get(it, ()) if one not in found]
    return found


def link_or_copy(one, other):
    """Gives a file a second name, or copies it where that can't be. It is for files that are replaced, and not changed."""
    try:
        os.link(one, other)
    except OSError:
        shutil.copy2(one, other)
