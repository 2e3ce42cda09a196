"""What `rt ci` has proved on this machine, for scripts that need it again.

The toolchain keeps it in a place of its own (STORE), by checksums of the sources, and its own
module knows it. `take` gets it from there, and writes the stamps by which other commands of the
toolchain take it as built.
"""
import importlib.machinery
import importlib.util
import os
import subprocess


def load():
    """The module of the command `rt`, which on the path may be a script that calls it."""
    page = subprocess.run(['rt', 'doc'], stdout=subprocess.PIPE, text=True, check=True).stdout
    loader = importlib.machinery.SourceFileLoader('rt', f'{os.path.dirname(page)}/bin/rt')
    rt = importlib.util.module_from_spec(importlib.util.spec_from_loader('rt', loader))
    loader.exec_module(rt)
    return rt


def take(tree, say):
    """Gives a tree what is proved of just its texts, and names these crates.

    A library gets the stamp by which `rt` takes it as built. None is taken without all below it.
    """
    taken = set()
    # (the module of another toolchain may differ in anything, and stop this program)
    try:
        rt = load()
        rt.Crate.allowed = rt.handles_of(tree)
        crates = rt.crates_of(tree) if os.path.isdir(rt.STORE) else []
        kept = rt.Kept(crates)
        for it in crates:
            has_below = taken.issuperset(low.name for low in it.below())
            if has_below and kept.give(it, False, kept.key(it)):
                kept.is_built(it)
                if it.makes_rlib():
                    with open(f'{it.folder}/out/rlib/stamp', 'w', encoding='utf-8') as stamp:
                        stamp.write(it.stamp())
                taken.add(it.name)
    except (Exception, SystemExit) as why:
        say(f"what rt ci has proved isn't taken: {why!r}")
    return taken
