#!/usr/bin/env python3
"""The kit's command `rt` as a module, which remembers what it asks of crates.

    scripts/gate/kit.py ci        `rt ci`, in this folder

What is below a crate, and the sum of its text and theirs, `rt` works out again at each question: along all ways from
the crate down, of which the program has more than a million. Here each crate is asked once. Nothing else is changed.
"""
import functools
import importlib.machinery
import importlib.util
import subprocess
import sys
from pathlib import Path


def kit():
    """The module. Both answers are the same for a crate as long as its text is."""
    page = subprocess.run(["rt", "doc"], check=True, stdout=subprocess.PIPE, text=True).stdout.strip()
    loader = importlib.machinery.SourceFileLoader("rt", str(Path(page).parent / "bin" / "rt"))
    module = importlib.util.module_from_spec(importlib.util.spec_from_loader("rt", loader))
    sys.dont_write_bytecode = True
    sys.modules["rt"] = module
    loader.exec_module(module)
    for name in ("below", "stamp"):
        asked = getattr(module.rtlib.Crate, name, None)
        if asked:
            setattr(module.rtlib.Crate, name, functools.cache(asked))
    return module


if __name__ == "__main__":
    sys.exit(kit().main(sys.argv[1:]))
