"""The Rattle kit's own program `rt` as a module: how it finds the crates, copies and checks one, and shares out the processors."""
import importlib.machinery
import importlib.util
import os
import subprocess
import sys

sys.dont_write_bytecode = True


def load_rt():
    page = subprocess.run(["rt", "doc"], capture_output=True, text=True, check=True).stdout.strip()
    loader = importlib.machinery.SourceFileLoader("rt", f"{os.path.dirname(page)}/bin/rt")
    made = importlib.util.module_from_spec(importlib.util.spec_from_loader("rt", loader))
    loader.exec_module(made)
    # (its first call sets a signal's handler, which only the main thread may)
    made.rtlib.guarded()
    return made
