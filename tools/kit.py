"""The kit's own rt as a module, for what its commands do not offer: a check of a crate with an edit, and a build over what `rt ci` proved."""

import importlib.machinery
import importlib.util
import os
import subprocess
import sys
import tempfile

sys.dont_write_bytecode = True
# the repository's top
TOP = os.path.dirname(os.path.dirname(os.path.abspath(__file__)))
# .ci/run makes this file once `rt ci` has passed, with the time when that began
PROVED = f"{TOP}/target/proved"


def load():
    page = subprocess.run(["rt", "doc"], stdout=subprocess.PIPE, text=True, check=True).stdout.strip()
    loader = importlib.machinery.SourceFileLoader("kit_rt", f"{os.path.dirname(page)}/bin/rt")
    made = importlib.util.module_from_spec(importlib.util.spec_from_loader("kit_rt", loader))
    sys.modules["kit_rt"] = made
    loader.exec_module(made)
    made.rtlib.Crate = made.Crate
    # (it sets a signal's handler, which only the main thread may)
    made.rtlib.guarded()
    return made


rt = load()
lanes = int(os.environ.get("RT_JOBS") or os.cpu_count() or 1)


def crates():
    """The crates of crates.txt by their names, lowest first."""
    found = sorted(rt.rtlib.crates_below(TOP), key=lambda crate: len(crate.below()))
    return {crate.name: crate for crate in found}


def is_proved(crate):
    """Whether `rt ci` passed over the crate as it stands, and what it built of it is there."""
    parts = [f"{crate.folder}/{part}" for part in rt.rtlib.PARTS]
    files = [f"{TOP}/crates.txt"] + [f"{at}/{name}" for part in parts for at, folders, names in os.walk(part) for name in [".", *names]]
    made = f"out/{crate.name}" if crate.is_program else "src" if crate.is_static else f"out/rlib/{crate.name}.rlib"
    return os.path.isfile(PROVED) and os.path.exists(f"{crate.folder}/{made}") and all(os.path.getmtime(file) < os.path.getmtime(PROVED) for file in files)


def build_below(crate):
    """Builds the libraries below, unless `rt ci` has built all of them; returns whether they are there."""
    if all(is_proved(it) for it in crate.below()):
        return True
    with tempfile.TemporaryFile("w+", errors="replace") as out:
        for it in crate.below():
            it.out = out
            failed = it.build_rlib(["--jobs", str(min(lanes, 2))], anew=False)
            it.out = sys.stdout
            if failed:
                out.seek(0)
                print(f"{out.read()}\n{it.name} is not proved", flush=True)
                return False
    return True
