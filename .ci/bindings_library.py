"""Makes the library for C of what is proved here: `bindings_library.py OUT`. The crate `fact_c` is checked and compiled over the libraries that stand
in the crates' out/. The gate leaves them there, and makes no archive; `rt lib`, which takes none that another command left, would prove all anew.
"""

import os
import shutil
import sys
from pathlib import Path

TOP = Path(__file__).resolve().parent.parent
sys.dont_write_bytecode = True
sys.path.insert(0, str(TOP / "tools"))
import libraries  # noqa: E402


def main(out):
    out = Path(out).resolve()
    rt = libraries.toolchain(shutil.which("rt") or "")
    if not rt:
        raise SystemExit("bindings: the toolchain's rt is another than this was written for")
    crate = rt.rtlib.Crate(str(TOP / "crates" / "fact_c"), str(TOP), {})
    crate.out = sys.stderr
    held = rt.rtlib.lock([*crate.below(), crate])
    status = crate.compile([], str(out))
    for it in held:
        os.close(it)
    return 0 if status == 0 and out.is_file() else 1


sys.exit(main(*sys.argv[1:]))
