#!/usr/bin/env python3
# SPDX-License-Identifier: Apache-2.0
"""Makes the page, one HTML file without a network, of page.html, study.mjs, page.mjs, ../core.mjs and the module of prebuilt/.

    bindings/javascript/page/build.py OUT.html
"""
import pathlib
import subprocess
import sys

HERE = pathlib.Path(__file__).resolve().parent
ROOT = HERE.parent.parent.parent
MODULE = ROOT / "prebuilt" / "wasm" / "hll.wasm"
sys.dont_write_bytecode = True
sys.path.insert(0, str(HERE.parent))
from inline import filled  # noqa: E402


def page():
    """Returns the page."""
    return filled(HERE / "page.html", {"CORE": HERE.parent / "core.mjs", "STUDY": HERE / "study.mjs", "WASM": MODULE, "PAGE": HERE / "page.mjs"})


def main():
    for word in ("state", "wasm"):
        said = subprocess.run([ROOT / "scripts" / "prebuilt.sh", word], stdout=subprocess.PIPE, text=True, check=True).stdout.strip()
        if said != "fresh":
            sys.exit("page: prebuilt/ is %s (%s); make it again first (prebuilt/README.md)" % (said, word))
    out = pathlib.Path(sys.argv[1])
    out.parent.mkdir(parents=True, exist_ok=True)
    out.write_text(page())


if __name__ == "__main__":
    main()
