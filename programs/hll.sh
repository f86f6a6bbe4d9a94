#!/bin/sh
# SPDX-License-Identifier: Apache-2.0
# The command `hll` of this checkout, without installing it. `pip install ./bindings/python` installs it.
# No module of the current folder is run: with -c Python looks there first, and where PYTHONPATH has an empty part.
# Each step is checked: a path without its beginning would lead to the parent of the current folder.
self=$(readlink -f -- "$0") && [ -n "$self" ] && folder=$(dirname -- "$self") && top=$(CDPATH='' cd -- "$folder/.." && pwd -P) || {
    echo 'hll: the checkout that this command belongs to is not found' >&2
    exit 2
}
unset PYTHONPATH
if ! command -v python3 >/dev/null; then
    echo 'hll: it needs Python 3.9 or later, which is not here: apt-get install python3' >&2
    exit 2
fi
exec python3 -c 'import sys
sys.path[0] = sys.argv.pop(1)

def end(words):
    sys.stderr.write("hll: %s\n" % words)
    sys.exit(2)

if sys.version_info < (3, 9):
    end("it needs Python 3.9 or later, and python3 is %d.%d" % sys.version_info[:2])
try:
    import argparse, ctypes
except ImportError as error:
    end("python3 has no module %s: apt-get install python3" % error.name)
from hll_sketches.__main__ import main
sys.exit(main())' "$top/bindings/python" "$@"
