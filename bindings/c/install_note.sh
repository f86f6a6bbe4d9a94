#!/bin/sh
# SPDX-License-Identifier: Apache-2.0
# install_note.sh FOLDER: after libhll.so was installed in FOLDER, lets the loader find it there, as root by `ldconfig`; else
# says what a user does.
if [ "$(uname)" = Darwin ]; then
    echo "Programs that are linked with -lhll need the linker's option -Wl,-rpath,\"$1\""
elif [ "$(id -u)" = 0 ] && command -v ldconfig >/dev/null; then
    echo 'ldconfig    # so that programs find libhll.so'
    ldconfig
fi
if [ "$(uname)" != Darwin ] && ! ldconfig -p 2>/dev/null | grep -qF " => $1/libhll.so.0"; then
    echo "To run programs that are linked with -lhll: export LD_LIBRARY_PATH=\"$1\""
fi
echo 'To install the command hll and the Python package: pip install ./bindings/python'
