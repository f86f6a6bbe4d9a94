#!/bin/sh
# SPDX-License-Identifier: Apache-2.0
# Ends with status 1, and says what to do, if files can't be installed into PREFIX, below DESTDIR if that is set. NAME is the
# variable of make that the path is from, if it isn't PREFIX.
name=${NAME:-PREFIX}
case $PREFIX in
/*) ;;
*)
    echo "make: $name has to be an absolute path, and is '$PREFIX': write $name=\"\$PWD/$PREFIX\"" >&2
    exit 1
    ;;
esac
case $PREFIX in
*\$* | *[[:cntrl:]]*)
    echo "make: $name has a character that hll.pc can't have, a dollar sign or a control character: '$PREFIX'" >&2
    exit 1
    ;;
esac
place=${DESTDIR:-}$PREFIX
while [ ! -e "$place" ] && [ "$place" != "$(dirname -- "$place")" ]; do
    place=$(dirname -- "$place")
done
if [ ! -d "$place" ] || [ ! -w "$place" ]; then
    echo "make: $place can't be written: run make install as root, or write make install PREFIX=\"\$HOME/.local\"" >&2
    exit 1
fi
