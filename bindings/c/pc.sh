#!/bin/sh
# SPDX-License-Identifier: Apache-2.0
# pc.sh LIB VERSION: prints hll.pc, the file for pkg-config, for a library that is installed into PREFIX/LIB. In PREFIX,
# characters that a shell would see are escaped, as pkg-config expects it.
prefix=$(printf '%s' "$PREFIX" | sed -e 's/[][ "\\`&;|<>(){}*?!#~^='"'"']/\\&/g')
printf '# SPDX-License-Identifier: Apache-2.0\nprefix=%s\n' "$prefix"
sed -e 1,2d -e "s|@LIB@|$1|" -e "s|@VERSION@|$2|" hll.pc.in
