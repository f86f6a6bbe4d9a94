#!/bin/sh
# SPDX-License-Identifier: Apache-2.0
# What a user does with a wheel, the package for npm and the source package of the current directory, on a machine without rt: unpacked.sh.
# Prints 'ok: ' and a name for each thing that works, and ends with the first that doesn't.
set -eu
python3 -m venv /tmp/venv
/tmp/venv/bin/pip install --quiet --no-index ./*.whl
version=$(/tmp/venv/bin/hll --version | cut -d' ' -f2)
case $(/tmp/venv/bin/python -c 'import hll_sketches as h; s = h.Sketch(); s.update_many(range(1000)); print("%.0f" % s.estimate(), h.__file__)') in
9[5-9]?' /tmp/venv/'* | 10[0-4]?' /tmp/venv/'*) ;;
*) exit 1 ;;
esac
/tmp/venv/bin/python -c 'from hll_sketches import _splitter as s; import sys; sys.exit(not s.is_here())'
[ "$(seq 1 1000 | /tmp/venv/bin/hll count)" = "$(seq 1 1000 | HLL_SKETCHES_LINES='' /tmp/venv/bin/hll count)" ]
echo 'ok: the wheel'

mkdir -p /tmp/program/node_modules
tar -xf ./hll-sketches-"$version".tgz -C /tmp/program/node_modules
mv /tmp/program/node_modules/package /tmp/program/node_modules/hll-sketches
counted='console.log(version, new Sketch().addMany(["ann", "bob", "ann"]).estimate().toFixed(0));'
echo "import { Sketch, version } from 'hll-sketches'; $counted" >/tmp/program/count.mjs
echo "const { Sketch, version } = require('hll-sketches'); $counted" >/tmp/program/count.cjs
for program in /tmp/program/count.?js; do
    [ "$(node "$program")" = "$version 2" ]
done
echo 'ok: the package for npm'

mkdir /tmp/sources
tar -xf ./hll-sketches-"$version".tar.gz -C /tmp/sources
cd /tmp/sources/*
make -s >said 2>&1 || { cat said; exit 1; }
python3 -B scripts/documents.py readme
echo 'ok: the commands of README.md'

make -s install PREFIX=/tmp/prefix >said 2>&1 || { cat said; exit 1; }
[ "$(PKG_CONFIG_PATH=/tmp/prefix/lib/pkgconfig pkg-config --modversion hll)" = "$version" ]
[ "$(/tmp/prefix/bin/hll_merge --version)" = "hll_merge $version" ]
make -s uninstall PREFIX=/tmp/prefix
[ -z "$(find /tmp/prefix -type f)" ]
echo 'ok: make install'
