#!/bin/sh
# SPDX-License-Identifier: Apache-2.0
# What a user does with the installed packages, on a machine without rt: installed.sh INSTALL.md README.md. Prints 'ok: ' and a name
# for each thing that works, and ends with the first that doesn't. ROOT is where the packages are unpacked, if they are not
# installed.
set -eu
page=$1
readme=$2
ROOT=${ROOT:-}
cd "$(mktemp -d)"
! command -v rt >/dev/null || { echo 'rt is here'; exit 1; }

near_1000() {
    [ "${1%%.*}" -gt 950 ] && [ "${1%%.*}" -lt 1050 ] || { echo "$1 is not near 1000"; exit 1; }
}

awk '/^    for day/ { on = 1 } on && !/^    / { exit } on' "$page" >lines
[ "$(wc -l <lines)" -ge 5 ]
sh -e lines >said
for number in $(cut -f 1 said); do
    near_1000 "$number"
done
[ "$(wc -l <said)" -eq 2 ]
echo 'ok: the lines of INSTALL.md'

for name in hll hll_merge hll_estimator_fields; do
    [ "$($name --version | cut -d' ' -f1)" = $name ]
done
version=$(hll --version | cut -d' ' -f2)
[ "$version" = "$(hll_merge --version | cut -d' ' -f2)" ]
[ "$version" = "$(pkg-config --modversion hll)" ]
[ "$version" = "$(sqlite3 :memory: '.load hll_sketches' 'SELECT hll_version()')" ]
! hll_merge --other 2>said && [ "$(wc -l <said)" -eq 1 ]
echo 'ok: versions of the commands'

python3 -c 'from hll_sketches import _splitter as s; import sys; sys.exit(not s.is_here())'
[ "$(seq 1 1000 | hll count)" = "$(seq 1 1000 | HLL_SKETCHES_LINES='' hll count)" ]
printf '/home\tann\n/home\tbob\n/shop\tann\n' >log
hll add --db c.db --key page=1 --value 2 log
HLL_SKETCHES_LINES='' hll add --db python.db --key page=1 --value 2 log
hll dump c.db >c
hll dump python.db | cmp - c
echo 'ok: lines are split in C'

[ "$(printf 'new 10 8\ncoupon 5 3\n' | hll_merge | hll_estimator_fields)" = 0201070a030801080500000c ]
echo 'ok: a plan'

for name in hll hll_merge hll_estimator_fields; do
    man $name | grep -q '^NAME'
done
echo 'ok: manual pages'

# shellcheck disable=SC2046
cc -o example "$ROOT"/usr/share/doc/libhll-dev/examples/merge.c $(pkg-config --cflags --libs hll)
near_1000 "$(./example merged.hll monday.hll tuesday.hll | cut -d' ' -f1)"
hll diff --quiet merged.hll both.hll
# shellcheck disable=SC2046
cc -o example -static "$ROOT"/usr/share/doc/libhll-dev/examples/merge.c $(pkg-config --cflags --libs --static hll)
near_1000 "$(./example merged.hll monday.hll tuesday.hll | cut -d' ' -f1)"
echo 'ok: the example in C, shared and static'

# shellcheck disable=SC2046
c++ -o example "$ROOT"/usr/share/doc/libhll-dev/examples/example.cpp $(pkg-config --cflags --libs hll)
seq 1 1000 >numbers
near_1000 "$(./example numbers | awk '$NF == "all" { print $1 }')"
near_1000 "$(hll estimate - <numbers.hll)"
echo 'ok: the example in C++'

[ "$(sqlite3 :memory: '.load hll_sketches' 'SELECT hll_estimate(hll_add_agg(value)) BETWEEN 950 AND 1050 FROM generate_series(1, 1000)')" = 1 ]
echo 'ok: SQLite'

[ -z "$ROOT" ] || exit 0
mkdir project
cat >project/CMakeLists.txt <<END
cmake_minimum_required(VERSION 3.13)
project(example C)
find_package(hll $version EXACT REQUIRED)
add_executable(example /usr/share/doc/libhll-dev/examples/merge.c)
target_link_libraries(example hll::hll)
END
cmake -S project -B project/build >said && cmake --build project/build >>said || { cat said; exit 1; }
near_1000 "$(project/build/example merged.hll monday.hll tuesday.hll | cut -d' ' -f1)"
echo 'ok: the example in C by CMake'

# try_postgresql BIN: the extension on a server of the version that has its programs in BIN
try_postgresql() {
    data=$(mktemp -d)
    chown postgres "$data"
    as_postgres "$1" 'initdb -D data >log 2>&1'
    as_postgres "$1" "pg_ctl -D data -w -l log -o \"-k $data -c listen_addresses='' -c dynamic_shared_memory_type=mmap\" start >>log" || { cat "$data/log"; exit 1; }
    as_postgres "$1" "psql -h $data -qAt" <<END >said
CREATE EXTENSION hll_sketches;
SELECT hll_estimate(hll_image_union_agg(image)) BETWEEN 950 AND 1050
FROM (SELECT hll_image_add_agg(x) image FROM generate_series(1, 1000) x GROUP BY x % 7) days;
CREATE EXTENSION hll_sketches_agg;
CREATE EXTENSION hll_sketches_apache;
SELECT hll_version();
CREATE TABLE daily AS SELECT day::date, hyperloglog_agg(n) AS image
FROM generate_series(date '2026-10-30', '2026-11-02', '1 day') day, generate_series(1, 500) n GROUP BY day;
SET datestyle = ISO;
SET timezone = UTC;
$query
END
    as_postgres "$1" 'pg_ctl -D data -w -m immediate stop >>log'
    [ "$(sed -n '1,2p' said)" = "$(printf 't\n%s' "$version")" ]
    [ "$(sed 1,2d said | awk -F '[ |]' '$NF > 475 && $NF < 525 { print $1 }' | sort | tr '\n' ' ')" = '2026-10-01 2026-11-01 ' ]
}
query=$(sed -n '/^```sql$/,/^```$/p' "$readme" | grep -v '^```')

as_postgres() {
    su postgres -s /bin/sh -c "cd $data && PATH=$1:\$PATH && $2"
}

for module in /usr/lib/postgresql/*/lib/hll_sketches.so; do
    try_postgresql "${module%/lib/hll_sketches.so}/bin"
done
echo 'ok: PostgreSQL, with the query of README.md'
