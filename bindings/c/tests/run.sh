#!/bin/sh
# SPDX-License-Identifier: Apache-2.0
# Builds and runs the tests of the C library, in the folder of hll.h:
#
#   run.sh BUILD            all tests of the library that `make` has built in BUILD; `make check` calls it so
#   run.sh BUILD PROVED     tests of the calls, over a library that is built here from another build of the proved library
#
# Prints TAP. The words of $TESTS choose tests by their names.
set -u
. ../tools.sh
. ../tap.sh

build=$1
tests=$build/tests
CC=${CC:-cc}
CXX=${CXX:-c++}
strict='-Wall -Wextra -pedantic -Werror'
test_flags="$strict -Wno-unused-function -O1 -g -std=c99"
wraps='-Wl,--wrap=malloc,--wrap=calloc,--wrap=realloc,--wrap=aligned_alloc,--wrap=posix_memalign,--wrap=free'
rows=../../crates/hll_vectors/stdin
top=$(cd ../.. && pwd)
text=$top/prebuilt/$($CC -dumpmachine | cut -d- -f1)/libhll_c.s
text_v3=
[ "$(uname -m)" != x86_64 ] || text_v3=${text%.s}_v3.s
arm=aarch64-unknown-linux-gnu
version=$(sed -n 's/^#define HLL_VERSION_[A-Z]* \([0-9]*\)$/\1/p' hll.h | paste -sd. -)
# HLL_WALKS=tenth in the environment makes a tenth of the random walks.
sequences=2000
walks=1000
if [ "${HLL_WALKS:-}" = tenth ]; then
    sequences=200
    walks=100
fi
rm -rf "$tests"
mkdir -p "$tests" || exit 1
unset HLL_CPU

# The walks are made by a script, which needs Python; a source package has them.
if (cd ../../tests && sha256sum --check --status walks.sha256 2>/dev/null); then
    rows="$rows ../../tests/walks.txt"
elif has python3; then
    expect 'walks are made' python3 ../../tests/walks.py
    rows="$rows ../../tests/walks.txt"
else
    skip 'walks' 'python3, which makes these test vectors, is not here'
fi

# ---- the header, and what the libraries show

test_header() {
    for standard in c99 c11 c17; do
        expect "headers as $standard" $CC $strict -std=$standard -x c -fsyntax-only hll_state.h
    done
    expect 'counter.c with malloc alone' $CC $strict -std=c99 -DHLL_MALLOC_ONLY -c -o "$tests/counter.o" counter.c
    expect "estimate.c as c99" $CC $strict -std=c99 -c -o "$tests/estimate.o" estimate.c
    expect "merge.c as c99" $CC $strict -std=c99 -I. -c -o "$tests/example.o" ../../examples/merge.c
    expect "users.c as c99" $CC $strict -std=c99 -I. -O1 -o "$tests/users" ../../examples/users.c "$build/libhll.a"
    if ! has "$CXX"; then
        skip 'header as C++' "$CXX is not here"
        return
    fi
    for standard in c++11 c++17; do
        expect "headers as $standard" $CXX $strict -std=$standard -x c++ -fsyntax-only hll_state.h
    done
    expect 'a program in C++' $CXX $strict -std=c++11 -o "$tests/header" tests/header.cpp "$build/libhll.a"
    run 'C++' "$tests/header"
}

# The calls that the header declares, and the names that a library shows.
declared() {
    sed -n 's/^\(hll_status \|uint32_t \|void \|const char \*\)\(hll_[a-z_0-9]*\)(.*/\2/p' hll.h hll_state.h | sort
}

shown() {
    nm "$@" | sed -n 's/^[0-9a-f]* [A-TV-Za-tv-z] \([^@]*\).*$/\1/p' | grep -v '^HLL_0$' | sort
}

# Prints the jumps of x86-64 in an object that cross a multiple of 32 bytes or end at one, and a line with the number of all jumps.
# Jumps through a register or memory don't count: assemblers leave them where they are.
jumps_in() {
    objdump -d --no-show-raw-insn "$1" | awk '
        function number(digits, i, sum) {
            for (i = 1; i <= length(digits); i++) sum = sum * 16 + index("0123456789abcdef", substr(digits, i, 1)) - 1
            return sum
        }
        /^Disassembly/ { jump = "" }
        sub(/^ +/, "") && sub(/:\t/, " ") {
            here = number($1)
            if (jump != "" && (int((here - 1) / 32) != int(start / 32) || here % 32 == 0)) print jump
            jump = $2 ~ /^j/ && $3 !~ /^\*/ ? $0 : ""
            start = here
            count += jump != ""
        }
        END { print count " jumps" }'
}

test_jumps() {
    if [ "$(uname -m)" != x86_64 ]; then
        skip 'jumps' 'only x86-64 has jumps that cross a multiple of 32 bytes'
        return
    fi
    flag=-mbranches-within-32B-boundaries
    if ! $CC -Wa,$flag -c -x assembler -o "$tests/empty.o" /dev/null 2>/dev/null && ! $CC $flag -c -x assembler -o "$tests/empty.o" /dev/null 2>/dev/null; then
        skip 'jumps' "the assembler of $CC can't move jumps"
        return
    fi
    for object in "$build"/libhll_c*.o; do
        jumps_in "$object" > "$tests/jumps"
        expect "jumps in $(basename "$object" .o)" grep -qx '[0-9]\{4,\} jumps' "$tests/jumps"
        expect "no jumps in $(basename "$object" .o) that cross 32 bytes" test "$(wc -l < "$tests/jumps")" = 1
    done
}

# Prints the instructions of an object that multiply and add with one rounding.
fused_in() {
    objdump -d --no-show-raw-insn "$1" | grep -E '[[:space:]]v?fn?m(add|sub|la|ls)'
}

# Whether a compiler can fuse a product with a sum, and doesn't do so in estimate.c.
fuses_nothing() {
    echo 'double sum(double a, double b, double c) { return a * b + c; }' >"$tests/sum.c"
    "$@" -O2 -ffp-contract=fast -c -o "$tests/sum.o" "$tests/sum.c" && fused_in "$tests/sum.o" &&
        "$@" -O2 -c -o "$tests/fused.o" estimate.c && ! fused_in "$tests/fused.o"
}

# Bounds have the same bits on every processor, whatever a compiler does by default.
test_fused() {
    case $(uname -m) in
    x86_64) flag=-mfma ;;
    aarch64) flag=-O2 ;;
    *)
        skip 'no fused operations' 'only fused operations of x86-64 and 64-bit ARM are known here'
        return
        ;;
    esac
    expect 'no fused operations' fuses_nothing $CC $flag
    ! has clang || expect 'no fused operations by clang' fuses_nothing clang $flag
}

# The numbers that estimates are compared with are those of a computation in Python.
test_expected() {
    if has python3; then
        expect 'numbers of estimates' python3 tests/expected.py --check
    else
        skip 'numbers of estimates' 'python3 is not here'
    fi
}

test_names() {
    declared >"$tests/declared"
    expect 'calls are declared' test -s "$tests/declared"
    shown -D --defined-only "$build/libhll.so" >"$tests/shown"
    expect 'names of the shared library' diff "$tests/declared" "$tests/shown"
    shown -g --defined-only "$build/libhll.a" >"$tests/shown"
    expect 'names of the archive' diff "$tests/declared" "$tests/shown"
    sed -n 's/^ *\(hll_[a-z_0-9]*\);$/\1/p' hll.map | sort >"$tests/shown"
    expect 'names of the map' diff "$tests/declared" "$tests/shown"
}

# ---- with which code the tests run

# On Linux on x86-64 the library has code for x86-64-v2 and for x86-64-v3. If this processor lacks the latter's instructions, an
# emulator runs it.
with_v3() {
    $emulated_v3 "$@"
}

with_v2() {
    HLL_CPU=x86-64-v2 "$@"
}

# Chooses how the code for x86-64-v3 is run.
find_v3() {
    has_v3=no
    emulated_v3=
    [ -n "$text_v3" ] || return 0
    if "$tests/processors" x86-64-v3 >"$tap_said" 2>&1; then
        has_v3=yes
    elif has qemu-x86_64; then
        has_v3=yes
        emulated_v3='qemu-x86_64 -cpu max'
    else
        skip 'the code for x86-64-v3' 'this processor has no AVX2, and qemu-x86_64 is not here'
    fi
}

# run_each NAME COMMAND ..: a test, with each code that the library has.
run_each() {
    each=$1
    shift
    if [ -z "$text_v3" ]; then
        run "$each" "$@"
        return
    fi
    [ "$has_v3" = no ] || run "$each, x86-64-v3" with_v3 "$@"
    run "$each, x86-64-v2" with_v2 "$@"
}

# ---- the calls

# Builds what tests need, whichever tests are chosen: a test of its own if it is chosen.
build() {
    what=$1
    shift
    if is_chosen "$what"; then
        expect "$what" "$@"
    else
        "$@" >"$tap_said" 2>&1 || cat "$tap_said"
    fi
}

compile() {
    name=$1
    shift
    build "test of $name compiles" $CC $test_flags -o "$tests/$name" "tests/${name%%-*}.c" "$@"
}

test_calls() {
    for name in behaviour calls heads buffers estimates rows registers states counters processors; do
        compile "$name" "$build/libhll.a"
    done
    compile counter_threads "$build/libhll.a" -pthread
    compile threads "$build/libhll.a" -pthread
    compile refusals "$build/libhll.a" "$wraps"
    compile calls-shared -L"$build" -lhll -Wl,-rpath,"$build"
    find_v3
    if has python3; then
        run behaviour python3 -B ../../tests/behaviour/cases.py c "$tests/behaviour"
    else
        skip behaviour 'python3, which reads its cases, is not here'
    fi
    run_each calls "$tests/calls"
    run_each 'calls, shared library' "$tests/calls-shared"
    run_each heads "$tests/heads"
    run_each buffers "$tests/buffers"
    run_each refusals "$tests/refusals"
    run_each threads "$tests/threads"
    run_each estimates "$tests/estimates"
    run_each rows "$tests/rows" $rows
    run_each registers "$tests/registers" $sequences
    run_each states "$tests/states" $walks
    run_each counters "$tests/counters" 300
    run_each 'threads that read a counter' "$tests/counter_threads"
}

# ---- the code for both levels of x86-64

# Compares what both wrote over the same random images.
same_results() {
    cmp "$1" "$2" && echo "$(wc -l <"$1") passed, 0 failed"
}

# linked NAME FLAG ..: the program that says which code runs, linked in one way. It runs with each, before main, too.
linked() {
    how=$1
    shift
    build "test of processors compiles, $how" $CC $test_flags -o "$tests/processors-linked" tests/processors.c "$@"
    [ "$has_v3" = no ] || run "processors, $how, x86-64-v3" with_v3 "$tests/processors-linked" x86-64-v3 200 "$tests/linked-v3"
    run "processors, $how, x86-64-v2" with_v2 "$tests/processors-linked" x86-64-v2 200 "$tests/linked-v2"
    [ "$has_v3" = no ] || run "the same results, $how" same_results "$tests/linked-v3" "$tests/linked-v2"
}

# Whether ld can mark a file with the processor that it needs, as it can since binutils 2.36.
can_mark() {
    ! ld -z x86-64-v2 --version 2>&1 | grep -q 'x86-64-v2 ignored'
}

# The bytes of a library have the mark of x86-64-v2, and of no other level.
has_mark() {
    readelf -n "$1" >"$tests/notes" && [ "$(sed -n 's/.*x86 ISA needed: *//p' "$tests/notes")" = x86-64-v2 ]
}

test_both() {
    [ -n "$text_v3" ] || return 0
    images=20000
    [ -z "$emulated_v3" ] || images=2000
    run 'processors, x86-64-v2' with_v2 "$tests/processors" x86-64-v2 $images "$tests/images-v2"
    [ "$has_v3" = no ] || run 'processors, x86-64-v3' with_v3 "$tests/processors" x86-64-v3 $images "$tests/images-v3"
    [ "$has_v3" = no ] || run "the same results over $images images" same_results "$tests/images-v3" "$tests/images-v2"
    linked 'shared' -L"$build" -lhll -Wl,-rpath,"$PWD/$build"
    LD_BIND_NOW=1
    export LD_BIND_NOW
    linked 'shared, bound at the start' -L"$build" -lhll -Wl,-rpath,"$PWD/$build" -Wl,-z,lazy
    unset LD_BIND_NOW
    linked 'static' -static "$build/libhll.a"
    linked 'static-pie' -static-pie "$build/libhll.a"
    linked 'not PIE' -no-pie -fno-pie "$build/libhll.a"
    if can_mark; then
        expect 'the mark of the shared library' has_mark "$build/libhll.so"
        expect 'the mark of the archive' has_mark "$build/hll.o"
    else
        skip 'the mark of x86-64-v2' 'this version of ld has none'
    fi
    build 'test of what is chosen compiles' $CC $test_flags -DHLL_WITH_V3 -o "$tests/chooser" tests/chooser.c "$build/named.o" \
        "$build/libhll_c_v3.o" "$build/heap.o"
    [ "$has_v3" = no ] || run 'what is chosen' with_v3 "$tests/chooser"
}

test_memory() {
    if ! has valgrind; then
        skip 'calls in valgrind' 'valgrind is not here'
        return
    fi
    kinds='definite,possible'
    clean="valgrind --quiet --error-exitcode=9 --leak-check=full"
    clean="$clean --show-leak-kinds=$kinds --errors-for-leak-kinds=$kinds"
    run_each 'calls in valgrind' $clean "$tests/calls"
    run 'buffers in valgrind' $clean "$tests/buffers" small
    run 'refusals in valgrind' $clean "$tests/refusals"
    run 'estimates in valgrind' $clean "$tests/estimates" 9973
    run 'rows in valgrind' $clean "$tests/rows" $rows
    run 'registers in valgrind' $clean "$tests/registers" 20 small
    run 'states in valgrind' $clean "$tests/states" 40 small
    run 'counters in valgrind' $clean "$tests/counters" 3
}

# The tests and the parts in C, with checks of gcc for each access and each sum.
test_sanitized() {
    flags='-fsanitize=address,undefined -fno-sanitize-recover=all'
    if ! echo 'int main(void) { return 0; }' | $CC $flags -x c -o "$tests/probe" - 2>/dev/null || ! "$tests/probe"; then
        skip 'calls, sanitized' "the compiler's library for that is not here"
        return
    fi
    for name in calls heads buffers estimates rows threads registers states counters; do
        compile "$name-sanitized" $flags estimate.c optional.c state.c counter.c heap.c "$build/proved.o" -pthread
    done
    # What leaks is seen by valgrind and by the test of refusals; here it takes rights that not each machine gives.
    ASAN_OPTIONS=detect_leaks=0
    export ASAN_OPTIONS
    run 'calls, sanitized' "$tests/calls-sanitized"
    run 'heads, sanitized' "$tests/heads-sanitized"
    run 'buffers, sanitized' "$tests/buffers-sanitized" small
    run 'estimates, sanitized' "$tests/estimates-sanitized"
    run 'rows, sanitized' "$tests/rows-sanitized" $rows
    run 'threads, sanitized' "$tests/threads-sanitized"
    run 'registers, sanitized' "$tests/registers-sanitized" 300
    run 'states, sanitized' "$tests/states-sanitized" 300
    run 'counters, sanitized' "$tests/counters-sanitized" 100
    test_races
}

# Threads that read one counter, with gcc's check for races.
test_races() {
    flags='-fsanitize=thread'
    if ! echo 'int main(void) { return 0; }' | $CC $flags -x c -o "$tests/probe" - 2>/dev/null || ! "$tests/probe"; then
        skip 'threads that read a counter, without races' "the compiler's library for that is not here"
        return
    fi
    compile counter_threads-races $flags estimate.c optional.c state.c counter.c heap.c "$build/proved.o" -pthread
    run 'threads that read a counter, without races' "$tests/counter_threads-races"
}

# ---- the example, and an installed library

# The program counts three users of each of a million keys, one of which comes twice.
million_keys() {
    awk 'BEGIN { for (user = 1; user <= 4; user++) for (key = 1; key <= 1000000; key++) print key, "user" user % 4 % 3 }' |
        "$tests/users" | awk '$1 == 3 { good++ } END { exit good != 1000000 }'
}

# The program merges two files into one, and refuses a file that is no image.
try_example() {
    program=$1
    printf '\002\001\007\014\003\010\001\010\005\000\000\014' >"$tests/one.hll"
    printf '\002\001\007\014\003\010\001\010\007\000\000\010' >"$tests/two.hll"
    printf '\002\001\007\014\003\010\002\010\007\000\000\010\005\000\000\014' >"$tests/both.hll"
    echo 'no image at all' >"$tests/none.hll"
    "$program" "$tests/out.hll" "$tests/one.hll" "$tests/two.hll" "$tests/one.hll" >"$tests/said" || return 1
    cmp "$tests/out.hll" "$tests/both.hll" || return 1
    grep '^2 distinct values' "$tests/said" || return 1
    ! "$program" "$tests/out.hll" "$tests/one.hll" "$tests/none.hll" 2>"$tests/said" || return 1
    grep 'none.hll: The family byte is not 7\.$' "$tests/said" || return 1
    printf '\002\001\007\012\003\010\001\010\007\000\000\010' >"$tests/coarse.hll"
    ! "$program" "$tests/out.hll" "$tests/one.hll" "$tests/coarse.hll" 2>"$tests/said" || return 1
    grep 'coarse.hll: The sketches have different lg_k' "$tests/said" || return 1
    ! "$program" 2>/dev/null
}

# The program of the README joins files that are named on its input, and names one that is no image and one that is not
# there.
try_readme() {
    awk '/^```c$/ { on = 1; text = ""; next } /^```$/ { if (on && text ~ /hll_registers_merge/) printf "%s", text; on = 0 }
        on { text = text $0 "\n" }' README.md >"$tests/readme.c"
    $CC $strict -std=c99 -I. -o "$tests/readme" "$tests/readme.c" "$build/libhll.a" || return 1
    printf '%s\n' "$tests/one.hll" "$tests/none.hll" "$tests/gone.hll" "$tests/two.hll" "$tests/one.hll" | "$tests/readme" \
        >"$tests/said" 2>"$tests/refused"
    [ $? -eq 1 ] || return 1
    grep '^2 distinct values$' "$tests/said" && grep 'none.hll: The family byte is not 7\.$' "$tests/refused" &&
        grep 'gone.hll: No such file' "$tests/refused" && [ "$(wc -l <"$tests/refused")" -eq 2 ]
}

# make_in FOLDER PROVED WORD ..: builds the libraries in a new folder, from a build of the proved library, or what the words say.
make_in() {
    folder=$1
    proved=$2
    shift 2
    rm -rf "$folder"
    mkdir "$folder" || return 1
    cp Makefile ./*.[ch] hll.map hll.pc.in pc.sh "$folder" || return 1
    env -u MAKEFLAGS -u CC -u CXX make -s -C "$folder" PROVED="$proved" "${@:-all}"
}

# Builds the libraries in two folders, from the same text: they are the same bytes.
try_two_folders() {
    for place in one another-folder; do
        make_in "$tests/$place" "$text" PROVED_V3="$text_v3" all || return 1
    done
    cmp "$tests/one/build/libhll.so" "$tests/another-folder/build/libhll.so" || return 1
    cmp "$tests/one/build/libhll.a" "$tests/another-folder/build/libhll.a"
}

# The calls, over another build of the proved library.
test_other_build() {
    build 'the library' make_in "$tests/other" "$1"
    for name in calls heads buffers rows registers states; do
        compile "$name-other" "$tests/other/build/libhll.a"
    done
    run calls "$tests/calls-other"
    run heads "$tests/heads-other"
    run buffers "$tests/buffers-other"
    run rows "$tests/rows-other" $rows
    run registers "$tests/registers-other" 500
    run states "$tests/states-other" 500
}

# Copies what a build of the library needs into a folder that is there.
copy_sources() {
    mkdir -p "$1/bindings/c" "$1/bindings/cpp" "$1/examples" || return 1
    cp -R "$top/prebuilt" "$1" && cp -R Makefile ./*.[ch] ./*.sh hll.map hll.pc.in cmake "$1/bindings/c" && cp ../cpp/*.hpp "$1/bindings/cpp" &&
        cp "$top/examples/merge.c" "$1/examples" || return 1
    (cd "$top" && tar -cf - --exclude=out --exclude=must-fail crates crates.txt HANDLES scripts/prebuilt.sh scripts/prebuilt.mk scripts/installable.sh) |
        tar -xf - -C "$1"
}

# A checkout and a PREFIX whose paths have spaces, quotes and letters that are not ASCII: it is the same library, and a program
# is built by the flags of pkg-config. A PREFIX that is not absolute, or can't be written, is rejected, and nothing is installed.
try_odd_paths() {
    place=$(mktemp -d) || return 1
    odd="$place/a b 'c\" é"
    mkdir "$odd" && copy_sources "$odd" && install_oddly
    found=$?
    rm -rf "$place"
    return $found
}

install_oddly() {
    make -s -C "$odd/bindings/c" install PREFIX="$odd/to it's \"" || return 1
    cmp "$odd/bindings/c/build/libhll.so" "$build/libhll.so" || return 1
    if has pkg-config; then
        flags=$(PKG_CONFIG_PATH="$odd/to it's \"/lib/pkgconfig" pkg-config --cflags --libs hll) || return 1
        eval "$CC $strict -std=c99 -o \"\$tests/odd\" ../../examples/merge.c $flags" || return 1
        LD_LIBRARY_PATH="$odd/to it's \"/lib" try_example "$tests/odd" || return 1
    fi
    make -s -C "$odd/bindings/c" uninstall PREFIX="$odd/to it's \"" && [ -z "$(find "$odd/to it's \"" ! -type d)" ] || return 1
    ! make -s -C "$odd/bindings/c" install PREFIX=relative 2>"$tests/said" && grep "PREFIX has to be an absolute path, and is 'relative'" "$tests/said" &&
        [ ! -e "$odd/bindings/c/relative" ] || return 1
    ! make -s -C "$odd/bindings/c" install PREFIX=/dev/null/none 2>"$tests/said" && grep "run make install as root" "$tests/said"
}

# `make` where the command rt isn't, in a copy of what it needs: from prebuilt/ it builds the same library; where a source
# or a text has changed it builds nothing, and says why.
make_without_rt() {
    rm -rf "$place/bindings/c/build"
    PATH=$place/tools make -C "$place/bindings/c" --no-print-directory "$@" >"$tests/said" 2>&1
}

try_without_rt() {
    place=$(mktemp -d) || return 1
    mkdir "$place/tools" && copy_sources "$place" || return 1
    for tool in make sh mkdir find sed cc as ld ar objcopy cp mv rm awk sort tr xargs sha256sum cut cat grep dirname mktemp; do
        ln -s "$(command -v $tool)" "$place/tools/$tool" || return 1
    done
    make_without_rt -s && cmp "$place/bindings/c/build/libhll.so" "$build/libhll.so" &&
        say_why 'a proved source has changed' crates/hll_base/src/lib.rt &&
        say_why 'not as it was made' "prebuilt/${text#"$top/prebuilt/"}" && say_why 'not as it was made' prebuilt/VERDICT &&
        { [ -z "$text_v3" ] || say_why 'not as it was made' "prebuilt/${text_v3#"$top/prebuilt/"}"; }
    found=$?
    rm -rf "$place"
    return $found
}

# Whether a line that is added to a file keeps the library from being built, and `make` says why.
say_why() {
    cp "$place/$2" "$place/kept" && echo '# changed' >>"$place/$2"
    ! make_without_rt && grep "^make: .*$1" "$tests/said" && [ ! -e "$place/bindings/c/build/libhll.a" ]
    found=$?
    mv "$place/kept" "$place/$2"
    return $found
}

# On a processor without the instructions of x86-64-v2 neither library is loaded, and a program that has it says why; on one
# with no others the calls answer as they do here.
refused_on_old() {
    ! qemu-x86_64 -cpu core2duo "$@" >"$tests/said" 2>&1 && grep 'CPU ISA level is lower than required$' "$tests/said"
}

test_processors() {
    [ "$(uname -m)" = x86_64 ] || return 0
    if ! has qemu-x86_64; then
        skip 'an older processor' 'qemu-x86_64 is not here'
        return
    fi
    expect 'an older processor, archive' refused_on_old "$build/example"
    LD_LIBRARY_PATH=$build
    export LD_LIBRARY_PATH
    expect 'an older processor, shared library' refused_on_old "$tests/calls-shared"
    run 'calls on a processor of x86-64-v2' qemu-x86_64 -cpu Nehalem "$tests/calls"
    run 'calls on a processor of x86-64-v2, shared library' qemu-x86_64 -cpu Nehalem "$tests/calls-shared"
    run 'registers on a processor of x86-64-v2' qemu-x86_64 -cpu Nehalem "$tests/registers" 20 small
    unset LD_LIBRARY_PATH
    run 'processors, on a processor of x86-64-v2' qemu-x86_64 -cpu Nehalem "$tests/processors" x86-64-v2 100 "$tests/emulated-v2"
    run 'processors, on one of x86-64-v3' qemu-x86_64 -cpu max "$tests/processors" x86-64-v3 100 "$tests/emulated-v3"
    run 'the same results, on both' same_results "$tests/emulated-v3" "$tests/emulated-v2"
    # (not bmi1, whose instructions functions of glibc use wherever there is AVX2; the test of what is chosen has it)
    for lacks in avx avx2 bmi2 fma f16c movbe abm xsave; do
        run "processors, on one of x86-64-v3 without $lacks" qemu-x86_64 -cpu "max,-$lacks" "$tests/processors" x86-64-v2
    done
}

# A static program with the C library of musl. The library is built by the same compiler, and so are the programs.
by_musl() {
    name=$1
    shift
    musl-gcc $test_flags -static -o "$tests/$name-musl" "tests/$name.c" "$tests/musl/build/libhll.a" "$@"
}

programs_by_musl() {
    place=$(pwd)/$tests/musl
    env -u MAKEFLAGS -u CC -u CXX make -s -C ../../programs B="$place/objects" BIN="$place/bin" CC=musl-gcc HARDENED= LDFLAGS=-static || return 1
    [ "$(printf 'new 10 8\ncoupon 5 3\n' | "$place/bin/hll_merge")" = 0201070a030801080500000c ] &&
        [ "$(echo 0201070a030801080500000c | "$place/bin/hll_estimator_fields")" = 0201070a030801080500000c ]
}

test_musl() {
    has musl-gcc || { skip 'musl' 'musl-gcc is not here'; return; }
    build 'the library, with musl' make_in "$tests/musl" "$text" PROVED_V3="$text_v3" CC=musl-gcc build/libhll.a
    for name in calls heads buffers estimates rows registers states threads processors; do
        build "test of $name compiles, with musl" by_musl $name
    done
    build 'test of refusals compiles, with musl' by_musl refusals "$wraps"
    for name in calls heads buffers estimates threads refusals; do
        run_each "$name, with musl" "$tests/$name-musl"
    done
    run_each 'rows, with musl' "$tests/rows-musl" $rows
    run_each 'registers, with musl' "$tests/registers-musl" 200
    run_each 'states, with musl' "$tests/states-musl" 100
    if [ -n "$text_v3" ]; then
        [ "$has_v3" = no ] || run 'processors, with musl, x86-64-v3' with_v3 "$tests/processors-musl" x86-64-v3 200 "$tests/musl-v3"
        run 'processors, with musl, x86-64-v2' with_v2 "$tests/processors-musl" x86-64-v2 200 "$tests/musl-v2"
        [ "$has_v3" = no ] || run 'the same results, with musl' same_results "$tests/musl-v3" "$tests/musl-v2"
    fi
    expect 'both programs, with musl' programs_by_musl
}

# A test on 64-bit ARM, by an emulator.
emulate() {
    env -u MAKEFLAGS -u CC -u CXX make -s "emulated-$1" TARGET=$arm
}

test_arm() {
    for tool in aarch64-linux-gnu-gcc qemu-aarch64; do
        has $tool || { skip 'calls on 64-bit ARM' "$tool is not here"; return; }
    done
    for name in calls heads buffers estimates rows registers states threads refusals; do
        run "$name on 64-bit ARM" emulate $name
    done
}

# Installs below a folder, builds the example by the flags of the file for pkg-config, and takes all away again.
try_install() {
    place=$(pwd)/$tests/installed
    rm -rf "$place"
    make -s install DESTDIR="$place" PREFIX=/usr || return 1
    for file in include/hll.h include/hll_state.h include/hll.hpp lib/libhll.a lib/libhll.so lib/libhll.so.0 "lib/libhll.so.$version" lib/pkgconfig/hll.pc; do
        [ -f "$place/usr/$file" ] || { echo "$file is missing"; return 1; }
    done
    flags="-I$place/usr/include -L$place/usr/lib -lhll"
    if has pkg-config; then
        said=$(PKG_CONFIG_SYSROOT_DIR=$place PKG_CONFIG_PATH=$place/usr/lib/pkgconfig \
            pkg-config --cflags --libs hll) || return 1
        [ "$(echo $said)" = "$flags" ] || { echo "pkg-config says $said"; return 1; }
    fi
    compiled="$CC $strict -std=c99 -I$place/usr/include"
    $compiled -o "$tests/installed-shared" ../../examples/merge.c $flags || return 1
    LD_LIBRARY_PATH=$place/usr/lib try_example "$tests/installed-shared" || return 1
    $compiled -o "$tests/installed-static" ../../examples/merge.c "$place/usr/lib/libhll.a" || return 1
    try_example "$tests/installed-static" || return 1
    make -s uninstall DESTDIR="$place" PREFIX=/usr || return 1
    [ -z "$(find "$place" ! -type d)" ]
}

# The version of the JDK, 0 if none is here.
java_version() {
    has java && java -version 2>&1 | sed -n 's/.*version "\([0-9]*\).*/\1/p;q' | grep . || echo 0
}

# The program in Java merges two sketches, prints the estimate, and names a file that is none. "ann" and "bob", and "bob" and "eve".
try_java() {
    printf '\002\001\007\014\003\010\002\010\277\040\144\034\005\000\000\014' >"$tests/two.hll"
    java="java --enable-native-access=ALL-UNNAMED -Dhll=$(pwd)/$build/libhll.so.0 ../../examples/java/Distinct.java"
    [ "$($java "$tests/one.hll" "$tests/two.hll")" = '3, between 3 and 4' ] || return 1
    ! $java "$tests/one.hll" "$tests/none.hll" >"$tests/said" 2>&1 && grep 'none.hll: not the image of a sketch .* status 2' "$tests/said"
}

# The program over JNI adds integers by batches, merges a sketch, and names a file that is none. The JVM checks the calls of JNI.
try_jni() {
    home=$(dirname "$(dirname "$(readlink -f "$(command -v javac)")")")
    mkdir -p "$tests/jni" && javac -d "$tests/jni" ../../examples/java/Counter.java || return 1
    $CC $strict -std=c99 -I. -shared -fPIC -I"$home/include" -I"$home/include/linux" -o "$tests/jni/libcounter.so" ../../examples/java/counter.c \
        -L"$build" -lhll -Wl,-rpath,"$(pwd)/$build" || return 1
    java="java -Xcheck:jni -cp $tests/jni -Dcounter=$(pwd)/$tests/jni/libcounter.so Counter"
    [ "$($java 700 "$tests/one.hll" | sed 's/,.*//')" -gt 650 ] && [ "$($java 0 "$tests/one.hll")" = '2, between 2 and 3' ] || return 1
    ! $java 257 "$tests/none.hll" >"$tests/said" 2>&1 && grep 'none.hll: status 2' "$tests/said"
}

test_java() {
    printf '\002\001\007\014\003\010\002\010\370\021\140\004\277\040\144\034' >"$tests/one.hll"
    printf '\002\001\010\014\003\014\000\010' >"$tests/none.hll"
    if has javac && [ "$(java_version)" -ge 17 ]; then
        expect 'the program in Java over JNI' try_jni
    else
        echo '# no JDK of version 17 or later is here: the example over JNI is not run'
    fi
    if [ "$(java_version)" -lt 22 ]; then
        echo '# no JDK of version 22 or later is here: the example in Java is not run'
        return
    fi
    expect 'the program in Java' try_java
}

if [ $# -gt 1 ]; then
    test_other_build "$2"
else
    test_header
    test_names
    test_jumps
    test_fused
    test_expected
    test_calls
    test_both
    test_memory
    test_sanitized
    expect 'the example' try_example "$build/example"
    expect 'users of a million keys' million_keys
    expect 'the program of the README' try_readme
    test_java
    expect 'install and uninstall' try_install
    expect 'paths with spaces and quotes' try_odd_paths
    expect 'without rt' try_without_rt
    test_processors
    test_musl
    expect 'the same bytes from two folders' try_two_folders
    test_arm
fi

finish
