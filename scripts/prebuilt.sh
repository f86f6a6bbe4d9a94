#!/bin/sh
# SPDX-License-Identifier: Apache-2.0
# Says whether prebuilt/ was made from the sources as they are now. Needs a shell, awk, find, and sha256sum or shasum.
#
#   scripts/prebuilt.sh sum     prints the checksum of all sources that prebuilt/ is made from
#   scripts/prebuilt.sh state   prints one word:
#                                 fresh     prebuilt/VERDICT has this checksum, and each file has the checksum that VERDICT lists
#                                 stale     a source has changed since
#                                 damaged   VERDICT or a file of prebuilt/ has changed
#   scripts/prebuilt.sh wasm-sum  prints the checksum of what prebuilt/wasm/hll.wasm is made from in addition to these sources
#   scripts/prebuilt.sh wasm      prints `fresh`, or `stale` if one of those files has changed since hll.wasm was made
#   scripts/prebuilt.sh texts-sum, texts    the same of the texts for other systems, of which VERDICT has the checksums
#   scripts/prebuilt.sh text NAME  prints one word of the text for another system, prebuilt/NAME/libhll_c.s: `fresh`, `none` if it is
#                                 not here, or `stale` if it is not the one of VERDICT
set -eu
cd "$(dirname -- "$0")/.."
LC_ALL=C
export LC_ALL
sums=sha256sum
command -v sha256sum >/dev/null || sums='shasum -a 256'     # macOS

# The crates of the library and of the programs, and all crates of this repository that they use.
crates() {
    awk '
        /^[^#].*:/ {
            colon = index($0, ":")
            split(substr($0, 1, colon - 1), head, " ")
            uses[head[1]] = substr($0, colon + 1)
        }
        END {
            count = split("hll_c hll_program hll_estimator_fields_program", found, " ")
            for (i = 1; i <= count; i++) {
                if (seen[found[i]]++ || !(found[i] in uses)) continue
                print found[i]
                more = split(uses[found[i]], names, " ")
                for (j = 1; j <= more; j++) found[++count] = names[j]
            }
        }' crates.txt | sort
}

# Tests, READMEs and mutants are left out: nothing in prebuilt/ depends on them.
sum() {
    for crate in $(crates); do
        grep "^${crate}[ :]" crates.txt
        # shellcheck disable=SC2086 # words
        for part in src specs proofs; do
            [ ! -d "crates/$crate/$part" ] || find "crates/$crate/$part" -type f -print
        done | sort | tr '\n' '\0' | xargs -0 $sums
    done | cat - HANDLES | $sums | cut -d' ' -f1
}

state() {
    if [ ! -f prebuilt/VERDICT ]; then
        echo stale
    elif [ "$(sed '$d' prebuilt/VERDICT | $sums | cut -d' ' -f1)" != "$(sed -n '$s/^lines above: //p' prebuilt/VERDICT)" ]; then
        echo damaged
    elif [ "$(sed -n 's/^sources: //p' prebuilt/VERDICT)" != "$(sum)" ]; then
        echo stale
    elif ! (cd prebuilt && sed -n 's/^file: //p' VERDICT | $sums -c --status --strict); then
        echo damaged
    else
        echo fresh
    fi
}

# Prints a C file without its comments, and without the length of its blanks.
uncommented() {
    awk '
        { text = text $0 "\n" }
        END {
            while ((start = index(text, "/*")) > 0) {
                after = substr(text, start + 2)
                text = substr(text, 1, start - 1) " " substr(after, index(after, "*/") + 2)
            }
            gsub(/[ \t\n]+/, " ", text)
            print text
        }' "$1"
}

# The C files that are linked with the proved library, and what compiles and links it.
wasm_sum() {
    {
        for file in hll.h hll_state.h proved_calls.h counter.c estimate.c optional.c state.c; do
            uncommented "bindings/c/$file"
        done
        find bindings/javascript/wasm -type f -name '*.[ch]' -print | sort | while IFS= read -r file; do
            echo "$file"
            uncommented "$file"
        done
        cat scripts/retarget.py bindings/javascript/wasm/build.sh bindings/javascript/wasm/lower.py
    } | $sums | cut -d' ' -f1
}

wasm() {
    case $(sed -n 's/^wasm: .*sources \([0-9a-f]*\);.*/\1/p' prebuilt/VERDICT) in
    "$(wasm_sum)") echo fresh ;;
    *) echo stale ;;
    esac
}

# What compiles the texts for other systems, and the calls that get other names there.
texts_sum() {
    {
        cat scripts/retarget.py scripts/other_systems.py
        sed -n 's/^WRAPPED([a-z_0-9]*, \(hll_[a-z_0-9]*\),.*/\1/p' bindings/c/proved_calls.h | sort
    } | $sums | cut -d' ' -f1
}

texts() {
    case $(sed -n 's/^texts: .*sources \([0-9a-f]*\)$/\1/p' prebuilt/VERDICT) in
    "$(texts_sum)") echo fresh ;;
    *) echo stale ;;
    esac
}

text() {
    if [ ! -f "prebuilt/$1/libhll_c.s" ]; then
        echo none
    elif grep -qx "text: $($sums <"prebuilt/$1/libhll_c.s" | cut -d' ' -f1)  $1/libhll_c.s" prebuilt/VERDICT; then
        echo fresh
    else
        echo stale
    fi
}

case ${1:-}:$# in
sum:1 | state:1 | wasm:1 | texts:1 | text:2) "$@" ;;
wasm-sum:1) wasm_sum ;;
texts-sum:1) texts_sum ;;
*)
    echo 'usage: scripts/prebuilt.sh sum|state|wasm-sum|wasm|texts-sum|texts|text NAME' >&2
    exit 2
    ;;
esac
