# SPDX-License-Identifier: Apache-2.0
# shellcheck shell=sh
# For scripts that run tests: prints results as TAP (testanything.org). Source it, and end with `finish`.
#
# The words of $TESTS choose tests: those whose names have one of the words in them. All run where there are none.

tap_tests=0
tap_failures=0
tap_said=$(mktemp) || exit 1

# Whether a test of this name is to be run.
is_chosen() {
    [ -n "${TESTS:-}" ] || return 0
    for word in $TESTS; do
        case $1 in
        *"$word"*) return 0 ;;
        esac
    done
    return 1
}

# result STATUS NAME: prints the result of a test, and what it printed if it failed.
result() {
    tap_tests=$((tap_tests + 1))
    name=$(printf '%s' "$2" | sed 's/#/\\#/g')
    if [ "$1" -eq 0 ]; then
        echo "ok $tap_tests - $name"
    else
        tap_failures=$((tap_failures + 1))
        echo "not ok $tap_tests - $name"
        sed 's/^/# /' "$tap_said"
    fi
}

# expect NAME COMMAND ..: a command that has to succeed.
expect() {
    is_chosen "$1" || return 0
    title=$1
    shift
    "$@" >"$tap_said" 2>&1
    result $? "$title"
}

# The number of a kind, 'passed' or 'failed', in the last line 'N passed, M failed' of what was printed.
number_of() {
    tail -n 1 "$tap_said" | sed -n "s/^\(.*: \)\{0,1\}\([0-9][0-9]*\) passed, \([0-9][0-9]*\) failed\$/\2 passed \3 failed/p" |
        sed -n "s/^.*\b\([0-9][0-9]*\) $1\b.*\$/\1/p"
}

# run NAME COMMAND ..: a program that counts comparisons, and prints their numbers in its last line. One that ends badly, or
# without them, or that compares nothing, has failed.
run() {
    is_chosen "$1" || return 0
    title=$1
    shift
    "$@" >"$tap_said" 2>&1
    status=$?
    bad=$(number_of failed)
    good=$(number_of passed)
    if [ "$status" -eq 0 ] && { [ -z "$bad" ] || [ "$bad" -ne 0 ] || [ "$good" -eq 0 ]; }; then
        status=1
    fi
    [ "$status" -eq 0 ] || echo "it ended with status $status" >>"$tap_said"
    result "$status" "$title"
    [ -z "$good" ] || echo "# over $((good + bad)) comparisons"
}

# skip NAME WHY: a test that can't be run here.
skip() {
    is_chosen "$1" || return 0
    tap_tests=$((tap_tests + 1))
    echo "ok $tap_tests - $1 # SKIP $2"
}

# Prints the plan, and ends with status 1 if a test failed, or none ran.
finish() {
    rm -f "$tap_said"
    echo "1..$tap_tests"
    [ "$tap_tests" -gt 0 ] || echo "# no test was run${TESTS:+: none has a name with $TESTS}"
    [ "$tap_failures" -eq 0 ] && [ "$tap_tests" -gt 0 ]
    exit
}
