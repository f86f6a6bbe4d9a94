# SPDX-License-Identifier: Apache-2.0
# shellcheck shell=sh
# For the scripts `check` of the bindings: are tools here, and can they be had? Source it. Packages are installed only where
# HLL_INSTALL=yes or CI=true is in the environment (`./check --install` at the top sets it).

# Whoever runs the tests: messages are English, and the tools of a system are found, as they are by root.
# (LANGUAGE goes before LC_ALL, unless that is C)
LC_ALL=C.UTF-8
PATH=$PATH:/usr/sbin:/sbin
export LC_ALL PATH
unset LANGUAGE

has() {
    command -v "$1" >/dev/null 2>&1
}

# Installs packages of the distribution where that was asked for, this is root and apt-get is here; else, or if that fails,
# nothing happens.
get() {
    [ "${HLL_INSTALL:-}" = yes ] || [ "${CI:-}" = true ] || return 0
    [ "$(id -u)" = 0 ] && has apt-get || return 0
    echo "# installing $*"
    # one after another, where parts run at the same time
    flock /var/cache/apt sh -c '
        options="-q -o Acquire::Retries=1 -o Acquire::http::Timeout=20 -o DPkg::Lock::Timeout=300"
        [ -n "$(find /var/lib/apt/lists -name "*_Packages*" -mmin -60 2>/dev/null)" ] ||
            timeout 120 apt-get $options update
        DEBIAN_FRONTEND=noninteractive timeout 600 apt-get $options -y --no-install-recommends install "$@"
    ' get "$@" >/dev/null 2>&1 || echo "# $* can't be had here"
}

# want COMMAND PACKAGE..: gets the packages where the command is missing.
want() {
    has "$1" && return 0
    shift
    get "$@"
}

# Whether Debian's crates are here, or can be had, that cargo wants to see for the crate for Rust (bindings/rust/debian.toml).
want_crates() {
    has_crates || get librust-bincode-dev librust-data-encoding-dev librust-serde-dev librust-serde-json-dev
    has_crates
}

has_crates() {
    for crate in bincode data-encoding serde serde_json; do
        [ -n "$(find /usr/share/cargo/registry -maxdepth 1 -name "$crate-[0-9]*" 2>/dev/null)" ] || return 1
    done
}

# Ends a part that can't be run here: its tests are skipped, and nothing failed.
skip_part() {
    echo "1..0 # SKIP $*"
    exit 0
}
