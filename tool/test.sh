#!/usr/bin/env bash
# Every test beside the proofs: the tool's unit tests, the reference's, and the program used as a
# person would, held against the Rust original. One line a group; the last line is 'N passed, M failed'.
#
#   tool/test.sh            all groups
#   tool/test.sh GROUP..    those groups of tool/tests alone
#
# VISIONCORTEX_SRC and COLOR_CLUSTERS_LIB as for reference/setup.sh and ./sheet. Where the original is
# not there, what asks it is left out, by name.
#
# Exit status: 0 all passed; 1 something failed; 3 nothing was run, since cargo or Debian's packages
# can't be had: one line says so, and no counts follow.
set -euo pipefail

root=$(realpath "$(dirname "$0")/..")
target=$(realpath -m "${CARGO_TARGET_DIR:-$root/tool/target}")
log=$(mktemp)
trap 'rm -f "$log"' EXIT
if [ -n "${VISIONCORTEX_SRC:-}" ]; then
    VISIONCORTEX_SRC=$(realpath -m "$VISIONCORTEX_SRC")
    export VISIONCORTEX_SRC
fi

# What is said goes past the log.
exec 3>&1
say() {
    echo "test: $*" >&3
}

# shellcheck source=reference/packages.sh
. "$root/reference/packages.sh"

# needed COMMAND..: has the machine what the tests need? Where it can't be had, nothing is wrong with what is tested.
needed() {
    "$@" >"$log" 2>&1 || {
        say "the tool's tests were not run, since Debian's packages can't be had ($(tail -n 1 "$log"))"
        exit 3
    }
}

# must COMMAND..: what has to succeed before any test. What the command says is shown only where it fails.
must() {
    "$@" >"$log" 2>&1 || stop "$?" "$*"
}

stop() {
    cat "$log" >&2
    say "$2 failed with status $1"
    echo "0 passed, 1 failed"
    exit 1
}

passed=0 failed=0
# add STATUS: adds the counts in the log. A group that ended badly, or counted nothing, has a failure at least.
add() {
    local line some=0 none=0 counted=
    while read -r line; do
        if [[ $line =~ ^('test result: '[a-zA-Z]+\.|'all groups:')' '([0-9]+)' passed'[,\;]' '([0-9]+)' failed' ]]; then
            some=$((some + BASH_REMATCH[2])) none=$((none + BASH_REMATCH[3])) counted=yes
        fi
    done <"$log"
    if [ -z "$counted" ] || { [ "$1" -ne 0 ] && [ "$none" -eq 0 ]; }; then
        none=$((none + 1))
    fi
    passed=$((passed + some)) failed=$((failed + none))
    group="$some passed, $none failed"
}

# cargo_tests NAME FOLDER TARGET WORDS..: the tests that cargo runs in a folder.
cargo_tests() {
    local status=0
    (cd "$root/$2" && CARGO_TARGET_DIR=$3 COLOR_CLUSTERS_LIB=$archive cargo test --offline --quiet --no-fail-fast "${@:4}") >"$log" 2>&1 || status=$?
    [ "$status" -eq 0 ] || cat "$log" >&2
    add "$status"
    echo "$1: $group"
}

# shellcheck disable=SC2086 # the names are words of their own
needed install $tool_packages $reference_packages
needed install_cargo
# The header is tried under these names.
needed install_program gcc gcc libc6-dev
needed install_program g++ g++
needed install_program c++ g++
needed install_program python3 python3

must "$root/sheet" --version
archive=$(dirname "$(cat "$target/sheet.ready")")
reference=$root/reference/target
judge=$reference/release/judge
status=0
CARGO_TARGET_DIR=$reference "$root/reference/setup.sh" >"$log" 2>&1 || status=$?
case $status in
0) ;;
3) judge= ;;
*) stop "$status" reference/setup.sh ;;
esac

if [ $# -eq 0 ]; then
    cargo_tests 'unit tests' tool "$target"
    if [ -n "$judge" ]; then
        cargo_tests reference reference "$reference" --workspace
    else
        echo "left out, for want of the original: reference, where every test is built with it"
    fi
fi

status=0
SHEET=$target/release/sheet JUDGE=$judge COLOR_CLUSTERS_LIB=$archive python3 "$root/tool/tests/run.py" "$@" | tee "$log" || status=$?
add "$status"
echo "$passed passed, $failed failed"
[ "$failed" -eq 0 ]
