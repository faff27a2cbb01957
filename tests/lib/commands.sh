# What the rows of release.sh and rust.sh are made of, each a command that has to end well. Sets $root, the
# repository, and $work, a folder that goes when the script ends, which says how many rows passed and failed.

root=$(realpath "$(dirname "${BASH_SOURCE[0]}")/../..")
work=$(mktemp -d) || exit 2
passed=0 failed=0

finish() {
    rm -rf "$work"
    echo "$passed passed, $failed failed"
    [ "$failed" = 0 ] || exit 1
}
trap finish EXIT

# check NAME COMMAND..: one more row, which passes if the command does
check() {
    if "${@:2}" >"$work/log" 2>&1; then
        passed=$((passed + 1))
    else
        failed=$((failed + 1))
        echo "failed: $1"
        tail -n 40 "$work/log"
    fi
}

# built NAME FILE COMMAND: ends all where the file is not newer than the sources of the crate
built() {
    "$root/bin/is_built" "$1" "$2" && return
    failed=1
    echo "failed: crates/$1/out/$2 is not built from these sources: $3 builds it"
    exit
}

left_out() {
    echo "left out: $1"
}

has() {
    command -v "$1" >/dev/null
}

# check_with TOOL NAME COMMAND..: a row that needs a tool
check_with() {
    if has "$1"; then check "${@:2}"; else left_out "$2, since there is no $1"; fi
}
