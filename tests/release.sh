#!/usr/bin/env bash
# Makes a release, unpacks it in an empty folder, and uses it there: a program, and the library from C, under valgrind and
# the sanitizers. What is not installed is left out, and said. Its last line is 'N passed, M failed'.
set -uo pipefail
. "$(dirname "$(realpath "$0")")/lib/commands.sh"
warnings=(-Wall -Wextra -pedantic -Werror)

filters() {
    [ "$(printf 'a.o\nb.c\n' | bin/globs ignore <(echo '*.o'))" = b.c ]
}

# The symbols of the library have one prefix.
one_prefix() {
    nm -g --defined-only lib/libcadmiumdove.a >"$work/symbols" &&
        grep -q ' T cadmiumdove_pattern_new$' "$work/symbols" &&
        ! grep -E ' [A-Z] ' "$work/symbols" | grep -v ' T cadmiumdove_'
}

# By the flags of pkg-config. The example finds what `find` does, and says what is wrong with a pattern.
example() {
    local flags
    read -ra flags < <(PKG_CONFIG_PATH=lib/pkgconfig pkg-config --cflags --libs cadmiumdove) &&
        cc "${warnings[@]}" share/doc/cadmiumdove/find.c "${flags[@]}" -o "$work/find" &&
        "$work/find" 'rust/**/*.rs' | sort >"$work/found" && find rust -name '*.rs' | sort | cmp - "$work/found" &&
        [ "$("$work/find" 'a/b[' 2>&1)" = '3: invalid range pattern' ] &&
        [ "$("$work/find" $'a\xff' 2>&1)" = 'the pattern is not UTF-8' ]
}

# calls CC OPTION..: compiles calls of each function
calls() {
    "$@" -std=c11 "${warnings[@]}" -g -Iinclude "$root/tests/lib/calls.c" lib/libcadmiumdove.a \
        -Wl,--wrap=malloc,--wrap=realloc,--wrap=free -o "$work/calls"
}

uses() {
    local cc
    check 'a program' filters
    check 'what it was made from' grep -q "^commit $(git -C "$root" rev-parse HEAD)" BUILT
    check 'one prefix' one_prefix
    check_with g++ 'the header in C++' g++ -x c++ -std=c++11 "${warnings[@]}" -fsyntax-only include/cadmiumdove.h
    check_with pkg-config 'the example' example
    for cc in gcc clang; do
        has "$cc" || { left_out "calls from C by $cc"; continue; }
        check "C is compiled by $cc" calls "$cc"
        check_with valgrind "calls from C by $cc, under valgrind" \
            valgrind -q --leak-check=full --error-exitcode=9 "$work/calls"
        check "C is compiled by $cc, with sanitizers" calls "$cc" -fsanitize=address,undefined -fno-sanitize-recover=all
        check "calls from C by $cc, with sanitizers" "$work/calls"
    done
}

built globs globs 'rt ci'
built glob_c libcadmiumdove.a bin/c_library
check 'a release' "$root/bin/release" "$work/made"
mkdir "$work/there"
check 'it is unpacked' tar -C "$work/there" --strip-components=1 -xf "$work/made"/*.tar.gz
[ "$failed" != 0 ] || { cd "$work/there" && uses; }
