#!/usr/bin/env bash
# Checks the Rust crate in rust/: it is what bin/rust_crate makes of the sources, its tests, the tables of answers, and
# the package alone in a folder; and over the original crate `glob`, of the Debian package librust-glob-dev, the same
# tests and programs of users. What is not installed is left out, and said. Its last line is 'N passed, M failed'.
set -uo pipefail
. "$(dirname "$(realpath "$0")")/lib/commands.sh"
crate=$work/rust
# Cargo asks no registry.
export CARGO_NET_OFFLINE=true CARGO_TARGET_DIR=$work/target
# The folder of the original's sources, if there is one: that of the variable ORIGINAL, or Debian's.
original=${ORIGINAL-$(ls -d /usr/share/cargo/registry/glob-0.3.* 2>/dev/null | tail -1)}

# The generated files are those of the sources now.
made_anew() {
    "$root/bin/rust_crate" "$root/crates" "$work/proved" && diff -r "$work/proved" "$root/rust/src/proved"
}

# Without the exceptions clippy finds exactly what they name, and no other file has any.
exceptions() {
    cp -r "$crate" "$work/bare" && sed -i '/^#!\[allow(/d' "$work/bare/src/proved/mod.rs" || return
    env -C "$work/bare" cargo clippy -q --lib --message-format=json 2>/dev/null | grep -o '"clippy::[a-z_]*"' | tr -d '"' |
        sort -u >"$work/found"
    grep '^#!\[allow(' "$crate/src/proved/mod.rs" | grep -o 'clippy::[a-z_]*' | sort -u >"$work/named"
    [ -s "$work/named" ] && diff "$work/named" "$work/found" &&
        ! grep -rn 'allow(clippy' "$crate/src" --include='*.rs' | grep -v '/proved/mod.rs:'
}

# A build for Windows is an error that says why.
no_windows() {
    ! rustc --crate-type lib --edition 2021 --cfg windows -A explicit_builtin_cfgs_in_flags --emit metadata \
        -o "$work/windows" "$crate/src/lib.rs" 2>"$work/why" && grep -q '^error: paths of Windows have prefixes' "$work/why"
}

# Debian's `rustc-web` is the oldest compiler that is tried, if it is unpacked in the folder OLDEST.
oldest() {
    local root=$OLDEST lib=$OLDEST/usr/lib/x86_64-linux-gnu
    [ "$(LD_LIBRARY_PATH=$lib "$root/usr/bin/rustc" --version | cut -d. -f1,2)" = \
        "rustc $(sed -n 's/^rust-version = "\(.*\)"/\1/p' "$crate/Cargo.toml")" ] &&
        env -C "$crate" LD_LIBRARY_PATH="$lib" RUSTC="$root/usr/bin/rustc" RUSTDOC="$root/usr/bin/rustdoc" \
            CARGO_TARGET_DIR="$work/oldest" "$root/usr/bin/cargo" test -q
}

# The package is all that a user gets: its tests and examples run in a folder of its own.
packed() {
    env -C "$crate" cargo package -q --allow-dirty && mkdir "$work/alone" &&
        tar -C "$work/alone" -xf "$CARGO_TARGET_DIR"/package/cadmiumdove-*.crate &&
        env -C "$work/alone"/cadmiumdove-* cargo test -q
}

# The programs of users over both crates, which differ by a line of Cargo.toml, print the same.
programs() {
    local side at
    for side in theirs ours; do
        [ "$side" = theirs ] ||
            sed -i 's|^glob = .*|glob = { package = "cadmiumdove", path = "../rust" }|' "$work/programs/Cargo.toml"
        env -C "$work/programs" cargo build -q --target-dir "$work/$side" || return
        at=$work/$side.at
        mkdir -m 777 "$at" "$at/tree" && chmod -R a+rX "$work/$side" || return
        (cd "$at/tree" && "${as[@]}" "$work/programs/run.sh" "$work/$side/debug") >"$work/$side.out" || return
    done
    cmp "$work/theirs.out" "$work/ours.out" && [ "$(grep -c '^status' "$work/ours.out")" = 9 ]
}

beside_the_original() {
    cp -r "$original" "$work/glob"
    cp -r "$root/tests/rust/programs" "$work/programs" && mkdir "$work/programs/tests"
    # What the tests look for in the folder of their package.
    touch "$work/programs"/src/{a,b}.rs && chmod -R a+rX "$work/programs"
    cp "$root"/rust/tests/{glob,walks}.rs "$work/programs/tests"
    sed -i 's/^use cadmiumdove::/use glob::/' "$work/programs"/tests/*.rs
    check 'the same tests over the original' env -C "$work/programs" cargo test -q
    check 'programs of users' programs
}

# Root may list each directory, so what is to meet one that is shut runs as somebody else.
umask 022
as=()
if [ "$(id -u)" = 0 ]; then
    chmod 711 "$work"
    as=(setpriv --reuid=65534 --regid=65534 --clear-groups)
fi

check_with rustfmt 'made anew it is the same' made_anew
check 'nothing is added to a function' python3 "$root/tests/erased.py"
if has cargo; then
    "$root/bin/rust_package" "$crate" && chmod -R a+rX "$crate"
    check 'the layout' env -C "$crate" cargo fmt -q --check
    check 'the tests' env -C "$crate" cargo test -q
    [ "${#as[@]}" = 0 ] || check 'the tests as another user' \
        env -C "$crate" cargo test -q --tests --config "target.'cfg(unix)'.runner = '${as[*]}'"
    check 'a build for Windows' no_windows
    if [ -n "${OLDEST-}" ]; then
        check 'the oldest compiler' oldest
    else
        left_out 'the oldest compiler, since OLDEST names no folder with it'
    fi
    check 'the package alone' packed
    check 'the documentation' env -C "$crate" RUSTDOCFLAGS='-D warnings' cargo doc -q
    check_with cargo-clippy 'clippy' env -C "$crate" cargo clippy -q --all-targets -- -D warnings
    check_with cargo-clippy 'exceptions of clippy' exceptions
    if [ -n "$original" ]; then
        beside_the_original
    else
        left_out 'what is beside the original crate, since ORIGINAL is no folder and librust-glob-dev is not installed'
    fi
else
    left_out 'the tests of the crate, since there is no cargo'
fi
