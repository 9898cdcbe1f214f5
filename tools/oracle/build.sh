#!/usr/bin/env bash
# Builds the Rust, unchanged, with the grammar and the few files that are not among the papers: target/oracle/oracle. Any cargo and rustc from 1.63 on do.
# A second binary, oracle-digits, has a grammar that takes numbers of any value, so that only the builders judge them.
#   RUST_SRC   folder of the Rust (default: ../shared/docs/src beside the repository)
#   BUILD      build folder (default: target/oracle)
#   NUMBERS    the grammars' numbers: ranges and digits (default: both)
#   X86        if set: built for x86-64 on any processor (tools/x86.sh)
# It is cargo's release build; CARGO_PROFILE_RELEASE_LTO and the like change that.
set -euo pipefail
here=$(cd "$(dirname "$0")" && pwd)
src=${RUST_SRC:-$here/../../../shared/docs/src}
build=${BUILD:-$here/../../target/oracle}
rust=$src/opening-hours-syntax/src

for file in parser.rs lib.rs error.rs display.rs extended_time.rs rules/day.rs rules/time.rs util/pairs.rs util/text.rs; do
    [ -f "$rust/$file" ] || { echo "missing: opening-hours-syntax/src/$file of the Rust under $src (set RUST_SRC)" >&2; exit 1; }
done
. "$here/../x86.sh"
need cargo cargo rustc
[ -z "${X86:-}" ] || x86_cargo
minor() { "$@" --version | sed 's/^[^.]*\.\([0-9]*\).*/\1/'; } # of 1.63.0 it is 63
cargo=$(minor cargo) rustc=$(minor "${RUSTC:-rustc}")
[ "$cargo" -ge 63 ] && [ "$rustc" -ge 63 ] || { echo "cargo 1.$cargo and rustc 1.$rustc: both have to be 1.63 or later" >&2; exit 1; }
need_packages librust-pest-dev librust-pest-derive-dev librust-chrono-dev
registry=$(dpkg -L librust-pest-dev | sed -n 's|/pest-[^/]*/Cargo.toml$||p' | head -n 1)

mkdir -p "$build"
build=$(cd "$build" && pwd)
export CARGO_HOME=$build/cargo CARGO_TARGET_DIR=$build/out # nothing outside the build folder is read or written
mkdir -p "$CARGO_HOME"
cat >"$CARGO_HOME/config.toml" <<END
[source.crates-io]
replace-with = "debian"
[source.debian]
directory = "$registry"
END

# Debian's chrono is older than the one the Rust asks for: a copy gets the two things that are missing
rm -rf "$build/chrono"
cp -r "$registry"/chrono-0.4.* "$build/chrono"
sed -i 's/^#\[derive(\(.*\))\]$/#[derive(\1, Hash)]/' "$build/chrono/src/oldtime.rs"
cat >>"$build/chrono/src/weekday.rs" <<'END'

impl Weekday {
    /// Days from `other` to this day, 0 to 6.
    pub const fn days_since(&self, other: Weekday) -> u32 {
        (7 + *self as u32 - other as u32) % 7
    }
}
END

# The Rust is of edition 2024 and uses what rustc has from 1.88 on. An older one builds the same text by edition 2021, with the four features switched on that
# it has already but does not offer yet (README.md, "An older Rust"), for this crate alone
edition=2024
if [ "$rustc" -lt 88 ]; then
    edition=2021
    cat >"$build/rustc-older" <<'END'
#!/bin/sh
case " $* " in
*" --crate-name opening_hours_syntax "*) RUSTC_BOOTSTRAP=1 exec "$@" "-Zcrate-attr=feature(const_option, let_chains, let_else, result_option_inspect)" ;;
*) exec "$@" ;;
esac
END
    chmod +x "$build/rustc-older"
    export RUSTC_WRAPPER=$build/rustc-older
fi

for numbers in ${NUMBERS:-ranges digits}; do
    dir=$build/$numbers
    rm -rf "$dir"
    mkdir -p "$dir/syntax/src" "$dir/src"
    cp -r "$rust/." "$dir/syntax/src/"
    chmod -R u+w "$dir/syntax/src"
    cat "$here/shapes.pest" "$here/$numbers.pest" >"$dir/syntax/src/grammar.pest"
    cp "$here/rules.rs" "$dir/syntax/src/rules/mod.rs"
    cp "$here/sign.rs" "$dir/syntax/src/util/sign.rs"
    cp "$here/warning.rs" "$dir/syntax/src/warning.rs"
    printf 'pub mod pairs;\npub mod sign;\npub mod text;\n' >"$dir/syntax/src/util/mod.rs"
    : >"$dir/syntax/src/normalize.rs"
    : >"$dir/syntax/README.md"
    cat >"$dir/syntax/Cargo.toml" <<END
[package]
name = "opening-hours-syntax"
version = "0.0.0"
edition = "$edition"
[features]
default = ["std"]
std = []
[dependencies]
chrono = { path = "../../chrono", default-features = false }
pest = "2"
pest_derive = "2"
END
    cp "$here/main.rs" "$dir/src/main.rs"
    cat >"$dir/Cargo.toml" <<'END'
[package]
name = "oracle"
version = "0.0.0"
edition = "2021"
[dependencies]
opening-hours-syntax = { path = "syntax" }
chrono = { path = "../chrono", default-features = false }
END
    (cd "$dir" && RUSTFLAGS="${RUSTFLAGS:-} --cap-lints=allow" cargo build --offline --release -j1) # none of it is ours: its warnings are not shown
    case $numbers in ranges) name=oracle ;; digits) name=oracle-digits ;; esac
    cp "$build/out/${CARGO_BUILD_TARGET:+$CARGO_BUILD_TARGET/}release/oracle" "$build/$name"
    diff -r "$rust" "$dir/syntax/src" | grep -v '^Only in .*/syntax/src' && { echo "the Rust was changed" >&2; exit 1; }
    echo "built: $build/$name"
done
