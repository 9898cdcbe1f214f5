# To be sourced: the shared library liblorukinde.so, in target/shared, and the program `lorukinde`, both made again if they are older than what they are made of.
# Installs what is missing and makes the archive if it is not there (rust.sh).
#   LORUKINDE_LIB_DIR   the folder of libc_calls.a (default: target/staticlib)
. "$(dirname "${BASH_SOURCE[0]}")/rust.sh"
version=$(sed -n 's/^#define LORUKINDE_VERSION "\(.*\)"$/\1/p' "$root/include/lorukinde.h")
soname=liblorukinde.so.${version%%.*}
shared=$root/target/shared/liblorukinde.so.$version
linker=cc
[ "$(uname -m)" = x86_64 ] || linker=x86_64-linux-gnu-gcc

# cargo_made CRATE KIND WORDS...: builds, and says the one file of that kind that was made
cargo_made() {
    (cd "$1" && cargo build --offline --quiet --release --message-format=json "${@:3}") | sed -n "s/.*\"\($2\)\":\[*\"\([^\"]*\)\".*/\2/p" | tail -1
}

program=$(cargo_made "$crate" executable --bin lorukinde)
words=$(cargo_made "$root/rust/shared" filenames --lib)

# The Rust archive has the proved calls in it (cargo puts a static library into what is linked with it), so the shared library is that archive whole, without what
# no lorukinde_ call reaches, and with the lorukinde_ names alone.
if [ ! "$shared" -nt "$words" ]; then
    mkdir -p "$root/target/shared"
    printf '{ global: lorukinde_*; local: *; };\n' >"$root/target/shared/names.map"
    "$linker" -shared -static-libgcc -Wl,-soname,"$soname" -Wl,--version-script="$root/target/shared/names.map" -Wl,--gc-sections -Wl,-z,defs -Wl,-s \
        -Wl,--whole-archive "$words" -Wl,--no-whole-archive -lpthread -ldl -lm -o "$shared"
    ln -sf "$(basename "$shared")" "$root/target/shared/$soname"
    ln -sf "$soname" "$root/target/shared/liblorukinde.so"
fi
