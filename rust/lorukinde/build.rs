//! Links the static library `libc_calls.a`: from the folder `LORUKINDE_LIB_DIR`, or from where `tools/make_archive.sh` leaves it. Where it
//! is not there `no_archive` is set, and the crate says so when it is compiled; its documentation needs no archive.
use std::env;
use std::path::PathBuf;

fn main() {
    println!("cargo:rerun-if-env-changed=LORUKINDE_LIB_DIR");
    println!("cargo:rustc-check-cfg=cfg(no_archive)");
    let folder = match env::var_os("LORUKINDE_LIB_DIR") {
        Some(folder) => PathBuf::from(folder),
        None => PathBuf::from(env::var_os("CARGO_MANIFEST_DIR").unwrap_or_default()).join("../../target/staticlib"),
    };
    let archive = folder.join("libc_calls.a");
    println!("cargo:rerun-if-changed={}", archive.display());
    if archive.is_file() {
        println!("cargo:rustc-link-search=native={}", folder.display());
        println!("cargo:rustc-link-lib=static=c_calls");
    } else {
        println!("cargo:rustc-cfg=no_archive");
    }
}
