//! Finds libplayer.a: in the folder that IMFELKUZ_LIB names, or where `make player` puts it.
use std::env;
use std::path::PathBuf;

fn main() {
    println!("cargo:rerun-if-env-changed=IMFELKUZ_LIB");
    let processor = env::var_os("CARGO_CFG_TARGET_ARCH").unwrap();
    let beside = PathBuf::from(env::var_os("CARGO_MANIFEST_DIR").unwrap()).join("../../target/library").join(processor);
    let folder = env::var_os("IMFELKUZ_LIB").map_or(beside, PathBuf::from);
    let library = folder.join("libplayer.a");
    println!("cargo:rerun-if-changed={}", library.display());
    if !library.exists() {
        println!(
            "cargo:warning={} is missing: `make player` builds it, and IMFELKUZ_LIB may name another folder",
            library.display()
        );
    }
    println!("cargo:rustc-link-search=native={}", folder.display());
    println!("cargo:rustc-link-lib=static=player");
}
