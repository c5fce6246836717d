// Links libbelaykeel.a, which `tools/staticlibs` writes to target/staticlib. BELAYKEEL_STATICLIB names another directory.
use std::path::{Path, PathBuf};

fn main() {
    println!("cargo:rerun-if-env-changed=BELAYKEEL_STATICLIB");
    let dir = match std::env::var_os("BELAYKEEL_STATICLIB") {
        Some(dir) => PathBuf::from(dir),
        None => Path::new(env!("CARGO_MANIFEST_DIR")).join("../../target/staticlib"),
    };
    println!("cargo:rustc-link-search=native={}", dir.display());
    println!("cargo:rustc-link-lib=static=belaykeel");
    println!("cargo:rerun-if-changed={}", dir.join("libbelaykeel.a").display());
}
