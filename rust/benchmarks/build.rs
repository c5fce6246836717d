// Links target/staticlib/libengines_c.a, which `tools/staticlibs` writes.
use std::path::Path;

fn main() {
    let root = Path::new(env!("CARGO_MANIFEST_DIR")).join("../..");
    let dir = root.join("target/staticlib");
    println!("cargo:rustc-link-search=native={}", dir.display());
    println!("cargo:rustc-link-lib=static=engines_c");
    println!("cargo:rerun-if-changed={}", dir.join("libengines_c.a").display());
}
