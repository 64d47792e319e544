//! Links `libsval.a`, which `bindings/build` makes.

use std::env;
use std::path::PathBuf;

fn main() {
    let around = PathBuf::from(env!("CARGO_MANIFEST_DIR")).join("../..");
    // A checkout has it in `out`, and what `bindings/dist` packs in `lib`.
    let beside = || ["out", "lib"].map(|name| around.join(name));
    let found = || {
        beside()
            .into_iter()
            .find(|it| it.join("libsval.a").exists())
    };
    let folder = env::var_os("SVAL_LIB_DIR")
        .map(PathBuf::from)
        .or_else(found);
    let folder = folder.unwrap_or_else(|| around.join("out"));
    let archive = folder.join("libsval.a");
    if !archive.exists() {
        panic!(
            "no {}: run bindings/build, or set SVAL_LIB_DIR to its folder",
            archive.display()
        );
    }
    println!("cargo:rerun-if-env-changed=SVAL_LIB_DIR");
    println!("cargo:rerun-if-changed={}", archive.display());
    println!("cargo:rustc-link-search=native={}", folder.display());
    println!("cargo:rustc-link-lib=static=sval");
}
