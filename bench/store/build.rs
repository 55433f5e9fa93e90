//! Links the archive of the soundness test, which `bench/store.sh` builds. The store's own comes with the crate `clash`.
use std::path::Path;

fn main() {
    let here = std::env::var("CARGO_MANIFEST_DIR").expect("set by cargo");
    let folder = Path::new(&here).join("../../target/staticlib");
    let archive = folder.join("libbench_sound.a");
    assert!(archive.exists(), "{} is missing: `tools/build bench_sound` makes it", archive.display());
    println!("cargo:rerun-if-changed={}", archive.display());
    println!("cargo:rustc-link-search=native={}", folder.display());
    println!("cargo:rustc-link-lib=static=bench_sound");
}
