//! Links the static library of the corrector, where the environment says which.
//!
//! MARKBOOK_LIB_DIR is the folder that has libffi.a in it. MARKBOOK_HEAP_O is the C object or archive through which the library
//! asks for memory. Without MARKBOOK_LIB_DIR everything is built but the calls of the library: what is left is the reference.

use std::env;
use std::path::Path;

fn main() {
    println!("cargo:rustc-check-cfg=cfg(linked)");
    println!("cargo:rerun-if-changed=build.rs");
    println!("cargo:rerun-if-env-changed=MARKBOOK_LIB_DIR");
    println!("cargo:rerun-if-env-changed=MARKBOOK_HEAP_O");
    let Ok(folder) = env::var("MARKBOOK_LIB_DIR") else { return };
    println!("cargo:rustc-cfg=linked");
    println!("cargo:rustc-link-arg=-Wl,--start-group");
    // By its path, not as -lffi: systems have a library of that name.
    link(&Path::new(&folder).join("libffi.a"));
    if let Ok(heap) = env::var("MARKBOOK_HEAP_O") {
        link(Path::new(&heap));
    }
    println!("cargo:rustc-link-arg=-Wl,--end-group");
    // So that src/memory.rs sees what memory is asked for.
    println!("cargo:rustc-link-arg=-Wl,--wrap=malloc,--wrap=realloc,--wrap=free");
}

fn link(file: &Path) {
    let whole = file.canonicalize().unwrap_or_else(|why| panic!("{}: {why}", file.display()));
    println!("cargo:rerun-if-changed={}", whole.display());
    println!("cargo:rustc-link-arg={}", whole.display());
}
