//! Links the engine's library where `tools/build.sh` wrote it and it makes tables; the
//! cfg `library` says so. Without it the program starts rulerun instead.

use std::path::Path;

const SERVICE: &[u8] = b"engine_tabulate";

fn main() {
    let root = std::env::var("CARGO_MANIFEST_DIR").expect("cargo sets it");
    let folder = Path::new(&root).join("../target/staticlib");
    let library = folder.join("libcapi.a");
    println!("cargo:rustc-check-cfg=cfg(library)");
    let bytes = std::fs::read(&library).unwrap_or_default();
    if bytes.windows(SERVICE.len()).any(|name| name == SERVICE) {
        println!("cargo:rustc-cfg=library");
        println!("cargo:rustc-link-search=native={}", folder.display());
        println!("cargo:rustc-link-lib=static=capi");
    }
    // While there is none, the folder in which it will stand is watched: cargo would build
    // again each time for a file that is not there.
    let mut above = library.ancestors().take(3);
    let watched = above.find(|path| path.exists()).unwrap_or(&library);
    println!("cargo:rerun-if-changed={}", watched.display());
}
