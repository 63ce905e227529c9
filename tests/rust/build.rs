//! Links the library's archive into `compare`, `hindsight` and `soak` when LIRVEDD_ARCHIVE
//! names it.
//! Without it everything still builds, and these have only the second implementation.

use std::env;
use std::path::Path;

fn main() {
    println!("cargo:rustc-check-cfg=cfg(archive)");
    println!("cargo:rerun-if-env-changed=LIRVEDD_ARCHIVE");
    println!("cargo:rerun-if-changed=build.rs");
    let Ok(named) = env::var("LIRVEDD_ARCHIVE") else {
        return;
    };
    if named.is_empty() {
        return;
    }
    let full = Path::new(&named)
        .canonicalize()
        .unwrap_or_else(|_| panic!("LIRVEDD_ARCHIVE: no file {named} (give its full path)"));
    let full = full.display();
    println!("cargo:rerun-if-changed={full}");
    println!("cargo:rustc-cfg=archive");
    for bin in ["compare", "hindsight", "soak"] {
        println!("cargo:rustc-link-arg-bin={bin}={full}");
    }
}
