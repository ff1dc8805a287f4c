//! Links the archive of the library: on x86-64 that of `tools/archive`; elsewhere, with the feature `native`, that of
//! `tools/native`. Where it is neither, src/lib.rs says so. Which archive it is hangs on the machine and the
//! feature alone: nothing is looked up in the environment but what cargo itself says there.

use std::env::var;
use std::path::Path;
use std::process::exit;

fn main() {
    println!("cargo::rerun-if-changed=build.rs");
    let (folder, made_by) = match (var("CARGO_CFG_TARGET_ARCH").as_deref(), var("CARGO_FEATURE_NATIVE")) {
        (Ok("x86_64"), _) => ("staticlib", "tools/archive"),
        (_, Ok(_)) => ("native", "tools/native"),
        _ => return,
    };
    let top = Path::new(env!("CARGO_MANIFEST_DIR")).join("../..");
    let archive = top.join("target").join(folder).join("libboundary.a");
    println!("cargo::rerun-if-changed={}", archive.display());
    // Linked by a name of its own: the caller's search paths are looked through first, and `boundary` may be there.
    let own = var("OUT_DIR").expect("cargo says where to write");
    if let Err(error) = std::fs::copy(&archive, Path::new(&own).join("libcuddlelamb_boundary.a")) {
        eprintln!("cuddlelamb: cannot link {}: {error}; '{made_by}' makes it", archive.display());
        exit(1);
    }
    println!("cargo::rustc-link-search=native={own}");
    println!("cargo::rustc-link-lib=static=cuddlelamb_boundary");
}
