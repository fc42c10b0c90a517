//! Links the desk's library into a Cargo program. Copy it beside the program's Cargo.toml as build.rs, and rust/desk.rs
//! into its src.
//!
//! The library is libdesk.a in the folder that `DESK_LIB_DIR` names, or in `lib` beside Cargo.toml where nothing is named. A
//! folder that does not begin at the root is taken from Cargo.toml's. `tools/proved library` writes the library, as
//! target/staticlib/libdesk.a of the desk's project.

use std::env;
use std::path::Path;
use std::process::exit;

fn main() {
    println!("cargo:rerun-if-env-changed=DESK_LIB_DIR");
    let target = |what| env::var(format!("CARGO_CFG_TARGET_{what}")).unwrap_or_default();
    let (processor, system) = (target("ARCH"), target("OS"));
    if (processor.as_str(), system.as_str()) != ("x86_64", "linux") {
        println!("cargo:warning=libdesk.a is for x86_64 linux: for {processor} {system} this can be checked, not linked");
        return;
    }

    let home = env::var_os("CARGO_MANIFEST_DIR").unwrap_or_default();
    let folder = Path::new(&home).join(env::var_os("DESK_LIB_DIR").unwrap_or("lib".into()));
    let library = folder.join("libdesk.a");
    println!("cargo:rerun-if-changed={}", library.display());
    if !library.is_file() {
        eprintln!("There is no {}.", library.display());
        eprintln!("`tools/proved library` makes it, in the desk's project, as target/staticlib/libdesk.a. Name its folder in");
        eprintln!("DESK_LIB_DIR, or copy it to lib/libdesk.a beside Cargo.toml.");
        exit(1);
    }
    println!("cargo:rustc-link-search=native={}", folder.display());
    println!("cargo:rustc-link-lib=static=desk");
}
