//! Links the archive that `bin/archive` makes.

use std::env;
use std::path::Path;

fn main() {
    let folder = Path::new(&env::var("CARGO_MANIFEST_DIR").unwrap()).join("..");
    let archive = folder.join("libexports.a");
    let system = env::var("CARGO_CFG_TARGET_OS").unwrap();
    let machine = env::var("CARGO_CFG_TARGET_ARCH").unwrap();
    assert!(
        (system.as_str(), machine.as_str()) == ("linux", "x86_64"),
        "the archive is x86-64 Linux code and cannot be linked on {system} {machine}"
    );
    assert!(
        archive.exists(),
        "{} is missing: run `bin/archive` at the repository's top first",
        archive.display()
    );
    println!("cargo:rerun-if-changed={}", archive.display());
    println!("cargo:rustc-link-search=native={}", folder.display());
    println!("cargo:rustc-link-lib=static=exports");
}
