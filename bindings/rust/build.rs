//! Links libwage.a, which `rt lib`, in crates/wage, writes. It is for x86-64 Linux.

use std::path::Path;

fn main() {
    let root = Path::new(env!("CARGO_MANIFEST_DIR")).join("../..");
    let folder = root.join("crates/wage/out");
    println!("cargo:rustc-link-search=native={}", folder.display());
    println!("cargo:rustc-link-lib=static=wage");
    println!(
        "cargo:rerun-if-changed={}",
        folder.join("libwage.a").display()
    );
}
