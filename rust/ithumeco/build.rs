//! Links the static library that `rt lib` writes in crates/ithumeco.

use std::env;
use std::path::Path;

fn main() {
    let crate_folder = env::var("CARGO_MANIFEST_DIR").expect("cargo names the crate's folder");
    let folder = Path::new(&crate_folder).join("../../crates/ithumeco/out");
    let archive = folder.join("libithumeco.a");
    println!("cargo::rerun-if-changed={}", archive.display());
    if !archive.exists() {
        println!(
            "cargo::error=crates/ithumeco/out/libithumeco.a is missing: run `rt lib` in crates/ithumeco"
        );
        return;
    }
    println!("cargo::rustc-link-search=native={}", folder.display());
    println!("cargo::rustc-link-lib=static=ithumeco");
}
