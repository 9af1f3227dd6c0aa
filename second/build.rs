//! Links the board's archive: from the directory in BOARD_LIB, by default `../target/staticlib` beside the package.

use std::env;
use std::path::{Path, PathBuf};

fn main() {
    let package = env::var("CARGO_MANIFEST_DIR").expect("cargo names the package's directory");
    let directory = match env::var("BOARD_LIB") {
        Ok(given) => PathBuf::from(given),
        Err(_) => Path::new(&package).join("../target/staticlib"),
    };
    println!("cargo:rustc-link-search=native={}", directory.display());
    println!("cargo:rustc-link-lib=static=board");
    println!("cargo:rerun-if-env-changed=BOARD_LIB");
    println!(
        "cargo:rerun-if-changed={}",
        directory.join("libboard.a").display()
    );
}
