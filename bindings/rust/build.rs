//! Says where libalphamu.a is: in the folder that ALPHAMU_LIB_DIR names, beside these files where
//! they are installed, or where `./build library` of the repository makes it.
use std::{env, path::PathBuf};

fn main() {
    println!("cargo:rerun-if-env-changed=ALPHAMU_LIB_DIR");
    let here = PathBuf::from(env::var_os("CARGO_MANIFEST_DIR").expect("cargo sets it"));
    let places = [
        here.join("../../../lib"),
        here.join("../../crates/alphamu_c/out"),
    ];
    let found = env::var_os("ALPHAMU_LIB_DIR")
        .map(PathBuf::from)
        .or_else(|| {
            places
                .into_iter()
                .find(|it| it.join("libalphamu.a").exists())
        });
    if let Some(folder) = found {
        println!("cargo:rustc-link-search=native={}", folder.display());
        println!(
            "cargo:rerun-if-changed={}",
            folder.join("libalphamu.a").display()
        );
    }
    println!("cargo:rustc-link-lib=static=alphamu");
}
