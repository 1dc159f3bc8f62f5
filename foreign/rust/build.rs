// Links the archive that `rt lib` wrote in crates/pelmetsavory. PELMETSAVORY_LIB_DIR overrides where it lies.
use std::{env, path::PathBuf};

fn main() {
    println!("cargo:rerun-if-env-changed=PELMETSAVORY_LIB_DIR");
    let (dir, why) = match env::var_os("PELMETSAVORY_LIB_DIR") {
        Some(named) => (PathBuf::from(named), "which PELMETSAVORY_LIB_DIR names"),
        None => (PathBuf::from(env!("CARGO_MANIFEST_DIR")).join("../../crates/pelmetsavory/out"), "PELMETSAVORY_LIB_DIR is not set"),
    };
    let archive = dir.join("libpelmetsavory.a");
    println!("cargo:rerun-if-changed={}", archive.display());
    if !archive.is_file() {
        panic!(
            "there is no {} ({why}): run `rt lib` in crates/pelmetsavory, or set PELMETSAVORY_LIB_DIR to the folder of libpelmetsavory.a",
            archive.display()
        );
    }
    println!("cargo:rustc-link-search=native={}", dir.display());
    println!("cargo:rustc-link-lib=static=pelmetsavory");
}
