//! Links the port: the static library, or the object that OMBRADIEC_OBJECT names.

use std::env;
use std::path::PathBuf;

fn main() {
    println!("cargo:rerun-if-env-changed=OMBRADIEC_OBJECT");
    let here = PathBuf::from(env::var("CARGO_MANIFEST_DIR").unwrap());
    let library = here.join("../../crates/ombradiec/out/libombradiec.a");
    let object = env::var_os("OMBRADIEC_OBJECT").map_or(library, PathBuf::from);
    println!("cargo:rerun-if-changed={}", object.display());
    println!("cargo:rustc-link-arg={}", object.display());
}
