//! Links the archive for the processor that is built for: from the folder that `OMBRADIEC_LIB` names, or from `../crates/ombradiec/out`,
//! where `tools/archive` puts it for x86-64, or `../target/native`, where `tools/native ombradiec` puts it for another processor.
//! Where it is not there, a warning says so: `cargo doc` and `cargo check` need none, and all else ends at the missing library.
use std::env;
use std::path::PathBuf;

fn main() {
    println!("cargo:rerun-if-env-changed=OMBRADIEC_LIB");
    let processor = env::var("CARGO_CFG_TARGET_ARCH").unwrap_or_default();
    let (below, command) = match &*processor {
        "x86_64" => ("crates/ombradiec/out", "tools/archive"),
        _ => ("target/native", "tools/native ombradiec"),
    };
    let own = || PathBuf::from(env::var_os("CARGO_MANIFEST_DIR").unwrap()).join("..").join(below);
    let folder = env::var_os("OMBRADIEC_LIB").filter(|name| !name.is_empty()).map_or_else(own, PathBuf::from);
    let archive = folder.join("libombradiec.a");
    if !archive.is_file() {
        println!(
            "cargo:warning=there is no {}, the archive for {}, so that nothing can be linked: make it by `{}` in the repository's root, or name its folder in OMBRADIEC_LIB",
            archive.display(),
            processor,
            command
        );
    }
    println!("cargo:rerun-if-changed={}", archive.display());
    println!("cargo:rustc-link-search=native={}", folder.display());
    println!("cargo:rustc-link-lib=static=ombradiec");
}
