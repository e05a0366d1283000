//! Sets `cfg(test)` without a test harness, because the text keeps `cold_gradient_probe` under it.

fn main() {
    println!("cargo:rustc-cfg=test");
    println!("cargo:rerun-if-changed=build.rs");
}
