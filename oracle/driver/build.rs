//! Compiles the crate, and none of its stand-ins, with `cfg(test)`. The original then has the module
//! `secure::test_util`, whose file is our driver, and the functions that it keeps for its tests.

fn main() {
    println!("cargo::rustc-cfg=test");
    println!("cargo::rerun-if-changed=build.rs");
}
