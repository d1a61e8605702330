//! Has the programs built anew when the Rust reference was: cargo does not know the library that `build` hands to rustc.

fn main() {
    println!("cargo:rerun-if-changed=../../target/reference/libreference.rlib");
}
