//! LAYOUT, a number of bytes, is how far code is moved.

use std::env;

fn main() {
    println!("cargo:rustc-env=LAYOUT={}", env::var("LAYOUT").unwrap_or_else(|_| String::from("0")));
    println!("cargo:rerun-if-env-changed=LAYOUT");
    println!("cargo:rerun-if-changed=build.rs");
}
