//! Passes on whether the Rust original is at hand, and links the static libraries that are asked for.

use std::env;

/// Links a library from the folder that a variable names, if its feature is on.
fn link(feature: &str, variable: &str, library: &str) {
    println!("cargo:rerun-if-env-changed={variable}");
    if env::var_os(feature).is_some() {
        let folder = env::var(variable)
            .unwrap_or_else(|_| panic!("{variable} names lib{library}.a's folder"));
        println!("cargo:rerun-if-changed={folder}/lib{library}.a");
        println!("cargo:rustc-link-search=native={folder}");
        println!("cargo:rustc-link-lib=static={library}");
    }
}

fn main() {
    println!("cargo:rustc-check-cfg=cfg(original_at_hand)");
    if env::var("DEP_ORIGINAL_AT_HAND").as_deref() == Ok("yes") {
        println!("cargo:rustc-cfg=original_at_hand");
    }
    link("CARGO_FEATURE_LIBRARY", "HIGLAUPTH_LIBRARY", "higlaupth");
    link(
        "CARGO_FEATURE_FLOAT_LIBRARY",
        "HIGLAUPTH_FLOAT_LIBRARY",
        "float_c",
    );
}
