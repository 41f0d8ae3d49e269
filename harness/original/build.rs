//! Finds the Rust files and writes the module tree that names them where they lie.
//!
//! The files are compiled unchanged and are not copied, but for one: a second form of
//! `wrong_label_filters.rs`, in the build folder only, in which `weak_leaf_peel` has lost
//! its `#[cfg(test)]` and is public.

use std::path::{Path, PathBuf};
use std::{env, fs};

const TEST_ONLY: &str = "#[cfg(test)]\nfn weak_leaf_peel<F>";

fn main() {
    println!("cargo:rerun-if-env-changed=HIGLAUPTH_RUST");
    println!("cargo:rustc-check-cfg=cfg(original_at_hand)");
    let root = match env::var_os("HIGLAUPTH_RUST") {
        Some(place) => PathBuf::from(place),
        None => {
            Path::new(&env::var("CARGO_MANIFEST_DIR").unwrap()).join("../../../shared/docs/src")
        }
    };
    let source = root.join("crates/projective-grid/src");
    println!("cargo:rerun-if-changed={}", source.display());
    let out = PathBuf::from(env::var("OUT_DIR").unwrap());
    let needed = ["shared/validate/mod.rs", "lattice/predict.rs"];
    if !needed.iter().all(|file| source.join(file).is_file()) {
        fs::write(out.join("modules.rs"), "").unwrap();
        return;
    }
    let source = source.canonicalize().unwrap();
    let filters = source.join("shared/validate/wrong_label_filters.rs");
    let text = fs::read_to_string(&filters).unwrap();
    assert_eq!(
        text.matches(TEST_ONLY).count(),
        1,
        "weak_leaf_peel is not where it was"
    );
    let peel = out.join("wrong_label_filters.rs");
    fs::write(&peel, text.replace(TEST_ONLY, "pub fn weak_leaf_peel<F>")).unwrap();
    fs::write(out.join("modules.rs"), modules(&source, &peel)).unwrap();
    println!("cargo:rustc-cfg=original_at_hand");
    println!("cargo:at_hand=yes");
}

/// The module tree of the original, as far as its files name it.
fn modules(source: &Path, peel: &Path) -> String {
    let at = |file: &str| format!("#[path = {:?}]", source.join(file));
    format!(
        "{float}\npub mod float;\n\
         pub mod geometry {{\n{homography}\nmod homography;\npub use homography::*;\n}}\n\
         {lattice}\npub mod lattice;\n\
         pub mod shared {{\n{validate}\npub mod validate;\n}}\n\
         pub mod test_only {{\npub use crate::shared::validate::*;\n\
         #[path = {peel:?}]\npub mod wrong_label_filters;\n}}\n",
        float = at("float.rs"),
        homography = at("geometry/homography.rs"),
        lattice = at("lattice/mod.rs"),
        validate = at("shared/validate/mod.rs"),
    )
}
