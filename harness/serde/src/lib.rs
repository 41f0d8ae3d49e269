//! Stand-in for the parts of serde that the Rust original names, and no others.
//!
//! Written for this harness: serde itself is not at hand. The original derives `Serialize` and
//! `Deserialize` for its lattice types; nothing here writes or reads these, so both derive nothing.
//! The attribute `serde` is taken and passed over.

use proc_macro::TokenStream;

#[proc_macro_derive(Serialize, attributes(serde))]
pub fn serialize(_: TokenStream) -> TokenStream {
    TokenStream::new()
}

#[proc_macro_derive(Deserialize, attributes(serde))]
pub fn deserialize(_: TokenStream) -> TokenStream {
    TokenStream::new()
}
