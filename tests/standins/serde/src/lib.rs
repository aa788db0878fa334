//! Stand-in for the crate serde: the two derives exist and write nothing.
//! The reference compiler never serialises.

use proc_macro::TokenStream;

/// Accepts `#[derive(Serialize)]` and adds no code.
#[proc_macro_derive(Serialize, attributes(serde))]
pub fn serialize(_item: TokenStream) -> TokenStream {
    TokenStream::new()
}

/// Accepts `#[derive(Deserialize)]` and adds no code.
#[proc_macro_derive(Deserialize, attributes(serde))]
pub fn deserialize(_item: TokenStream) -> TokenStream {
    TokenStream::new()
}
