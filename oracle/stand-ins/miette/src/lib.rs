//! Stands in for the crate miette: the derive `Diagnostic`, which the crate's error types name, adds nothing here.
//! No decoding logic is in it; what it would add is only for printing an error to a reader.

use proc_macro::TokenStream;

#[proc_macro_derive(Diagnostic, attributes(diagnostic, related))]
pub fn diagnostic(_item: TokenStream) -> TokenStream {
    TokenStream::new()
}
