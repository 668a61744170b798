//! Stand-in for the crate of this name: a derive that writes nothing, since no error is printed.

use proc_macro::TokenStream;

#[proc_macro_derive(Error, attributes(error))]
pub fn derive_error(_item: TokenStream) -> TokenStream {
    TokenStream::new()
}
