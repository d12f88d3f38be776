//! Stands in for the crate `mav_param`: derives that write nothing.

extern crate proc_macro;
use proc_macro::TokenStream;

#[proc_macro_derive(Enum)]
pub fn enumeration(_: TokenStream) -> TokenStream {
    TokenStream::new()
}

#[proc_macro_derive(Tree)]
pub fn tree(_: TokenStream) -> TokenStream {
    TokenStream::new()
}
