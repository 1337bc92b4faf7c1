//! `#[derive(bytemuck::Pod, bytemuck::Zeroable)]` for a struct without parameters.

use proc_macro::{TokenStream, TokenTree};

#[proc_macro_derive(Pod)]
pub fn pod(item: TokenStream) -> TokenStream {
    implemented("Pod", item)
}

#[proc_macro_derive(Zeroable)]
pub fn zeroable(item: TokenStream) -> TokenStream {
    implemented("Zeroable", item)
}

fn implemented(name: &str, item: TokenStream) -> TokenStream {
    let mut words = item.into_iter().skip_while(|word| !is_struct(word));
    let of = words.nth(1).expect("a struct has a name");
    format!("unsafe impl ::bytemuck::{name} for {of} {{}}").parse().expect("this is an impl")
}

fn is_struct(word: &TokenTree) -> bool {
    matches!(word, TokenTree::Ident(ident) if ident.to_string() == "struct")
}
