//! Stand-in for `derive_more::Debug`: the name of the type is all it shows. It knows types with one lifetime only.

use proc_macro::{TokenStream, TokenTree};

#[proc_macro_derive(Debug, attributes(debug))]
pub fn debug(item: TokenStream) -> TokenStream {
    let mut tokens = item.into_iter();
    tokens
        .find(|t| matches!(t, TokenTree::Ident(word) if word.to_string() == "enum"))
        .expect("an enum");
    let name = tokens.next().expect("a name").to_string();
    format!(
        "impl<'a> std::fmt::Debug for {name}<'a> {{
            fn fmt(&self, f: &mut std::fmt::Formatter<'_>) -> std::fmt::Result {{ f.write_str(\"{name}\") }}
        }}"
    )
    .parse()
    .unwrap()
}
