//! Stands for `thiserror`: its derive, for a struct without parameters whose message has no fields.

use proc_macro::{Delimiter, TokenStream, TokenTree};

/// Implements `Display`, with the message of `#[error("..")]`, and `Error`.
///
/// # Panics
///
/// At any other item than such a struct.
#[proc_macro_derive(Error, attributes(error))]
pub fn error(item: TokenStream) -> TokenStream {
    let tokens: Vec<TokenTree> = item.into_iter().collect();
    let message = tokens.iter().find_map(message).expect("an attribute error with a message");
    let name = tokens.windows(2).find_map(struct_name).expect("a struct");
    format!(
        "impl ::core::fmt::Display for {name} {{
            fn fmt(&self, f: &mut ::core::fmt::Formatter<'_>) -> ::core::fmt::Result {{
                f.write_str({message})
            }}
        }}
        impl ::core::error::Error for {name} {{}}"
    )
    .parse()
    .expect("two implementations")
}

/// The literal of `[error("..")]`.
fn message(token: &TokenTree) -> Option<String> {
    let TokenTree::Group(attribute) = token else { return None };
    let mut inner = attribute.stream().into_iter();
    match (attribute.delimiter(), inner.next()?, inner.next()?) {
        (Delimiter::Bracket, TokenTree::Ident(name), TokenTree::Group(message)) if name.to_string() == "error" => {
            Some(message.stream().to_string())
        }
        _ => None,
    }
}

/// The name after the word `struct`.
fn struct_name(pair: &[TokenTree]) -> Option<String> {
    match pair {
        [TokenTree::Ident(word), TokenTree::Ident(name)] if word.to_string() == "struct" => Some(name.to_string()),
        _ => None,
    }
}
