//! Stands in for `thiserror`: its derive, of which the modules need only the conversion of a field marked `#[from]`.
use proc_macro::{Delimiter, Group, TokenStream, TokenTree};

#[proc_macro_derive(Error, attributes(error, from))]
pub fn derive(item: TokenStream) -> TokenStream {
    let mut name = String::new();
    let mut out = String::new();
    let mut last = String::new();
    for token in item {
        match &token {
            TokenTree::Ident(ident) => {
                if last == "enum" {
                    name = ident.to_string();
                }
                last = ident.to_string();
            }
            TokenTree::Group(group) if group.delimiter() == Delimiter::Brace => out = conversions(&name, group),
            _ => {}
        }
    }
    out.parse().unwrap()
}

/// An `impl From` for each variant whose one field is marked.
fn conversions(name: &str, body: &Group) -> String {
    let mut out = String::new();
    let mut variant = String::new();
    for token in body.stream() {
        match &token {
            TokenTree::Ident(ident) => variant = ident.to_string(),
            TokenTree::Group(group) if group.delimiter() == Delimiter::Parenthesis => {
                if let Some(held) = marked(group) {
                    out += &format!(
                        "impl ::core::convert::From<{held}> for {name} {{ fn from(e: {held}) -> Self {{ {name}::{variant}(e) }} }}"
                    );
                }
            }
            _ => {}
        }
    }
    out
}

/// The type behind `#[from]`.
fn marked(fields: &Group) -> Option<String> {
    let mut tokens = fields.stream().into_iter();
    match (tokens.next(), tokens.next()) {
        (Some(TokenTree::Punct(hash)), Some(TokenTree::Group(mark))) if hash.as_char() == '#' && mark.stream().to_string() == "from" => {
            Some(tokens.collect::<TokenStream>().to_string())
        }
        _ => None,
    }
}
