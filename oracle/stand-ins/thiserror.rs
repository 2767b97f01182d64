//! Stands in for the crate `thiserror`, for an enum of bare variants: `Display` writes the sentence of each
//! variant's `#[error("..")]`, and `std::error::Error` is derived.

use proc_macro::{TokenStream, TokenTree};

#[proc_macro_derive(Error, attributes(error))]
pub fn derive_error(item: TokenStream) -> TokenStream {
    let mut tokens = item.into_iter();
    tokens.find(|token| token.to_string() == "enum");
    let name = tokens.next().expect("an enum has a name");
    let Some(TokenTree::Group(variants)) = tokens.next() else {
        panic!("{name} has no variants");
    };
    let arms = arms(variants.stream());
    let derived = format!(
        "impl ::std::fmt::Display for {name} {{
            fn fmt(&self, f: &mut ::std::fmt::Formatter<'_>) -> ::std::fmt::Result {{
                f.write_str(match self {{ {arms} }})
            }}
        }}
        impl ::std::error::Error for {name} {{}}"
    );
    derived.parse().expect("it is Rust")
}

/// An arm for each variant, with the sentence that stands last before it.
fn arms(variants: TokenStream) -> String {
    let mut arms = String::new();
    let mut sentence = None;
    for token in variants {
        match token {
            TokenTree::Group(attribute) => sentence = sentence_of(attribute.stream()).or(sentence),
            TokenTree::Ident(variant) => {
                let sentence = sentence.take().expect("a variant has its sentence");
                arms += &format!("Self::{variant} => {sentence},");
            }
            _ => {}
        }
    }
    arms
}

/// Of `error("..")`; a comment is an attribute too, and has none.
fn sentence_of(attribute: TokenStream) -> Option<String> {
    let mut tokens = attribute.into_iter();
    let is_error = tokens.next()?.to_string() == "error";
    match tokens.next()? {
        TokenTree::Group(words) if is_error => Some(words.stream().to_string()),
        _ => None,
    }
}
