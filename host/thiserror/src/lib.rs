//! Stands in for the derive macro `thiserror::Error`: `Error`, a `Display` that prints what
//! `Debug` prints, and `From` for each variant whose one field is marked `#[from]`.

use proc_macro::{Delimiter, Group, TokenStream, TokenTree};

#[proc_macro_derive(Error, attributes(error, from))]
pub fn derive_error(input: TokenStream) -> TokenStream {
    let (name, body) = enum_parts(input);
    let mut code = format!(
        "impl ::std::error::Error for {name} {{}}
         impl ::std::fmt::Display for {name} {{
             fn fmt(&self, f: &mut ::std::fmt::Formatter<'_>) -> ::std::fmt::Result {{
                 ::std::fmt::Debug::fmt(self, f)
             }}
         }}"
    );
    for (variant, source) in from_variants(body) {
        code += &format!(
            "impl ::std::convert::From<{source}> for {name} {{
                 fn from(source: {source}) -> Self {{ {name}::{variant}(source) }}
             }}"
        );
    }
    code.parse().expect("the derived code is Rust")
}

/// The name of the enum and its variants.
fn enum_parts(input: TokenStream) -> (String, TokenStream) {
    let mut tokens = input.into_iter().skip_while(|token| token.to_string() != "enum").skip(1);
    let (Some(name), Some(TokenTree::Group(body))) = (tokens.next(), tokens.next()) else {
        panic!("only an enum with a name and a body is served");
    };
    (name.to_string(), body.stream())
}

/// The name and the field's type of each variant marked `#[from]`.
fn from_variants(body: TokenStream) -> Vec<(String, String)> {
    let mut found = Vec::new();
    let mut last = String::new();
    for token in body {
        if let TokenTree::Group(group) = &token
            && let Some(source) = from_type(group)
        {
            found.push((last.clone(), source));
        }
        last = token.to_string();
    }
    found
}

/// The type behind `#[from]` in a variant's parentheses.
fn from_type(group: &Group) -> Option<String> {
    let mut tokens = group.stream().into_iter();
    let marked = group.delimiter() == Delimiter::Parenthesis
        && tokens.next()?.to_string() == "#"
        && tokens.next()?.to_string() == "[from]";
    marked.then(|| tokens.collect::<TokenStream>().to_string())
}
