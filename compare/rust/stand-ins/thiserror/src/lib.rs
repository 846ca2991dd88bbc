//! Stands in for thiserror: of the derive only what the Rust leans on, `From` for a field marked
//! `#[from]`. The messages are left out.
use proc_macro::{Delimiter, TokenStream, TokenTree};

#[proc_macro_derive(Error, attributes(error, from))]
pub fn derive_error(input: TokenStream) -> TokenStream {
    let tokens: Vec<TokenTree> = input.into_iter().collect();
    let name = tokens
        .windows(2)
        .find(|pair| pair[0].to_string() == "enum")
        .map(|pair| pair[1].to_string())
        .expect("an enum");
    let body = match tokens.last() {
        Some(TokenTree::Group(body)) => body,
        _ => panic!("an enum with a body"),
    };
    let mut made = String::new();
    let mut variant = String::new();
    for token in body.stream() {
        match token {
            TokenTree::Ident(ident) => variant = ident.to_string(),
            TokenTree::Group(fields) if fields.delimiter() == Delimiter::Parenthesis => {
                if let Some(from) = fields.stream().to_string().strip_prefix("#[from]") {
                    made += &format!(
                        "impl From<{from}> for {name} {{ fn from(e: {from}) -> Self {{ {name}::{variant}(e) }} }}"
                    );
                }
            }
            _ => {}
        }
    }
    made.parse().expect("an impl")
}
