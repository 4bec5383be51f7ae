//! Stand-in for thiserror: `#[derive(Error)]` writes `Display` by the `#[error(..)]` attributes, for what parser/errors.rs has: a struct
//! with one attribute, and an enum with one for each variant.

extern crate proc_macro;

use proc_macro::{Delimiter, Group, TokenStream, TokenTree};

#[proc_macro_derive(Error, attributes(error))]
pub fn derive_error(input: TokenStream) -> TokenStream {
    let mut format = String::new();
    let mut tokens = input.into_iter();
    while let Some(token) = tokens.next() {
        match token {
            TokenTree::Group(group) => read_format(&group, &mut format),
            TokenTree::Ident(word) if word.to_string() == "struct" || word.to_string() == "enum" => {
                let name = tokens.next().expect("a name").to_string();
                let body = match tokens.next() {
                    Some(TokenTree::Group(group)) => group.stream(),
                    other => panic!("no body: {other:?}"),
                };
                let arms = if word.to_string() == "enum" { arms(&name, body) } else { format!("_ => write!(f, {format}),") };
                return display(&name, &arms);
            }
            _ => {}
        }
    }
    panic!("neither a struct nor an enum")
}

/// Keeps what stands in the parentheses of `[error(..)]`.
fn read_format(attribute: &Group, format: &mut String) {
    let mut tokens = attribute.stream().into_iter();
    let is_error = tokens.next().is_some_and(|token| token.to_string() == "error");
    if let (true, Some(TokenTree::Group(arguments))) = (is_error, tokens.next()) {
        *format = arguments.stream().to_string();
    }
}

fn arms(name: &str, body: TokenStream) -> String {
    let mut arms = String::new();
    let mut format = String::new();
    let mut tokens = body.into_iter().peekable();
    while let Some(token) = tokens.next() {
        match token {
            TokenTree::Group(group) => read_format(&group, &mut format),
            TokenTree::Ident(variant) => {
                let (fields, argument) = match tokens.peek() {
                    Some(TokenTree::Group(group)) if group.delimiter() == Delimiter::Brace => {
                        let field = group.stream().into_iter().next().expect("a field");
                        (format!("{{ {field} }}"), "")
                    }
                    Some(TokenTree::Group(_)) => ("(a)".to_string(), if format.contains("{0}") { ", a" } else { "" }),
                    _ => (String::new(), ""),
                };
                arms.push_str(&format!("{name}::{variant}{fields} => write!(f, {format}{argument}),\n"));
                if !fields.is_empty() {
                    tokens.next();
                }
            }
            _ => {}
        }
    }
    arms
}

fn display(name: &str, arms: &str) -> TokenStream {
    let text = format!(
        "#[allow(unused_variables)]
        impl std::fmt::Display for {name} {{
            fn fmt(&self, f: &mut std::fmt::Formatter<'_>) -> std::fmt::Result {{
                match self {{ {arms} }}
            }}
        }}
        impl std::error::Error for {name} {{}}"
    );
    text.parse().expect("the implementation of Display")
}
