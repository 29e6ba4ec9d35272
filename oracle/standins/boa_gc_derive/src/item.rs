//! Reads the declaration of a struct or enum from its tokens.

use std::iter::Peekable;

use proc_macro::{Delimiter, TokenStream, TokenTree, token_stream};

pub struct Item {
    pub name: String,
    pub generics: Generics,
    pub body: Body,
}

/// The text between `<` and `>`, empty for a type without parameters.
#[derive(Default)]
pub struct Generics {
    /// With their bounds, as the declaration has them.
    pub parameters: String,
    /// Only their names.
    pub arguments: String,
}

pub enum Body {
    Fields(Vec<Field>),
    Variants(Vec<String>),
    Other,
}

pub struct Field {
    pub name: String,
    /// Is it marked `#[unsafe_ignore_trace]`?
    pub ignored: bool,
}

type Tokens = Peekable<token_stream::IntoIter>;

impl Item {
    pub fn parse(input: TokenStream) -> Self {
        let mut tokens = input.into_iter().peekable();
        skip_attributes(&mut tokens);
        skip_visibility(&mut tokens);
        let is_enum = word(&mut tokens) == "enum";
        let name = word(&mut tokens);
        let generics = generics(&mut tokens);
        let body = match tokens.next() {
            Some(TokenTree::Group(group)) if group.delimiter() == Delimiter::Brace => {
                let parts = split_at_commas(group.stream());
                if is_enum {
                    Body::Variants(parts.into_iter().map(|part| field(part).name).collect())
                } else {
                    Body::Fields(parts.into_iter().map(field).collect())
                }
            }
            _ => Body::Other,
        };
        Self {
            name,
            generics,
            body,
        }
    }
}

/// A field or a variant: both are attributes, visibility, then a name.
fn field(part: TokenStream) -> Field {
    let mut tokens = part.into_iter().peekable();
    let ignored = skip_attributes(&mut tokens);
    skip_visibility(&mut tokens);
    Field {
        name: word(&mut tokens),
        ignored,
    }
}

/// Answers whether `#[unsafe_ignore_trace]` was among them.
fn skip_attributes(tokens: &mut Tokens) -> bool {
    let mut ignored = false;
    while is_punctuation(tokens.peek(), '#') {
        tokens.next();
        if let Some(TokenTree::Group(attribute)) = tokens.next() {
            ignored |= attribute.stream().to_string() == "unsafe_ignore_trace";
        }
    }
    ignored
}

fn skip_visibility(tokens: &mut Tokens) {
    // `macro_rules!` hands a visibility on as one group without delimiters.
    if matches!(tokens.peek(), Some(TokenTree::Group(group)) if group.delimiter() == Delimiter::None)
    {
        tokens.next();
    }
    if matches!(tokens.peek(), Some(TokenTree::Ident(name)) if name.to_string() == "pub") {
        tokens.next();
        // `pub(crate)` and its like
        if matches!(tokens.peek(), Some(TokenTree::Group(_))) {
            tokens.next();
        }
    }
}

fn word(tokens: &mut Tokens) -> String {
    match tokens.next() {
        Some(TokenTree::Ident(name)) => name.to_string(),
        other => panic!("a name should stand here, not {other:?}"),
    }
}

fn generics(tokens: &mut Tokens) -> Generics {
    if !is_punctuation(tokens.peek(), '<') {
        return Generics::default();
    }
    tokens.next();
    let mut depth = 1;
    let inside: TokenStream = tokens
        .take_while(|token| {
            depth += nesting(token);
            depth > 0
        })
        .collect();
    let names: Vec<String> = split_at_commas(inside.clone())
        .into_iter()
        .map(|parameter| word(&mut parameter.into_iter().peekable()))
        .collect();
    Generics {
        parameters: inside.to_string(),
        arguments: names.join(", "),
    }
}

/// Commas inside `<` and `>` do not split: those are no groups of tokens.
fn split_at_commas(stream: TokenStream) -> Vec<TokenStream> {
    let mut parts = vec![Vec::new()];
    let mut depth = 0;
    for token in stream {
        depth += nesting(&token);
        if depth == 0 && is_punctuation(Some(&token), ',') {
            parts.push(Vec::new());
        } else {
            parts.last_mut().expect("never empty").push(token);
        }
    }
    // A comma after the last part leaves an empty one.
    parts.retain(|part| !part.is_empty());
    parts.into_iter().map(TokenStream::from_iter).collect()
}

fn nesting(token: &TokenTree) -> i32 {
    i32::from(is_punctuation(Some(token), '<')) - i32::from(is_punctuation(Some(token), '>'))
}

fn is_punctuation(token: Option<&TokenTree>, wanted: char) -> bool {
    matches!(token, Some(TokenTree::Punct(mark)) if mark.as_char() == wanted)
}
