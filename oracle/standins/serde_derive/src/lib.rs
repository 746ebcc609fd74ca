//! Stand-in derives: the impl is there, and calling it panics. Nothing of the oracle calls it.
use proc_macro::{TokenStream, TokenTree};

/// The name of a struct or enum, and its generics such as `'a` or `D`.
fn name_and_generics(item: TokenStream) -> (String, Vec<String>) {
    let mut tokens = item.into_iter().peekable();
    while let Some(token) = tokens.next() {
        let TokenTree::Ident(word) = &token else { continue };
        if !["struct", "enum"].contains(&word.to_string().as_str()) {
            continue;
        }
        let name = tokens.next().expect("a name").to_string();
        let mut generics = Vec::new();
        if matches!(tokens.peek(), Some(TokenTree::Punct(p)) if p.as_char() == '<') {
            tokens.next();
            let mut one = String::new();
            for token in tokens.by_ref() {
                match &token {
                    TokenTree::Punct(p) if p.as_char() == '>' => break,
                    TokenTree::Punct(p) if p.as_char() == ',' => generics.push(std::mem::take(&mut one)),
                    other => one.push_str(&other.to_string()),
                }
            }
            if !one.is_empty() {
                generics.push(one);
            }
        }
        return (name, generics);
    }
    panic!("neither a struct nor an enum");
}

#[proc_macro_derive(Serialize, attributes(serde))]
pub fn serialize(item: TokenStream) -> TokenStream {
    let (name, generics) = name_and_generics(item);
    let list = generics.join(",");
    format!(
        "impl<{list}> ::serde::Serialize for {name}<{list}> {{ fn serialize<S__: ::serde::Serializer>(&self, _s: S__) \
         -> ::std::result::Result<S__::Ok, S__::Error> {{ unimplemented!() }} }}"
    )
    .parse()
    .unwrap()
}

#[proc_macro_derive(Deserialize, attributes(serde))]
pub fn deserialize(item: TokenStream) -> TokenStream {
    let (name, generics) = name_and_generics(item);
    let list = generics.join(",");
    let comma = if list.is_empty() { "" } else { "," };
    format!(
        "impl<'de{comma}{list}> ::serde::Deserialize<'de> for {name}<{list}> {{ fn deserialize<D__: ::serde::Deserializer<'de>>(_d: D__) \
         -> ::std::result::Result<Self, D__::Error> {{ unimplemented!() }} }}"
    )
    .parse()
    .unwrap()
}
