//! Stands for the macros of the crate `modular-bitfield`: `#[bitfield]` on a struct of one byte with named fields, which gains `from_bytes` and
//! a getter for each field, and `#[derive(Specifier)]` on an enum without data. Left out: every option, setters, wider structs, error messages.

use proc_macro::{Delimiter, TokenStream, TokenTree};

/// The item's name, the tokens before its keyword (attributes and visibility), and what its braces hold.
fn take_apart(item: TokenStream, keyword: &str) -> (String, String, Vec<TokenTree>) {
    let tokens: Vec<TokenTree> = item.into_iter().collect();
    let at = tokens.iter().position(|t| t.to_string() == keyword).expect("the keyword of the item");
    let before: TokenStream = tokens[..at].iter().cloned().collect();
    let body = match tokens.last() {
        Some(TokenTree::Group(g)) if g.delimiter() == Delimiter::Brace => g.stream(),
        _ => panic!("{keyword} with braces expected"),
    };
    (tokens[at + 1].to_string(), before.to_string(), body.into_iter().collect())
}

/// The parts between commas, as words.
fn parts(body: &[TokenTree]) -> Vec<Vec<String>> {
    body.split(|t| t.to_string() == ",")
        .filter(|part| !part.is_empty())
        .map(|part| part.iter().map(TokenTree::to_string).collect())
        .collect()
}

/// As many bits as the variants need; the variants stand for 0, 1, .. in their order.
#[proc_macro_derive(Specifier)]
pub fn specifier(item: TokenStream) -> TokenStream {
    let (name, _, body) = take_apart(item, "enum");
    let variants = parts(&body);
    let bits = variants.len().next_power_of_two().trailing_zeros();
    let arms: String = variants.iter().enumerate().map(|(number, variant)| format!("{number} => Self::{},", variant[0])).collect();
    format!(
        "impl ::modular_bitfield::Specifier for {name} {{
            const BITS: u32 = {bits};
            type InOut = Self;
            fn from_bits(bits: u8) -> Self {{
                match bits {{ {arms} _ => panic!(\"no variant of {name}\") }}
            }}
        }}"
    )
    .parse()
    .expect("an impl")
}

/// A getter for a field that lies above the fields whose bits are added up in `below`.
fn getter(field: &str, kind: &str, below: &str) -> String {
    let specifier = format!("<{kind} as ::modular_bitfield::Specifier>");
    format!(
        "fn {field}(&self) -> {specifier}::InOut {{
            {specifier}::from_bits((self.byte >> ({below})) & (0xFF >> (8 - {specifier}::BITS)))
        }}"
    )
}

#[proc_macro_attribute]
pub fn bitfield(_options: TokenStream, item: TokenStream) -> TokenStream {
    let (name, before, body) = take_apart(item, "struct");
    let mut below = String::from("0");
    let mut getters = String::new();
    for part in parts(&body) {
        // A field without visibility: name, colon, type.
        let [field, _, kind] = &part[..] else { panic!("{name}: a field that is not `name: Type`") };
        getters += &getter(field, kind, &below);
        below += &format!(" + <{kind} as ::modular_bitfield::Specifier>::BITS");
    }
    format!(
        "{before} struct {name} {{ byte: u8 }}
        const _: () = assert!({below} == 8, \"a bit field of one byte\");
        impl {name} {{
            pub fn from_bytes(bytes: [u8; 1]) -> Self {{ Self {{ byte: bytes[0] }} }}
            {getters}
        }}"
    )
    .parse()
    .expect("a struct and an impl")
}
