//! The derive macros of the stand-ins `thiserror`, `zeroize` and `serde`: only what felica-rs uses.

use proc_macro::{Delimiter, TokenStream, TokenTree};

/// Nothing: no answer depends on what memory holds after its use.
#[proc_macro_derive(Zeroize, attributes(zeroize))]
pub fn zeroize(_item: TokenStream) -> TokenStream {
    TokenStream::new()
}

/// Nothing: no answer depends on what memory holds after its use.
#[proc_macro_derive(ZeroizeOnDrop, attributes(zeroize))]
pub fn zeroize_on_drop(_item: TokenStream) -> TokenStream {
    TokenStream::new()
}

/// Nothing: the stand-in reads no JSON.
#[proc_macro_derive(Deserialize, attributes(serde))]
pub fn deserialize(_item: TokenStream) -> TokenStream {
    TokenStream::new()
}

/// For each case `Name(#[from] Type)` of an enum, the conversion from that type. The texts are left out:
/// the driver reads the cases themselves.
#[proc_macro_derive(Error, attributes(error, from))]
pub fn error(item: TokenStream) -> TokenStream {
    let tokens: Vec<TokenTree> = item.into_iter().collect();
    let is_enum =
        |token: &TokenTree| matches!(token, TokenTree::Ident(i) if i.to_string() == "enum");
    let at = tokens.iter().position(is_enum).expect("an enum");
    let name = tokens[at + 1].to_string();
    let Some(TokenTree::Group(body)) = tokens.last() else {
        panic!("an enum without a body")
    };
    let cases: Vec<TokenTree> = body.stream().into_iter().collect();
    let mut made = String::new();
    for pair in cases.windows(2) {
        let (TokenTree::Ident(case), TokenTree::Group(fields)) = (&pair[0], &pair[1]) else {
            continue;
        };
        if fields.delimiter() != Delimiter::Parenthesis {
            continue;
        }
        let fields: Vec<TokenTree> = fields.stream().into_iter().collect();
        let [TokenTree::Punct(hash), TokenTree::Group(mark), kind @ ..] = fields.as_slice() else {
            continue;
        };
        if hash.as_char() != '#' || mark.stream().to_string() != "from" {
            continue;
        }
        let kind = kind.iter().cloned().collect::<TokenStream>();
        made += &format!(
            "impl From<{kind}> for {name} {{ fn from(e: {kind}) -> Self {{ Self::{case}(e) }} }}\n"
        );
    }
    made.parse().expect("an impl")
}
