//! The derive of `save_state`: a struct's named fields in their order; of an enum the variant's number in a byte, then its named fields.
extern crate proc_macro;
use proc_macro::{Delimiter, Spacing, TokenStream, TokenTree};

// A field's name is what a single colon follows.
fn fields(body: TokenStream) -> Vec<String> {
    let tokens: Vec<TokenTree> = body.into_iter().collect();
    let named = |pair: &[TokenTree]| match pair {
        [TokenTree::Ident(name), TokenTree::Punct(p)] if p.as_char() == ':' && p.spacing() == Spacing::Alone => {
            Some(name.to_string())
        }
        _ => None,
    };
    tokens.windows(2).filter_map(named).collect()
}

fn of_struct(body: TokenStream) -> (String, String) {
    let each = |what: &str, lent: &str| -> String {
        let line = |f: &String| format!("::save_state::Savable::{}({} self.{}, io)?;", what, lent, f);
        fields(body.clone()).iter().map(line).collect()
    };
    (each("save", "&"), each("load", "&mut"))
}

fn of_enum(name: &str, body: TokenStream) -> (String, String) {
    let tokens: Vec<TokenTree> = body.into_iter().collect();
    let (mut save, mut load) = (String::new(), String::new());
    let mut number = 0u8;
    for (i, token) in tokens.iter().enumerate() {
        let variant = match token {
            TokenTree::Ident(variant) => variant,
            _ => continue,
        };
        let inside = match tokens.get(i + 1) {
            Some(TokenTree::Group(group)) => fields(group.stream()),
            _ => Vec::new(),
        };
        let pattern = format!("{}::{} {{ {} }}", name, variant, inside.join(", "));
        let saves: String = inside.iter().map(|f| format!("::save_state::Savable::save({}, io)?;", f)).collect();
        let loads: String = inside
            .iter()
            .map(|f| format!("let mut {} = Default::default(); ::save_state::Savable::load(&mut {}, io)?;", f, f))
            .collect();
        save += &format!("{} => {{ ::save_state::Savable::save(&{}u8, io)?; {} }}", pattern, number, saves);
        load += &format!("{}u8 => {{ {} *self = {}; }}", number, loads, pattern);
        number += 1;
    }
    let load = format!(
        "let mut number = 0u8; ::save_state::Savable::load(&mut number, io)?;
         match number {{ {} _ => return Err(::save_state::no_variant()) }}",
        load
    );
    (format!("match self {{ {} }}", save), load)
}

#[proc_macro_derive(Savable)]
pub fn savable(input: TokenStream) -> TokenStream {
    let tokens: Vec<TokenTree> = input.into_iter().collect();
    let at = tokens.iter().position(|t| matches!(t.to_string().as_str(), "struct" | "enum")).expect("a struct or an enum");
    let name = tokens[at + 1].to_string();
    let body = tokens.iter().find_map(|t| match t {
        TokenTree::Group(group) if group.delimiter() == Delimiter::Brace => Some(group.stream()),
        _ => None,
    });
    let body = body.expect("named fields");
    let (save, load) = if tokens[at].to_string() == "struct" { of_struct(body) } else { of_enum(&name, body) };
    format!(
        "impl ::save_state::Savable for {} {{
            fn save<W: ::std::io::Write>(&self, io: &mut W) -> ::save_state::Result<()> {{ {} Ok(()) }}
            fn load<R: ::std::io::Read>(&mut self, io: &mut R) -> ::save_state::Result<()> {{ {} Ok(()) }}
        }}",
        name, save, load
    )
    .parse()
    .expect("an impl")
}
