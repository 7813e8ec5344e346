//! Stands for the crate `thiserror`: the derive macro `Error` does what its
//! public documentation says, and only what the carried files use: enums with
//! `#[error("..")]` on each variant, tuple fields named `{0}`, and `#[from]`.

use proc_macro::{Delimiter, TokenStream, TokenTree};

/// One variant of the enum
#[derive(Default)]
struct Variant {
    name: String,
    format: String,
    fields: Vec<Field>,
}

/// One field of a tuple variant
#[derive(Default)]
struct Field {
    from: bool,
    kind: TokenStream,
}

/// Implement `Display`, `Error` and `From`
#[proc_macro_derive(Error, attributes(error, from))]
pub fn derive_error(item: TokenStream) -> TokenStream {
    let (name, body) = enum_parts(item);
    let variants = variants(body);
    let mut code = display(&name, &variants);
    code += &format!("impl ::core::error::Error for {name} {{}}");
    for v in &variants {
        if let [Field { from: true, kind }] = &v.fields[..] {
            code += &format!(
                "impl ::core::convert::From<{kind}> for {name} {{
                    fn from(err: {kind}) -> Self {{ {name}::{}(err) }}
                }}",
                v.name
            );
        }
    }
    code.parse().expect("Error: own code")
}

/// Write the implementation of `Display`
fn display(name: &str, variants: &[Variant]) -> String {
    let mut arms = String::new();
    for v in variants {
        let fields: Vec<_> =
            (0..v.fields.len()).map(|i| format!("f{i}")).collect();
        let fields = fields.join(", ");
        let (pattern, arguments) = if fields.is_empty() {
            (String::new(), String::new())
        } else {
            (format!("({fields})"), format!(", {fields}"))
        };
        arms += &format!(
            "{name}::{}{pattern} => ::core::write!(f, {}{arguments}),",
            v.name, v.format
        );
    }
    format!(
        "impl ::core::fmt::Display for {name} {{
            fn fmt(&self, f: &mut ::core::fmt::Formatter<'_>)
                -> ::core::fmt::Result
            {{
                match self {{ {arms} }}
            }}
        }}"
    )
}

/// Find the enum's name and its body
fn enum_parts(item: TokenStream) -> (String, TokenStream) {
    let mut name = None;
    let mut after_enum = false;
    for token in item {
        match token {
            TokenTree::Ident(ident) if after_enum && name.is_none() => {
                name = Some(ident.to_string());
            }
            TokenTree::Ident(ident) => {
                after_enum = ident.to_string() == "enum";
            }
            TokenTree::Group(g) if g.delimiter() == Delimiter::Brace => {
                return (name.expect("Error: not an enum"), g.stream());
            }
            _ => (),
        }
    }
    panic!("Error: not an enum");
}

/// Read the variants of an enum's body
fn variants(body: TokenStream) -> Vec<Variant> {
    let mut all = Vec::new();
    let mut v = Variant::default();
    for token in body {
        match token {
            TokenTree::Group(g) if g.delimiter() == Delimiter::Bracket => {
                if let Some(format) = error_format(g.stream()) {
                    v.format = format;
                }
            }
            TokenTree::Group(g) => v.fields = fields(g.stream()),
            TokenTree::Ident(ident) => v.name = ident.to_string(),
            TokenTree::Punct(p) if p.as_char() == ',' => {
                all.push(std::mem::take(&mut v));
            }
            _ => (),
        }
    }
    if !v.name.is_empty() {
        all.push(v);
    }
    all
}

/// Get the format string of an attribute `error(..)`
fn error_format(attribute: TokenStream) -> Option<String> {
    let mut tokens = attribute.into_iter();
    match (tokens.next(), tokens.next()) {
        (Some(TokenTree::Ident(ident)), Some(TokenTree::Group(g)))
            if ident.to_string() == "error" =>
        {
            Some(g.stream().to_string())
        }
        _ => None,
    }
}

/// Read the fields of a tuple variant
fn fields(body: TokenStream) -> Vec<Field> {
    let mut all = Vec::new();
    let mut field = Field::default();
    for token in body {
        match &token {
            TokenTree::Punct(p) if p.as_char() == '#' => (),
            TokenTree::Punct(p) if p.as_char() == ',' => {
                all.push(std::mem::take(&mut field));
            }
            TokenTree::Group(g) if g.delimiter() == Delimiter::Bracket => {
                field.from = g.stream().to_string() == "from";
            }
            _ => field.kind.extend([token]),
        }
    }
    if !field.kind.is_empty() {
        all.push(field);
    }
    all
}
