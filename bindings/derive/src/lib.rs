//! A derive macro whose input is parsed by `crates/example_fields`, a parser in Rattle.
mod parameters;
mod table;

use proc_macro2::TokenStream;
use quote::quote;
use syn_tokens::compiler::{Buffer, Error, Value};
use syn_tokens::LiteralValue;
use table::{Kind, Part, Table};

/// Derives a function `fields`, which returns the name, the type and the attributes of each field.
/// `#[field(name = "x")]` gives a field another name, and `#[field(skip)]` leaves it out.
#[proc_macro_derive(Fields, attributes(field))]
pub fn fields(tokens: proc_macro::TokenStream) -> proc_macro::TokenStream {
    match Table::read(tokens.into()).and_then(|table| expanded(&table)) {
        Ok(tokens) => tokens.into(),
        Err(error) => error.to_compile_error().into(),
    }
}

fn expanded(table: &Table) -> Result<TokenStream, Error> {
    let (mut fields, mut before, mut index) = (Vec::new(), String::new(), 0);
    for part in table.parts() {
        if part.kind() == Kind::Variant {
            (before, index) = (part.text() + ".", 0);
        } else if part.kind() == Kind::Field {
            let name = if part.is_named() { part.text() } else { index.to_string() };
            index += 1;
            if let Some(name) = renamed(&part, name)? {
                let (name, ty) = (format!("{before}{name}"), part.value());
                let attributes = part.attributes().map(|it| it.text());
                fields.push(quote!((#name, ::core::any::type_name::<#ty>(), &[#(#attributes),*])));
            }
        }
    }
    let (item, count) = (table.head(), fields.len());
    let field = quote!((&'static str, &'static str, &'static [&'static str]));
    Ok(quote!(#item { pub fn fields() -> [#field; #count] { [#(#fields),*] } }))
}

fn renamed(field: &Part, name: String) -> Result<Option<String>, Error> {
    let mut name = Some(name);
    for attribute in field.attributes().filter(|it| it.text() == "field") {
        if attribute.form() != 1 {
            return Err(attribute.error("expected `field(..)`"));
        }
        let buffer = Buffer::from(attribute.value());
        for argument in &buffer.arguments()? {
            name = match (argument.name.text, argument.value) {
                ("skip", Value::Flag) => None,
                ("name", Value::Literal(literal)) => match literal.value() {
                    Ok(Some(LiteralValue::Str(text))) => Some(text),
                    _ => return Err(buffer.error(literal.span, "expected a string")),
                },
                _ => return Err(buffer.error(argument.name.span, "expected `name` or `skip`")),
            };
        }
    }
    Ok(name)
}
