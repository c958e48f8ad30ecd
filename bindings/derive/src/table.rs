//! The table of a derive macro's input, whose ranges select the user's own tokens.
// A derive may not need all of it.
#![allow(dead_code)]

#[cfg(test)]
mod layouts;

use core::fmt::Display;

use proc_macro2::TokenStream;
use quote::quote;
use syn_tokens::compiler::layout::{Entry, Message, Outcome};
use syn_tokens::compiler::{Buffer, Error, Trees};
use syn_tokens::Span;

use crate::parameters;

/// A range of tokens, with the layout of `Range` in `crates/example_fields`.
#[repr(C)]
#[derive(Clone, Copy, Debug, PartialEq, Eq)]
struct Range {
    start: usize,
    end: usize,
}

/// A row, with the layout of `Row` in `crates/example_fields`, which describes each field.
#[repr(C)]
#[derive(Clone, Copy, Debug, PartialEq, Eq)]
struct Row {
    kind: usize,
    form: usize,
    attributes: usize,
    name: Range,
    visibility: Range,
    value: Range,
}

extern "C" {
    fn example_fields_parse(
        entries: *const Entry,
        count: usize,
        texts: *const u8,
        size: usize,
        values: *mut Row,
        values_room: usize,
        messages: *mut Message,
        messages_room: usize,
        bytes: *mut u8,
        bytes_room: usize,
        outcome: *mut Outcome,
    );
}

/// The kind of a part of the input.
#[derive(Clone, Copy, Debug, PartialEq, Eq)]
pub enum Kind {
    Struct,
    Enum,
    Union,
    Clause,
    Variant,
    Field,
    Attribute,
}

/// The parts of a derive macro's input, in order: the item, its `where` clause, its variants and
/// its fields.
pub struct Table {
    buffer: Buffer,
    trees: Trees,
    rows: Vec<Row>,
}

/// An item, a `where` clause, a variant, a field or an attribute.
#[derive(Clone, Copy)]
pub struct Part<'t> {
    table: &'t Table,
    row: Row,
    attributes: &'t [Row],
}

impl Table {
    /// Parses the input of a derive macro, and returns its table.
    pub fn read(tokens: TokenStream) -> Result<Table, Error> {
        let (trees, buffer) = (Trees::from(tokens.clone()), Buffer::from(tokens));
        // SAFETY: The export returns what `entry_outcomes::write` does, by its contract. `Row` is
        // laid out as its values, and any bytes are one.
        let rows = unsafe { buffer.call::<Row>(example_fields_parse) }?.values;
        Ok(Table { buffer, trees, rows })
    }

    /// Returns all parts except the attributes, which are inside other parts.
    pub fn parts(&self) -> impl Iterator<Item = Part<'_>> {
        let mut rows = self.rows.iter();
        core::iter::from_fn(move || {
            let row = *rows.next()?;
            let (attributes, rest) = rows.as_slice().split_at(row.attributes.min(rows.len()));
            rows = rest.iter();
            Some(Part { table: self, row, attributes })
        })
    }

    /// Returns `impl<..> Name<..> where ..`, the beginning of an `impl` of the item.
    pub fn head(&self) -> TokenStream {
        let of = |kind| self.parts().find(|it| kind == (it.kind() == Kind::Clause));
        let (item, clause) = (of(false), of(true).map(|it| it.value()));
        let name = item.map(|it| it.name());
        let (params, arguments) = parameters::split(item.map(|it| it.value()).unwrap_or_default());
        quote!(impl<#params> #name<#arguments> where #clause)
    }

    fn tokens(&self, range: Range) -> TokenStream {
        self.trees.part(Span { start: range.start, end: range.end })
    }
}

impl<'t> Part<'t> {
    pub fn kind(&self) -> Kind {
        match self.row.kind {
            0 => Kind::Struct,
            1 => Kind::Enum,
            2 => Kind::Union,
            3 => Kind::Clause,
            4 => Kind::Variant,
            5 => Kind::Field,
            _ => Kind::Attribute,
        }
    }

    /// Returns the form of an item or a variant: 0 without fields, 1 with fields in parentheses, or
    /// 2 with fields in braces. The form of an attribute is 0 for a path alone, 1 for tokens in
    /// delimiters, or 2 for a value after `=`.
    pub fn form(&self) -> usize {
        self.row.form
    }

    /// Returns `true` if the part has a name. A field in parentheses has no name.
    pub fn is_named(&self) -> bool {
        self.row.name.start < self.row.name.end
    }

    /// Returns the name, or the path of an attribute.
    pub fn name(&self) -> TokenStream {
        self.table.tokens(self.row.name)
    }

    /// Returns the text of the name. The text of a path contains `::` only between its segments.
    pub fn text(&self) -> String {
        let words =
            (self.row.name.start..self.row.name.end).map(|it| self.table.buffer.leaf(it).text);
        words.filter(|it| !it.is_empty()).collect::<Vec<_>>().join("::")
    }

    /// Returns the visibility.
    pub fn visibility(&self) -> TokenStream {
        self.table.tokens(self.row.visibility)
    }

    /// Returns the type of a field, the discriminant of a variant, the parameters of an item, the
    /// predicates of a `where` clause, or the tokens or the value of an attribute.
    pub fn value(&self) -> TokenStream {
        self.table.tokens(self.row.value)
    }

    /// Returns the attributes, except the attributes that the compiler has already processed.
    pub fn attributes(&self) -> impl Iterator<Item = Part<'t>> {
        let table = self.table;
        self.attributes.iter().map(move |&row| Part { table, row, attributes: &[] })
    }

    /// Creates an error at the name of the part, or at the value if the part has no name.
    pub fn error(&self, text: impl Display) -> Error {
        let range = if self.is_named() { self.row.name } else { self.row.value };
        self.table.buffer.error(Span { start: range.start, end: range.end }, text)
    }
}
