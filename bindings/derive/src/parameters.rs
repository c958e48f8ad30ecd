//! Splits the generic parameters of an item.
use proc_macro2::{Delimiter, TokenStream, TokenTree};

/// The place of the next token tree within a generic parameter.
#[derive(PartialEq, Eq)]
enum Place {
    Name,
    Bounds,
    Default,
}

/// Splits the generic parameters of an item. Returns the parameters that an `impl` declares, which
/// have no defaults, and the names of the parameters, which are the arguments of the item.
pub fn split(params: TokenStream) -> (TokenStream, TokenStream) {
    let (mut declared, mut named) = (Vec::new(), Vec::new());
    let (mut place, mut depth, mut is_after_minus) = (Place::Name, 0_usize, false);
    for tree in params {
        let ch = match &tree {
            TokenTree::Punct(it) => it.as_char(),
            _ => ' ',
        };
        match ch {
            '<' => depth += 1,
            // The sign of an arrow closes nothing.
            '>' if !is_after_minus => depth = depth.saturating_sub(1),
            ',' if depth == 0 => place = Place::Name,
            '=' if depth == 0 => place = Place::Default,
            _ => {}
        }
        is_after_minus = ch == '-';
        if ch == ',' && depth == 0 {
            named.push(tree.clone());
            declared.push(tree);
        } else if place == Place::Bounds {
            declared.push(tree);
        } else if place == Place::Name && !is_attribute(&tree) {
            let is_word = matches!(&tree, TokenTree::Ident(it) if it == "const");
            if !is_word {
                named.push(tree.clone());
            }
            // A lifetime is an apostrophe and a name.
            if !is_word && ch != '\'' {
                place = Place::Bounds;
            }
            declared.push(tree);
        }
    }
    (declared.into_iter().collect(), named.into_iter().collect())
}

fn is_attribute(tree: &TokenTree) -> bool {
    match tree {
        TokenTree::Punct(it) => it.as_char() == '#',
        TokenTree::Group(it) => it.delimiter() == Delimiter::Bracket,
        _ => false,
    }
}
