//! Finds a compiler's own trees by the numbers of their visible tokens.
use ::proc_macro2::{Delimiter, TokenStream, TokenTree};
use alloc::vec::Vec;
use core::mem;

use crate::buffer::Span;

/// The token trees of a stream, which are found by the numbers that a [`Buffer`] of the stream
/// gives to its tokens.
///
/// A macro can take the trees that it passes on from here. They are the compiler's own trees, so
/// they keep their spans, and `$crate` stays unchanged.
///
/// ```
/// use syn_tokens::compiler::Trees;
/// use syn_tokens::Span;
///
/// let tokens: proc_macro2::TokenStream = "a: (b, c), d".parse().unwrap();
/// let trees = Trees::from(tokens);
/// assert_eq!(trees.part(Span { start: 2, end: 7 }).to_string(), "(b , c)");
/// ```
///
/// [`Buffer`]: crate::compiler::Buffer
#[derive(Clone, Debug, Default)]
pub struct Trees {
    trees: Vec<Numbered>,
}

/// A tree, which is stored before the trees inside it.
#[derive(Clone, Debug)]
struct Numbered {
    tree: TokenTree,
    // The number of its first visible token, and that after its last.
    start: usize,
    end: usize,
    // The place after the trees inside it.
    after: usize,
}

impl Trees {
    /// Returns the trees of a range of tokens.
    ///
    /// An invisible group is kept if the whole group is in the range. Otherwise, the call looks for
    /// trees inside the group. A visible group is kept if both its delimiters are in the range.
    /// Otherwise, the call returns only those trees of the group that are in the range.
    #[must_use]
    pub fn part(&self, span: Span) -> TokenStream {
        let mut place = self.trees.partition_point(|it| it.start < span.start);
        let mut part = Vec::new();
        while let Some(it) = self.trees.get(place) {
            if it.start >= span.end {
                break;
            }
            if it.end <= span.end {
                // An empty invisible group is in no range.
                if it.start < it.end {
                    part.push(it.tree.clone());
                }
                place = it.after;
            } else {
                place += 1;
            }
        }
        part.into_iter().collect()
    }
}

impl From<TokenStream> for Trees {
    /// Numbers the trees of a stream. The call keeps the streams around a group on a stack of its
    /// own.
    fn from(stream: TokenStream) -> Self {
        let mut all: Vec<Numbered> = Vec::new();
        let mut outer = Vec::new();
        let mut trees = stream.into_iter();
        let mut number = 0;
        loop {
            match trees.next() {
                Some(tree) => {
                    let (start, place) = (number, all.len());
                    let mut edge = 1;
                    if let TokenTree::Group(group) = &tree {
                        if group.delimiter() == Delimiter::None {
                            edge = 0;
                        }
                        let after = mem::replace(&mut trees, group.stream().into_iter());
                        outer.push((after, place, edge));
                    }
                    number += edge;
                    all.push(Numbered { tree, start, end: number, after: place + 1 });
                }
                None => match outer.pop() {
                    Some((after, place, edge)) => {
                        number += edge;
                        let end = all.len();
                        if let Some(group) = all.get_mut(place) {
                            group.end = number;
                            group.after = end;
                        }
                        trees = after;
                    }
                    None => return Trees { trees: all },
                },
            }
        }
    }
}
