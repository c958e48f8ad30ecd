//! Tests that the table of an item is the same, whatever trees an invisible group is around.
use proc_macro2::{Delimiter, Group, TokenStream, TokenTree};

use super::{Row, Table};

const ITEMS: [&str; 8] = [
    "struct S;",
    "pub(crate) struct S(pub u8, pub(in a::b) Vec<u8>,) where u8: Copy;",
    "struct S<'a, T: Clone + 'a = u8, const N: usize = 3> where T: Fn(u8) -> u8 {
        #[field(name = \"x\")] pub x: &'a [T; N], y: <T as A<B, C>>::D }",
    "#[a::b = \"c\"] #[d] enum E { A, #[b{c}] B(u8, #[d[e]] u8) = 1 + 2, C { x: u8, }, }",
    "union U<T> { a: T, b: [f32; 2] }",
    "struct S { a: u8 b: u8 }",
    "struct S(u8, fn);",
    "enum E { A = , B }",
];

/// Returns the stream with an invisible group around each run of trees, at any depth.
fn layouts(stream: &TokenStream) -> Vec<TokenStream> {
    let trees: Vec<TokenTree> = stream.clone().into_iter().collect();
    let mut all = Vec::new();
    for start in 0..trees.len() {
        for end in start + 1..=trees.len() {
            let inside = trees[start..end].iter().cloned().collect();
            let group = Group::new(Delimiter::None, inside).into();
            all.push(with(&trees, start, end, group));
        }
        if let TokenTree::Group(outer) = &trees[start] {
            for inside in layouts(&outer.stream()) {
                let group = Group::new(outer.delimiter(), inside).into();
                all.push(with(&trees, start, start + 1, group));
            }
        }
    }
    all
}

fn with(trees: &[TokenTree], start: usize, end: usize, tree: TokenTree) -> TokenStream {
    let before = trees[..start].iter().cloned().chain([tree]);
    before.chain(trees[end..].iter().cloned()).collect()
}

fn read(tokens: TokenStream) -> Result<Vec<Row>, String> {
    Table::read(tokens).map(|it| it.rows).map_err(|it| it.to_string())
}

#[test]
fn table_is_the_same_in_each_layout() {
    for item in ITEMS {
        let tokens: TokenStream = item.parse().expect("proc_macro2 reads it");
        let wanted = read(tokens.clone());
        let all = layouts(&tokens);
        assert!(all.len() > 5, "{item}");
        for layout in all {
            assert_eq!(read(layout.clone()), wanted, "{layout}");
        }
    }
}
