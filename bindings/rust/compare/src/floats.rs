//! Compares the values of floats with the values that Rust's own parser returns for their digits.
use syn_tokens::{Buffer, Edition, LiteralValue, Token};

use crate::random::{self, Random};
use crate::tally::Tally;

/// Returns the value that this library assigns to a text that consists of one literal.
fn value(text: &str) -> Option<f64> {
    let buffer = Buffer::lex_source(Edition::Edition2021, text).ok()?;
    let mut tokens = buffer.tokens();
    match (tokens.next(), tokens.next()) {
        (Some(Token::Literal(literal)), None) => match literal.value() {
            Ok(Some(LiteralValue::Float(value))) => Some(value),
            _ => None,
        },
        _ => None,
    }
}

/// Compares the values of `count` random floats.
pub fn run(random: &mut Random, count: usize, tally: &mut Tally) {
    for _ in 0..count {
        let (digits, suffix) = random::float(random);
        let text = format!("{digits}{suffix}");
        let (ours, theirs) = (value(&text), digits.replace('_', "").parse::<f64>().ok());
        let is_equal = ours.map(f64::to_bits) == theirs.map(f64::to_bits);
        let class = if is_equal { "equal" } else { "UNLISTED: another value" };
        tally.count(&format!("floats: {class}"), &text, &format!("{ours:?}\n    {theirs:?}"));
    }
}
