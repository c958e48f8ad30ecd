//! Spans of `proc-macro2` for ranges of bytes.
use proc_macro2::{Span, TokenStream};
use syn_tokens as ours;

/// Returns the start and the end of a span, in characters. These numbers count the characters of
/// all texts that were read so far.
pub fn range(span: Span) -> (usize, usize) {
    let shown = format!("{span:?}");
    let mut ends = shown.split(|it: char| !it.is_ascii_digit()).filter_map(|it| it.parse().ok());
    (ends.next().unwrap_or(0), ends.next().unwrap_or(0))
}

/// A span for each byte of a text.
pub struct Spans {
    bytes: Vec<Span>,
    base: usize,
}

impl Spans {
    /// Creates spans for texts of at most this length.
    pub fn new(length: usize) -> Self {
        let text = ".".repeat(length);
        let bytes: Vec<Span> = match text.parse::<TokenStream>() {
            Ok(stream) => stream.into_iter().map(|it| it.span()).collect(),
            Err(_) => Vec::new(),
        };
        let base = bytes.first().map_or(0, |it| range(*it).0);
        Spans { bytes, base }
    }

    /// Returns the span of this range. For an empty range, returns the span of the byte after the
    /// range.
    pub fn get(&self, span: ours::Span) -> Span {
        let last = span.end.max(span.start + 1) - 1;
        let joined = self.bytes[span.start].join(self.bytes[last]);
        joined.unwrap_or_else(Span::call_site)
    }

    /// Returns the text of a span, as a report shows it.
    pub fn show(&self, span: Span) -> String {
        match range(span) {
            (start, end) if start >= self.base => {
                format!("{}..{}", start - self.base, end - self.base)
            }
            _ => "call".to_string(),
        }
    }
}
