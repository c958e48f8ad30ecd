//! Runs the same commands with `syn` and with this library, and compares the reports.
use std::cell::Cell;
use std::collections::BTreeSet;

use proc_macro2::{Group, Literal, Punct, Spacing, TokenStream, TokenTree};
use quote::ToTokens;
use syn::ext::IdentExt;
use syn::parse::discouraged::Speculative;
use syn::parse::{Lookahead1, ParseBuffer, ParseStream, Parser};
use syn::punctuated::Punctuated;
use syn::{braced, bracketed, parenthesized, token, Ident, Lifetime, Token};
use syn_tokens::{self as ours, Buffer, Cursor};

use crate::cursors;
use crate::random::{self, Random};
use crate::spans::Spans;
use crate::tally::Tally;

/// A function that parses a token.
type Parse = fn(ParseStream<'_>) -> syn::Result<TokenStream>;

/// The calls of `syn` for a kind of token. `syn` can't peek for some kinds.
struct Calls {
    peeks: [fn(ParseStream<'_>) -> bool; 3],
    look: fn(&Lookahead1<'_>) -> bool,
    parse: Parse,
}

macro_rules! calls {
    ($peeked:expr, $parse:expr) => {
        Calls {
            peeks: [|s| s.peek($peeked), |s| s.peek2($peeked), |s| s.peek3($peeked)],
            look: |l| l.peek($peeked),
            parse: $parse,
        }
    };
}

macro_rules! token_calls {
    ($kind:expr; $($text:literal $token:tt)*) => {
        match $kind {
            $($text => calls!(
                Token![$token],
                |s| Ok(s.parse::<Token![$token]>()?.into_token_stream())
            ),)*
            kind => unreachable!("{kind}"),
        }
    };
}

fn unparsed(s: ParseStream<'_>) -> syn::Result<TokenStream> {
    Err(s.error("not asked for"))
}

fn unpeeked(parse: Parse) -> Calls {
    Calls { peeks: [|_| false; 3], look: |_| false, parse }
}

fn calls(kind: &str) -> Calls {
    match kind {
        "Ident" => calls!(Ident, |s| Ok(s.parse::<Ident>()?.into_token_stream())),
        "IdentAny" => {
            calls!(Ident::peek_any, |s| Ok(s.call(Ident::parse_any)?.into_token_stream()))
        }
        "LifetimeAny" => calls!(Lifetime, |s| Ok(s.parse::<Lifetime>()?.into_token_stream())),
        "Literal" => unpeeked(|s| Ok(s.parse::<Literal>()?.into_token_stream())),
        "Punct" => unpeeked(|s| Ok(s.parse::<Punct>()?.into_token_stream())),
        "Paren" => calls!(token::Paren, unparsed),
        "Brace" => calls!(token::Brace, unparsed),
        "Bracket" => calls!(token::Bracket, unparsed),
        _ => token_calls! { kind;
            "abstract" abstract "as" as "auto" auto "become" become "box" box "break" break
            "const" const "continue" continue "crate" crate "default" default "do" do "else" else
            "enum" enum "extern" extern "final" final "fn" fn "for" for "if" if "impl" impl
            "in" in "let" let "loop" loop "macro" macro "match" match "mod" mod "move" move
            "mut" mut "override" override "priv" priv "pub" pub "ref" ref "return" return
            "Self" Self "self" self "static" static "struct" struct "super" super "trait" trait
            "type" type "typeof" typeof "union" union "unsafe" unsafe "unsized" unsized "use" use
            "virtual" virtual "where" where "while" while "yield" yield "&" & "&&" && "&=" &=
            "@" @ "^" ^ "^=" ^= ":" : "," , "$" $ "." . ".." .. "..." ... "..=" ..= "=" = "==" ==
            "=>" => ">=" >= ">" > "<-" <- "<=" <= "<" < "-" - "-=" -= "!=" != "!" ! "|" | "|=" |=
            "||" || "::" :: "%" % "%=" %= "+" + "+=" += "#" # "?" ? "->" -> ";" ; "<<" <<
            "<<=" <<= ">>" >> ">>=" >>= "/" / "/=" /= "*" * "*=" *= "~" ~ "_" _
        },
    }
}

/// Converts tokens of this library to a stream of `proc-macro2`, with their spans.
pub fn stream(tokens: Cursor<'_>, spans: &Spans) -> TokenStream {
    tokens
        .map(|token| {
            let span = spans.get(token.span());
            let mut tree = match token {
                ours::Token::Ident(it) => TokenTree::from(match it.text.strip_prefix("r#") {
                    Some(name) => Ident::new_raw(name, span),
                    None => Ident::new(it.text, span),
                }),
                ours::Token::Punct(it) if it.spacing == ours::Spacing::Joint => {
                    Punct::new(it.ch, Spacing::Joint).into()
                }
                ours::Token::Punct(it) => Punct::new(it.ch, Spacing::Alone).into(),
                ours::Token::Literal(it) => TokenTree::from(
                    it.text.parse::<Literal>().unwrap_or_else(|_| Literal::string(it.text)),
                ),
                ours::Token::Group(it) => {
                    let delimiter = match it.delimiter {
                        ours::Delimiter::Parenthesis => proc_macro2::Delimiter::Parenthesis,
                        ours::Delimiter::Brace => proc_macro2::Delimiter::Brace,
                        ours::Delimiter::Bracket => proc_macro2::Delimiter::Bracket,
                        ours::Delimiter::None => proc_macro2::Delimiter::None,
                    };
                    Group::new(delimiter, stream(it.tokens, spans)).into()
                }
            };
            tree.set_span(span);
            tree
        })
        .collect()
}

/// A stream of `syn`, with the number of the stream from which it was entered, or `None` for a
/// fork.
struct Stream<'a> {
    buffer: Option<ParseBuffer<'a>>,
    parent: Option<usize>,
}

/// The streams of a run. Stream 0 is the whole text.
struct Session<'a, 's> {
    whole: ParseStream<'a>,
    others: Vec<Stream<'a>>,
    spans: &'s Spans,
}

impl<'a> Session<'a, '_> {
    fn stream(&self, number: usize) -> &ParseBuffer<'a> {
        match number.checked_sub(1) {
            None => self.whole,
            Some(at) => self.others[at].buffer.as_ref().unwrap_or(self.whole),
        }
    }

    fn pieces(&self, tokens: TokenStream) -> String {
        let leaf = |it: TokenTree| format!("{it} {}", self.spans.show(it.span()));
        tokens.into_iter().map(leaf).collect::<Vec<_>>().join(" ")
    }

    fn rejected(&self, error: &syn::Error) -> String {
        format!("refused {} {error}", self.spans.show(error.span()))
    }

    /// Ends the streams inside this stream. Each stream ends after the streams inside it.
    fn close_inside(&mut self, number: usize) {
        for next in number + 1..=self.others.len() {
            let other = &self.others[next - 1];
            if other.parent == Some(number) && other.buffer.is_some() {
                self.close(next);
            }
        }
    }

    fn close(&mut self, number: usize) {
        self.close_inside(number);
        self.others[number - 1].buffer = None;
    }

    fn enter(&mut self, number: usize, delimiter: &str) -> syn::Result<String> {
        let inside;
        let stream = self.stream(number);
        let span = match delimiter {
            "(" => parenthesized!(inside in stream).span,
            "{" => braced!(inside in stream).span,
            _ => bracketed!(inside in stream).span,
        };
        self.others.push(Stream { buffer: Some(inside), parent: Some(number) });
        Ok(format!("entered {} {delimiter} {}", self.others.len(), self.spans.show(span)))
    }

    /// Runs a command, and returns its answer. This library has already accepted the command for
    /// its streams.
    fn step(&mut self, command: &str) -> syn::Result<String> {
        let words: Vec<&str> = command.split(' ').filter(|it| !it.is_empty()).collect();
        let number = words[1].parse().unwrap_or(0);
        let stream = self.stream(number);
        let word = |at: usize| words.get(at).copied().unwrap_or_default();
        Ok(match words[0] {
            "peek" => (calls(word(2)).peeks[0])(stream).to_string(),
            "peek2" => (calls(word(2)).peeks[1])(stream).to_string(),
            "peek3" => (calls(word(2)).peeks[2])(stream).to_string(),
            "empty" => stream.is_empty().to_string(),
            "optional" if !(calls(word(2)).peeks[0])(stream) => "none".to_string(),
            "parse" | "optional" => {
                format!("read {}", self.pieces((calls(word(2)).parse)(stream)?))
            }
            "lookahead" => {
                let lookahead = stream.lookahead1();
                match words[2..].iter().position(|it| (calls(it).look)(&lookahead)) {
                    Some(found) => format!("found {found}"),
                    None => return Err(lookahead.error()),
                }
            }
            "terminated" | "separated" => {
                let is_terminated = words[0] == "terminated";
                PARSER.with(|it| it.set(Some(calls(word(2)).parse)));
                let parts = match word(3) {
                    "," => list::<Token![,]>(stream, is_terminated)?,
                    ";" => list::<Token![;]>(stream, is_terminated)?,
                    "+" => list::<Token![+]>(stream, is_terminated)?,
                    _ => list::<Token![::]>(stream, is_terminated)?,
                };
                parts
                    .into_iter()
                    .fold("list".to_string(), |out, it| format!("{out} [{}]", self.pieces(it)))
            }
            "enter" => self.enter(number, word(2))?,
            "fork" => {
                let buffer = Some(stream.fork());
                self.others.push(Stream { buffer, parent: None });
                format!("forked {}", self.others.len())
            }
            "advance" => {
                let fork = word(2).parse().unwrap_or(0);
                self.close_inside(fork);
                self.stream(number).advance_to(self.stream(fork));
                self.others[fork - 1].buffer = None;
                "done".to_string()
            }
            "discard" | "close" => {
                self.close(number);
                "done".to_string()
            }
            other => unreachable!("{other}"),
        })
    }
}

thread_local! {
    // A list parser takes a function pointer, which can hold no kind.
    static PARSER: Cell<Option<Parse>> = Cell::new(None);
}

fn parse_value(stream: ParseStream<'_>) -> syn::Result<TokenStream> {
    match PARSER.with(Cell::get) {
        Some(parse) => parse(stream),
        None => unparsed(stream),
    }
}

fn list<P: syn::parse::Parse + token::Token + ToTokens>(
    stream: ParseStream<'_>,
    is_terminated: bool,
) -> syn::Result<Vec<TokenStream>> {
    let list = if is_terminated {
        Punctuated::<TokenStream, P>::parse_terminated_with(stream, parse_value)?
    } else {
        Punctuated::<TokenStream, P>::parse_separated_nonempty_with(stream, parse_value)?
    };
    let mut parts = Vec::new();
    for pair in list.into_pairs() {
        let (value, separator) = pair.into_tuple();
        parts.push(value);
        parts.extend(separator.map(ToTokens::into_token_stream));
    }
    Ok(parts)
}

/// Runs commands with `syn`, and returns the answers and the verdict. Skips the commands that this
/// library does not allow on their streams.
fn theirs(tokens: TokenStream, commands: &str, ours: &[&str], spans: &Spans) -> Vec<String> {
    let mut lines = Vec::new();
    let run = |whole: ParseStream<'_>| -> syn::Result<()> {
        let mut session = Session { whole, others: Vec::new(), spans };
        for (command, answer) in commands.lines().zip(ours) {
            if is_unfit(answer) {
                lines.push((*answer).to_string());
                continue;
            }
            let answer = session.step(command).unwrap_or_else(|error| session.rejected(&error));
            lines.push(answer);
        }
        session.close_inside(0);
        Ok(())
    };
    let verdict = match run.parse2(tokens) {
        Ok(()) => "accepted".to_string(),
        Err(error) => format!("refused {} {error}", spans.show(error.span())),
    };
    lines.push(verdict);
    lines
}

/// Returns `true` if an answer says that a command is not allowed on its streams.
fn is_unfit(answer: &str) -> bool {
    ["C1", "C2", "C3", "C4", "C5"].iter().any(|it| answer == format!("refused {it}"))
}

/// Splits the line of an error into its span and its text.
fn rejection(line: &str) -> Option<(&str, &str)> {
    line.strip_prefix("refused ")?.split_once(' ')
}

/// Returns `true` if two spans are equal. `proc-macro2` can't create an empty span, so its span may
/// include the byte after an empty span.
fn same_span(ours: &str, theirs: &str) -> bool {
    let starts_alike =
        ours.split_once("..").map(|it| it.0) == theirs.split_once("..").map(|it| it.0);
    let is_empty = ours.split_once("..").map_or(false, |(start, end)| start == end);
    ours == theirs || is_empty && starts_alike
}

/// Returns the class of the difference between two lines, or `None` if the lines are equal. For a
/// verdict, `command` is `None`.
fn difference(
    command: Option<&str>,
    is_marked: bool,
    ours: &str,
    theirs: &str,
) -> Option<&'static str> {
    if ours == theirs {
        return None;
    }
    let is_far_peek =
        command.map_or(false, |it| it.starts_with("peek2") || it.starts_with("peek3"));
    let ((span, words), (other_span, other_words)) = match (rejection(ours), rejection(theirs)) {
        (Some(left), Some(right)) => (left, right),
        _ if is_far_peek && is_marked => return Some("`peek2` and `peek3` at invisible groups"),
        _ => return Some("UNLISTED: another answer"),
    };
    let is_named = words.starts_with("expected identifier, found keyword ")
        && other_words == "expected identifier";
    match same_span(span, other_span) {
        true if words == other_words => None,
        true if command.is_none() && words.starts_with(other_words) => {
            Some("the words of a leftover")
        }
        true if is_named => Some("the name of a keyword in place of an identifier"),
        false if command.is_none() => Some("the first leftover among interleaved groups"),
        false if words == other_words && is_marked => {
            Some("the end of a group that was entered through an invisible one")
        }
        _ => Some("UNLISTED: another error"),
    }
}

/// Compares `count` runs of random commands.
pub fn run(random: &mut Random, count: usize, spans: &Spans, tally: &mut Tally) {
    let mut done = 0;
    while done < count {
        let (text, commands) = random::input(random);
        // Such a line ends a text of the program: another text is made.
        if text.lines().any(|line| line == "---") {
            continue;
        }
        let buffer = match Buffer::lex_marked(&text) {
            Ok(buffer) => buffer,
            // Pieces that were glued may spell something that is rejected: another text is made.
            Err(_) => continue,
        };
        done += 1;
        cursors::run(done, &text, &buffer, stream(buffer.tokens(), spans), tally);
        let input = format!("{text}\n---\n{commands}");
        let report = match ours::respond(input.as_bytes()) {
            Ok(response) => response.text,
            Err(error) => error.to_string(),
        };
        let ours: Vec<&str> =
            report.lines().map(|it| it.rsplit_once(" @").map_or(it, |it| it.0)).collect();
        let theirs = theirs(stream(buffer.tokens(), spans), &commands, &ours, spans);
        let mut classes = BTreeSet::new();
        if ours.len() != theirs.len() {
            classes.insert("UNLISTED: another number of lines");
        }
        let asked = commands.lines().map(Some).chain([None]);
        for ((command, ours), theirs) in asked.zip(&ours).zip(&theirs) {
            classes.extend(difference(command, text.contains('«'), ours, theirs));
        }
        if classes.is_empty() {
            classes.insert("equal");
        }
        for class in classes {
            tally.count(&format!("runs: {class}"), &input, &format!("{ours:?}\n    {theirs:?}"));
        }
    }
}
