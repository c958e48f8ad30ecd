//! Reads a text several times with this library or with `proc-macro2`, so that `bench/border` can
//! count the instructions. The text is a list of names, or a file that is read as a whole source.
//!
//!     border ours|theirs NAMES|FILE TIMES
//!     border entries FILE
use std::env;
use std::fs;
use std::process::ExitCode;

use proc_macro2::TokenStream;
use syn_tokens::{Buffer, Edition};

fn read_source(text: &str) -> Option<Buffer> {
    Buffer::lex_source(Edition::Edition2021, text).ok()
}

fn main() -> ExitCode {
    let words: Vec<String> = env::args().skip(1).collect();
    let words: Vec<&str> = words.iter().map(String::as_str).collect();
    let (side, of, times) = match words[..] {
        ["entries", of] => ("entries", of, "1"),
        [side, of, times] => (side, of, times),
        _ => return ExitCode::from(2),
    };
    let (text, is_source) = match of.parse::<usize>() {
        Ok(count) => {
            let names: Vec<String> = (0..count).map(|it| format!("name{}", it % 1000)).collect();
            (names.join(", "), false)
        }
        Err(_) => match fs::read_to_string(of) {
            Ok(text) => (text, true),
            Err(_) => return ExitCode::from(2),
        },
    };
    let read: fn(&str) -> bool = match side {
        "ours" if is_source => |it| read_source(it).is_some(),
        "ours" => |it| Buffer::lex(it).is_ok(),
        "theirs" => |it| it.parse::<TokenStream>().is_ok(),
        "entries" => |it| read_source(it).map(|it| println!("{}", it.len())).is_some(),
        _ => return ExitCode::from(2),
    };
    let times = times.parse::<usize>().unwrap_or(0);
    let all_read = (0..times).all(|_| read(&text));
    ExitCode::from(u8::from(!all_read))
}
