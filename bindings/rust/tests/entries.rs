//! Tests of the library with entries in which one field was changed. The library rejects the
//! entries that do not form a token stream. The other entries have a different span, spacing or
//! kind.
#![cfg(feature = "proc-macro2")]
// A changed field is any number.
#![allow(clippy::cast_possible_truncation)]
use syn_tokens as _;
use syn_tokens::compiler::layout::{Entry, Message, Outcome};

extern "C" {
    fn syn_tokens_lex(
        text: *const u8,
        length: usize,
        entries: *mut Entry,
        entries_room: usize,
        texts: *mut u8,
        texts_room: usize,
        reading: *mut [usize; 4],
    );
    fn syn_tokens_arguments(
        entries: *const Entry,
        count: usize,
        texts: *const u8,
        size: usize,
        values: *mut [usize; 6],
        values_room: usize,
        messages: *mut Message,
        messages_room: usize,
        bytes: *mut u8,
        bytes_room: usize,
        outcome: *mut Outcome,
    );
}

const ROOM: usize = 128;

fn read(text: &str) -> (Vec<Entry>, Vec<u8>) {
    let mut entries = vec![Entry::default(); ROOM];
    let mut texts = vec![0u8; ROOM];
    // A status and a rule, a byte, and how many entries and bytes there are.
    let mut reading = [0; 4];
    // SAFETY: The pointers are to live memory of these lengths, which is not shared.
    unsafe {
        let (from, length) = (text.as_ptr(), text.len());
        let (to, into) = (entries.as_mut_ptr(), texts.as_mut_ptr());
        syn_tokens_lex(from, length, to, ROOM, into, ROOM, &mut reading);
    }
    assert_eq!(reading[0], 0, "the text is read");
    entries.truncate(reading[2]);
    texts.truncate(reading[3]);
    (entries, texts)
}

fn outcome(entries: &[Entry], texts: &[u8]) -> Outcome {
    let mut outcome = Outcome::default();
    let mut values = [[0; 6]; 32];
    let mut messages = [Message::default(); 4];
    let mut bytes = [0; 256];
    // SAFETY: The pointers are to live memory of these lengths, which is not shared.
    unsafe {
        syn_tokens_arguments(
            entries.as_ptr(),
            entries.len(),
            texts.as_ptr(),
            texts.len(),
            values.as_mut_ptr(),
            values.len(),
            messages.as_mut_ptr(),
            messages.len(),
            bytes.as_mut_ptr(),
            bytes.len(),
            &mut outcome,
        );
    }
    outcome
}

#[test]
fn changed_entries() {
    let (entries, texts) = read("name = 'x', limit = 3, flags(a, b(c = 'y', d), e) + 'f r { 15 }");
    assert_ne!(outcome(&entries, &texts).status, 6);
    let mut seed = 7u64;
    let mut next = move || {
        seed ^= seed << 13;
        seed ^= seed >> 7;
        seed ^= seed << 17;
        seed
    };
    for _ in 0..100_000 {
        let mut changed = entries.clone();
        let place = next() as usize % changed.len();
        let value = match next() % 6 {
            0 => 0,
            1 => usize::MAX,
            2 => 1,
            3 => next() as usize,
            _ => next() as usize % 40,
        };
        let it = &mut changed[place];
        let old = *it;
        match next() % 8 {
            0 => it.kind = value as u32,
            1 => it.spacing = value as u16,
            2 => it.delimiter = value as u16,
            3 => it.start = value,
            4 => it.end = value,
            5 => it.text_start = value,
            6 => it.text_end = value,
            _ => it.distance = value,
        }
        let it = *it;
        let keeps_shape = Entry { start: 0, end: 0, spacing: 0, kind: 0, ..it }
            == Entry { start: 0, end: 0, spacing: 0, kind: 0, ..old };
        let status = outcome(&changed, &texts).status;
        assert!(status == 6 || keeps_shape, "{old:?} {it:?} {status}");
        assert!(status == 0 || status == 1 || status == 6, "{it:?} {status}");
    }
}
