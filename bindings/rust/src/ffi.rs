//! The calls of the static library. Only this module, `memory`, and `compiler::Buffer::call`
//! contain `unsafe` code. A caller of `compiler::Buffer::call` names an export.
#![allow(unsafe_code)]

use alloc::collections::TryReserveError;
use alloc::string::String;
use alloc::vec::Vec;
use core::sync::atomic::{AtomicBool, Ordering};
use core::{ptr, slice, str};

use crate::error::Error;
use crate::memory::shrunk;

/// An entry, which is a leaf token, an opening delimiter or a closing delimiter. The page
/// `docs/BINDINGS.md` of the repository describes the fields.
#[repr(C)]
#[derive(Clone, Copy, Debug, Default, PartialEq, Eq, Hash)]
#[allow(missing_docs)]
pub struct Entry {
    pub kind: u32,
    pub spacing: u16,
    pub delimiter: u16,
    pub start: usize,
    pub end: usize,
    pub text_start: usize,
    pub text_end: usize,
    pub distance: usize,
}

pub const IDENT: u32 = 0;
pub const PUNCT: u32 = 1;
pub const LITERAL: u32 = 2;
#[cfg(feature = "proc-macro2")]
pub const OPENING: u32 = 3;
pub const CLOSING: u32 = 4;

/// The outcome of a call that reads a text.
#[repr(C)]
#[derive(Clone, Copy, Debug, Default, PartialEq, Eq)]
pub struct Reading {
    pub status: u32,
    pub rule: u32,
    pub at: usize,
    pub entries: usize,
    pub bytes: usize,
}

/// The outcome of opening a text, with pointers to its entries and texts, which are valid until the
/// handle is closed.
#[repr(C)]
struct Opened {
    reading: Reading,
    entries: *const Entry,
    texts: *const u8,
}

pub const READ: u32 = 0;
pub const REJECTED: u32 = 1;
#[cfg(feature = "proc-macro2")]
pub const NO_MEMORY: u32 = 3;
const NO_ROOM: u32 = 4;
#[cfg(feature = "proc-macro2")]
pub const MALFORMED: u32 = 6;

/// The outcome that an exported parser returns.
#[repr(C)]
#[derive(Clone, Copy, Debug, Default, PartialEq, Eq)]
#[allow(missing_docs)]
pub struct Outcome {
    pub status: u32,
    pub refusal: u32,
    pub entry: usize,
    pub values: usize,
    pub messages: usize,
    pub bytes: usize,
}

/// A message of an error, as an export writes it, with its span and the range of its text.
#[repr(C)]
#[derive(Clone, Copy, Debug, Default, PartialEq, Eq)]
#[allow(missing_docs)]
pub struct Message {
    pub start: usize,
    pub end: usize,
    pub text_start: usize,
    pub text_end: usize,
}

/// An argument, as the library writes it.
#[repr(C)]
#[derive(Clone, Copy, Debug, Default, PartialEq, Eq)]
pub struct FlatArgument {
    pub kind: usize,
    pub name_start: usize,
    pub name_end: usize,
    pub value_start: usize,
    pub value_end: usize,
    pub inside: usize,
}

/// The value of a literal.
#[repr(C)]
#[derive(Clone, Copy, Debug, Default, PartialEq)]
pub struct Value {
    pub status: u32,
    pub kind: u32,
    pub number: u64,
    pub float: f64,
    pub suffix: usize,
    pub bytes: usize,
}

/// The location of a token among the remaining entries, and the entry to continue with.
#[repr(C)]
#[derive(Clone, Copy, Debug, Default, PartialEq, Eq)]
pub struct Step {
    pub at: usize,
    pub last: usize,
    pub next: usize,
}

/// The line and the column of a byte in a text. Both numbers are 0 if the byte has no line and
/// column.
#[repr(C)]
#[derive(Clone, Copy, Debug, Default, PartialEq, Eq)]
pub struct Place {
    pub line: usize,
    pub column: usize,
}

/// The kind of token that a cursor looks for.
#[derive(Clone, Copy)]
pub enum Wanted {
    Ident,
    Punct,
    Literal,
    Lifetime,
    Group(u32),
    Any,
}

/// The rules by which a text is read.
#[derive(Clone, Copy)]
pub enum Rules {
    Plain,
    Marked,
    Source { year: u32 },
}

extern "C" {
    fn syn_tokens_open(
        rules: u32,
        text: *const u8,
        length: usize,
        handle: *mut *mut u8,
        opened: *mut Opened,
    );
    fn syn_tokens_close(handle: *mut *mut u8);
    fn syn_tokens_respond(
        input: *const u8,
        length: usize,
        printed: *mut u8,
        room: usize,
        size: *mut usize,
    ) -> u8;
    fn syn_tokens_value(
        text: *const u8,
        length: usize,
        bytes: *mut u8,
        room: usize,
        value: *mut Value,
    );
    fn syn_tokens_ident(entries: *const Entry, count: usize, step: *mut Step) -> bool;
    fn syn_tokens_punct(
        entries: *const Entry,
        count: usize,
        texts: *const u8,
        size: usize,
        step: *mut Step,
    ) -> bool;
    fn syn_tokens_literal(entries: *const Entry, count: usize, step: *mut Step) -> bool;
    fn syn_tokens_lifetime(
        entries: *const Entry,
        count: usize,
        texts: *const u8,
        size: usize,
        step: *mut Step,
    ) -> bool;
    fn syn_tokens_group(
        entries: *const Entry,
        count: usize,
        delimiter: u32,
        step: *mut Step,
    ) -> bool;
    fn syn_tokens_skip(
        entries: *const Entry,
        count: usize,
        texts: *const u8,
        size: usize,
        step: *mut Step,
    ) -> bool;
    fn syn_tokens_lines(
        text: *const u8,
        length: usize,
        bytes: *const usize,
        count: usize,
        places: *mut Place,
        room: usize,
    ) -> u8;
    fn syn_tokens_sample_opened(opened: *mut Opened, count: usize);
    fn syn_tokens_sample_places(step: *mut Step, places: *mut Place, count: usize);
    fn syn_tokens_sample(entries: *mut Entry, count: usize, reading: *mut Reading);
    fn syn_tokens_sample_answers(
        outcome: *mut Outcome,
        messages: *mut Message,
        messages_count: usize,
        arguments: *mut FlatArgument,
        arguments_count: usize,
        value: *mut Value,
    );
}

/// Returns `true` if the structs of this module have the same layout as those of the library.
fn is_of_this_version() -> bool {
    static IS_CHECKED: AtomicBool = AtomicBool::new(false);
    if IS_CHECKED.load(Ordering::Relaxed) {
        return true;
    }
    // Far more room than any version of the library takes: its structs may be larger than these,
    // which is what the samples are to show.
    let mut entries = [0u64; 128];
    let mut reading = [0u64; 128];
    // SAFETY: The pointers are to live, initialized and aligned memory that is not shared, and that
    // is larger than what the library writes. Any bytes are an `Entry` and a `Reading`.
    let (entries, reading) = unsafe {
        syn_tokens_sample(entries.as_mut_ptr().cast(), 2, reading.as_mut_ptr().cast());
        (entries.as_ptr().cast::<[Entry; 2]>().read(), reading.as_ptr().cast::<Reading>().read())
    };
    let entry = Entry {
        kind: 1,
        spacing: 2,
        delimiter: 3,
        start: 4,
        end: 5,
        text_start: 6,
        text_end: 7,
        distance: 8,
    };
    let wanted = Reading { status: 9, rule: 10, at: 11, entries: 12, bytes: 13 };
    let readings_match = entries == [entry; 2] && reading == wanted;
    // Each is looked at, also after another one that differs: so a test sees all of them.
    let is_same = readings_match & answers_match() & places_match() & opened_match();
    IS_CHECKED.store(is_same, Ordering::Relaxed);
    is_same
}

/// Returns `true` if the structs of calls that take entries or literals have the same layout as
/// those of the library.
fn answers_match() -> bool {
    let (mut outcome, mut value) = ([0u64; 128], [0u64; 128]);
    let (mut messages, mut arguments) = ([0u64; 128], [0u64; 128]);
    // SAFETY: The pointers are to live, initialized and aligned memory that is not shared, and that
    // is larger than what the library writes. Any bytes are values of these structs.
    let (outcome, messages, arguments, value) = unsafe {
        syn_tokens_sample_answers(
            outcome.as_mut_ptr().cast(),
            messages.as_mut_ptr().cast(),
            2,
            arguments.as_mut_ptr().cast(),
            2,
            value.as_mut_ptr().cast(),
        );
        (
            outcome.as_ptr().cast::<Outcome>().read(),
            messages.as_ptr().cast::<[Message; 2]>().read(),
            arguments.as_ptr().cast::<[FlatArgument; 2]>().read(),
            value.as_ptr().cast::<Value>().read(),
        )
    };
    let wanted =
        Outcome { status: 14, refusal: 15, entry: 16, values: 17, messages: 18, bytes: 19 };
    let message = Message { start: 20, end: 21, text_start: 22, text_end: 23 };
    let argument = FlatArgument {
        kind: 24,
        name_start: 25,
        name_end: 26,
        value_start: 27,
        value_end: 28,
        inside: 29,
    };
    let number = Value { status: 30, kind: 31, number: 32, float: 0.0, suffix: 33, bytes: 34 };
    outcome == wanted && messages == [message; 2] && arguments == [argument; 2] && value == number
}

/// Returns `true` if the structs of the calls of a cursor and of lines have the same layout as
/// those of the library.
fn places_match() -> bool {
    let (mut step, mut places) = ([0u64; 128], [0u64; 128]);
    // SAFETY: The pointers are to live, initialized and aligned memory that is not shared, and that
    // is larger than what the library writes. Any bytes are values of these structs.
    let (step, places) = unsafe {
        syn_tokens_sample_places(step.as_mut_ptr().cast(), places.as_mut_ptr().cast(), 2);
        (step.as_ptr().cast::<Step>().read(), places.as_ptr().cast::<[Place; 2]>().read())
    };
    step == Step { at: 35, last: 36, next: 37 } && places == [Place { line: 38, column: 39 }; 2]
}

/// Returns `true` if the struct of an opened text has the same layout as the library's, which the
/// distance between two of them shows.
fn opened_match() -> bool {
    let mut opened = [u64::MAX; 128];
    // SAFETY: The pointer is to live, initialized and aligned memory that is not shared, and that is
    // larger than what the library writes. Any bytes are an `Opened`, whose pointers are not read.
    let opened = unsafe {
        syn_tokens_sample_opened(opened.as_mut_ptr().cast(), 2);
        opened.as_ptr().cast::<[Opened; 2]>().read()
    };
    let wanted = Reading { status: 9, rule: 10, at: 11, entries: 12, bytes: 13 };
    opened.iter().all(|it| it.reading == wanted && it.entries.is_null() && it.texts.is_null())
}

/// Converts bytes that the library has written to a text. The library writes only valid texts.
pub fn text_of(bytes: Vec<u8>) -> String {
    String::from_utf8(bytes)
        .unwrap_or_else(|error| String::from_utf8_lossy(error.as_bytes()).into_owned())
}

/// Entries and bytes that the library holds until this value is dropped.
pub struct Held {
    // Null if nothing is held. Then there are no entries and no bytes.
    handle: *mut u8,
    opened: Opened,
}

impl Held {
    /// Returns the entries.
    pub fn entries(&self) -> &[Entry] {
        match self.opened.reading.entries {
            0 => &[],
            // SAFETY: The pointer leads to so many entries until the handle is closed, where this is
            // dropped, and nobody writes to them.
            count => unsafe { slice::from_raw_parts(self.opened.entries, count) },
        }
    }

    /// Returns the texts of the leaves, or the text of the error.
    pub fn texts(&self) -> &str {
        // SAFETY: `lex` has tested the bytes, and nobody writes to them.
        unsafe { str::from_utf8_unchecked(self.bytes()) }
    }

    fn bytes(&self) -> &[u8] {
        match self.opened.reading.bytes {
            0 => &[],
            // SAFETY: As of the entries.
            size => unsafe { slice::from_raw_parts(self.opened.texts, size) },
        }
    }
}

impl Drop for Held {
    fn drop(&mut self) {
        // SAFETY: The library has written the handle, or it is null.
        unsafe { syn_tokens_close(&mut self.handle) };
    }
}

// SAFETY: What is held is reached through this alone. The library proves that a handle may go to
// another thread, and shared references only read.
unsafe impl Send for Held {}
// SAFETY: As above.
unsafe impl Sync for Held {}

/// Reads a text. Returns the outcome, and a value that holds the entries and either the texts of
/// the leaves or the text of the error.
pub fn lex(rules: Rules, text: &str) -> Result<(Reading, Held), Error> {
    if !is_of_this_version() {
        return Err(Error::Version);
    }
    let rules = match rules {
        Rules::Plain => 0,
        Rules::Marked => 1,
        Rules::Source { year } => year,
    };
    let mut held = Held {
        handle: ptr::null_mut(),
        opened: Opened { reading: Reading::default(), entries: ptr::null(), texts: ptr::null() },
    };
    let (from, length) = (text.as_ptr(), text.len());
    // SAFETY: The pointers are to live memory, which is not shared. The library reads the text
    // alone, and the handle is null, so it holds nothing.
    unsafe { syn_tokens_open(rules, from, length, &mut held.handle, &mut held.opened) };
    let reading = held.opened.reading;
    // The library writes nothing but texts.
    if str::from_utf8(held.bytes()).is_err() {
        return Err(Error::Version);
    }
    Ok((reading, held))
}

/// Runs the program over an input, and returns the program's status and output.
pub fn respond(input: &[u8]) -> Result<(u8, String), TryReserveError> {
    let mut printed: Vec<u8> = Vec::new();
    printed.try_reserve_exact(4096)?;
    loop {
        let mut size = 0;
        let (to, room) = (printed.as_mut_ptr(), printed.capacity());
        // SAFETY: The pointers are to live memory of these lengths, which is not shared. The library
        // reads the input alone, and only writes to the rest.
        let status =
            unsafe { syn_tokens_respond(input.as_ptr(), input.len(), to, room, &mut size) };
        if size <= room {
            // SAFETY: The library has written so many bytes, since there was room.
            unsafe { printed.set_len(size) };
            return Ok((status, text_of(shrunk(printed))));
        }
        printed.try_reserve_exact(size)?;
    }
}

/// Returns the location of the next token, if the token is of the wanted kind. `texts` contains the
/// texts of all entries.
pub fn step(wanted: Wanted, entries: &[Entry], texts: &str) -> Option<Step> {
    if !is_of_this_version() {
        return None;
    }
    let mut step = Step::default();
    let (from, count) = (entries.as_ptr(), entries.len());
    let (bytes, size) = (texts.as_ptr(), texts.len());
    let told = &mut step;
    // SAFETY: The pointers are to live memory of these lengths, and the step is not shared. The
    // library reads the entries and texts alone, and only writes the step.
    let is_found = unsafe {
        match wanted {
            Wanted::Ident => syn_tokens_ident(from, count, told),
            Wanted::Punct => syn_tokens_punct(from, count, bytes, size, told),
            Wanted::Literal => syn_tokens_literal(from, count, told),
            Wanted::Lifetime => syn_tokens_lifetime(from, count, bytes, size, told),
            Wanted::Group(delimiter) => syn_tokens_group(from, count, delimiter, told),
            Wanted::Any => syn_tokens_skip(from, count, bytes, size, told),
        }
    };
    if is_found {
        Some(step)
    } else {
        None
    }
}

/// Returns the line and the column of each of these byte offsets of a text.
pub fn lines(text: &str, bytes: &[usize]) -> Result<Vec<Place>, Error> {
    if !is_of_this_version() {
        return Err(Error::Version);
    }
    let mut places: Vec<Place> = Vec::new();
    places.try_reserve_exact(bytes.len())?;
    // SAFETY: The pointers are to live memory of these lengths, and that of the places is not
    // shared. The library reads the text and the bytes alone, and only writes the places.
    let status = unsafe {
        let (to, room) = (places.as_mut_ptr(), places.capacity());
        syn_tokens_lines(text.as_ptr(), text.len(), bytes.as_ptr(), bytes.len(), to, room)
    };
    if u32::from(status) != READ {
        return Err(Error::Memory);
    }
    // SAFETY: The library has written so many, since there was room.
    unsafe { places.set_len(bytes.len()) };
    Ok(places)
}

/// Reads the text of a literal, and returns the outcome and the bytes of a string. The call keeps
/// no memory except these bytes.
pub fn value(text: &str) -> Result<(Value, Vec<u8>), Error> {
    if !is_of_this_version() {
        return Err(Error::Version);
    }
    // Most strings are shorter, and no other value has bytes.
    let mut room = [0u8; 128];
    let mut value = Value::default();
    let (from, length) = (text.as_ptr(), text.len());
    // SAFETY: The pointers are to live memory of these lengths, which is not shared. The library
    // reads the text alone, and only writes to the rest.
    unsafe { syn_tokens_value(from, length, room.as_mut_ptr(), room.len(), &mut value) };
    let mut bytes: Vec<u8> = Vec::new();
    if value.status == NO_ROOM {
        bytes.try_reserve_exact(value.bytes)?;
        // SAFETY: As above.
        unsafe {
            syn_tokens_value(from, length, bytes.as_mut_ptr(), bytes.capacity(), &mut value);
        }
        if value.status == READ {
            // SAFETY: The library has written so many bytes, since there was room.
            unsafe { bytes.set_len(value.bytes.min(bytes.capacity())) };
        }
    } else {
        bytes.try_reserve_exact(value.bytes)?;
        bytes.extend_from_slice(room.get(..value.bytes).unwrap_or_default());
    }
    match value.status {
        READ => Ok((value, bytes)),
        _ => Err(Error::Memory),
    }
}

/// The calls that parse entries.
#[cfg(feature = "proc-macro2")]
pub use self::taken::{arguments, call, replay, Answer, Export};

#[cfg(feature = "proc-macro2")]
mod taken {
    use super::{
        is_of_this_version, shrunk, text_of, Entry, Error, FlatArgument, Message, Outcome, NO_ROOM,
    };
    use alloc::string::String;
    use alloc::vec::Vec;

    /// An exported function that parses entries. It takes the entries and the bytes of their texts,
    /// room for values, messages and bytes, and the outcome to write.
    pub type Export<T> = unsafe extern "C" fn(
        entries: *const Entry,
        count: usize,
        texts: *const u8,
        size: usize,
        values: *mut T,
        values_room: usize,
        messages: *mut Message,
        messages_room: usize,
        bytes: *mut u8,
        bytes_room: usize,
        outcome: *mut Outcome,
    );

    extern "C" {
        fn syn_tokens_arguments(
            entries: *const Entry,
            count: usize,
            texts: *const u8,
            size: usize,
            values: *mut FlatArgument,
            values_room: usize,
            messages: *mut Message,
            messages_room: usize,
            bytes: *mut u8,
            bytes_room: usize,
            outcome: *mut Outcome,
        );
        fn syn_tokens_replay(
            entries: *const Entry,
            count: usize,
            texts: *const u8,
            size: usize,
            commands: *const u8,
            length: usize,
            printed: *mut u8,
            room: usize,
            outcome: *mut Outcome,
        );
    }

    /// Everything that an exported parser has written.
    #[derive(Debug)]
    pub struct Answer<T> {
        pub outcome: Outcome,
        pub values: Vec<T>,
        pub messages: Vec<Message>,
        pub texts: String,
    }

    /// Calls an export over entries and texts.
    ///
    /// # Safety
    ///
    /// The export must read only the entries and texts, write only into the room that it is given,
    /// and report how much it has written. `T` must have the same layout as the export's values,
    /// and any bytes must be a valid `T`.
    pub unsafe fn call<T>(
        export: Export<T>,
        entries: &[Entry],
        texts: &str,
    ) -> Result<Answer<T>, Error> {
        if !is_of_this_version() {
            return Err(Error::Version);
        }
        let (mut values, mut messages, mut bytes) = (Vec::new(), Vec::new(), Vec::new());
        // A value has a token, so this is enough for most, and for one message. If it is not, the
        // first turn says how much is.
        values.try_reserve_exact(entries.len().max(1))?;
        messages.try_reserve_exact(4)?;
        bytes.try_reserve_exact(texts.len() + 256)?;
        // The second turn has as much room as the first one asked for.
        for _ in 0..2 {
            let mut outcome = Outcome::default();
            // SAFETY: The pointers are to live memory of these lengths, which is not shared. The
            // caller vouches for the export.
            unsafe {
                export(
                    entries.as_ptr(),
                    entries.len(),
                    texts.as_ptr(),
                    texts.len(),
                    values.as_mut_ptr(),
                    values.capacity(),
                    messages.as_mut_ptr(),
                    messages.capacity(),
                    bytes.as_mut_ptr(),
                    bytes.capacity(),
                    &mut outcome,
                );
            }
            if outcome.status != NO_ROOM {
                // SAFETY: The export has written so many, since there was room.
                unsafe {
                    values.set_len(outcome.values.min(values.capacity()));
                    messages.set_len(outcome.messages.min(messages.capacity()));
                    bytes.set_len(outcome.bytes.min(bytes.capacity()));
                }
                let (values, texts) = (shrunk(values), text_of(shrunk(bytes)));
                return Ok(Answer { outcome, values, messages, texts });
            }
            values.try_reserve_exact(outcome.values)?;
            messages.try_reserve_exact(outcome.messages)?;
            bytes.try_reserve_exact(outcome.bytes)?;
        }
        Err(Error::Version)
    }

    /// Parses entries as arguments.
    pub fn arguments(entries: &[Entry], texts: &str) -> Result<Answer<FlatArgument>, Error> {
        // SAFETY: The library's export keeps to what is asked, and `is_of_this_version` has looked
        // at the layout of its values. Any bytes are a `FlatArgument`.
        unsafe { call(syn_tokens_arguments, entries, texts) }
    }

    /// Runs commands over entries, with one command on each line.
    pub fn replay(
        entries: &[Entry],
        texts: &str,
        commands: &str,
    ) -> Result<(Outcome, String), Error> {
        if !is_of_this_version() {
            return Err(Error::Version);
        }
        let mut printed: Vec<u8> = Vec::new();
        printed.try_reserve_exact(4096)?;
        loop {
            let mut outcome = Outcome::default();
            // SAFETY: The pointers are to live memory of these lengths, which is not shared. The
            // library reads the entries, texts and commands alone, and only writes to the rest.
            unsafe {
                syn_tokens_replay(
                    entries.as_ptr(),
                    entries.len(),
                    texts.as_ptr(),
                    texts.len(),
                    commands.as_ptr(),
                    commands.len(),
                    printed.as_mut_ptr(),
                    printed.capacity(),
                    &mut outcome,
                );
            }
            if outcome.status != NO_ROOM {
                // SAFETY: The library has written so many bytes, since there was room.
                unsafe { printed.set_len(outcome.bytes.min(printed.capacity())) };
                return Ok((outcome, text_of(shrunk(printed))));
            }
            printed.try_reserve_exact(outcome.bytes)?;
        }
    }
}
