//! Objects and files: made, taken apart, read and shown.
use crate::{filled, made, raw, Fault};
use v7_sys::{Header, Symbol, Word};

/// The parts of an object: words of text and data, each with its relocation word; the size of bss in bytes; symbols.
#[derive(Clone, Debug, Default, PartialEq, Eq)]
pub struct Parts {
    pub text: Vec<Word>,
    pub data: Vec<Word>,
    pub bss: u32,
    pub symbols: Vec<Symbol>,
}

/// The object of these parts.
pub fn make(parts: &Parts) -> Result<Vec<u8>, Fault> {
    let Parts { text, data, bss, symbols } = parts;
    // SAFETY: here and below, what is read and the buffers outlive the call, and have the sizes that are passed
    filled(|room, size, answer| unsafe {
        raw::v7_make(text.as_ptr(), text.len(), data.as_ptr(), data.len(), *bss, symbols.as_ptr(), symbols.len(), room, size, answer)
    })
}

/// The buffers of the parts of a file, as many as there are.
fn apart(call: impl Fn(&mut Parts, &mut raw::Counts, &mut raw::Answer) -> u32) -> Result<Parts, Fault> {
    let (_, _, (parts, counts)) = made(|answer: &mut raw::Answer, (parts, counts): &mut (Parts, raw::Counts)| {
        parts.text.resize(counts.text, Word::default());
        parts.data.resize(counts.data, Word::default());
        parts.symbols.resize(counts.symbols, Symbol::default());
        call(parts, counts, answer)
    })?;
    Ok(Parts { bss: counts.bss, ..parts })
}

/// The parts of the object that the bytes begin with.
pub fn take_apart(object: &[u8]) -> Result<Parts, Fault> {
    apart(|Parts { text, data, symbols, .. }, counts, answer| unsafe {
        let (texts, datas, rows) = (text.len(), data.len(), symbols.len());
        let rooms = (text.as_mut_ptr(), data.as_mut_ptr(), symbols.as_mut_ptr());
        raw::v7_take_apart(object.as_ptr(), object.len(), rooms.0, texts, rooms.1, datas, rooms.2, rows, counts, answer)
    })
}

/// The header and the parts of the file that the bytes begin with, an object or another.
pub fn read(file: &[u8]) -> Result<(Header, Parts), Fault> {
    let header = std::cell::Cell::new(Header::default());
    let parts = apart(|Parts { text, data, symbols, .. }, counts, answer| unsafe {
        let (texts, datas, rows) = (text.len(), data.len(), symbols.len());
        let rooms = (text.as_mut_ptr(), data.as_mut_ptr(), symbols.as_mut_ptr());
        raw::v7_read(file.as_ptr(), file.len(), header.as_ptr(), rooms.0, texts, rooms.1, datas, rooms.2, rows, counts, answer)
    })?;
    Ok((header.get(), parts))
}

/// How many bytes the object takes that the bytes begin with.
pub fn check(object: &[u8]) -> Result<usize, Fault> {
    let mut answer = raw::Answer::default();
    match unsafe { raw::v7_check(object.as_ptr(), object.len(), &mut answer) } {
        0 => Ok(answer.size),
        _ => Err(Fault::from(&answer)),
    }
}

/// The lines of nm for a file; the options are bits.
pub fn nm(file: &[u8], options: u32) -> Result<Vec<u8>, Fault> {
    filled(|room, size, answer| unsafe { raw::v7_nm(options, file.as_ptr(), file.len(), room, size, answer) })
}

/// Words as instructions, without names; the first is at the address.
pub fn disassemble_words(words: &[u16], address: u16) -> Result<Vec<u8>, Fault> {
    filled(|room, size, answer| unsafe { raw::v7_disassemble_words(address, words.as_ptr(), words.len(), room, size, answer) })
}

macro_rules! shown {
    ($($(#[$doc:meta])* $name:ident by $call:ident;)*) => {$(
        $(#[$doc])*
        pub fn $name(file: &[u8]) -> Result<Vec<u8>, Fault> {
            filled(|room, size, answer| unsafe { raw::$call(file.as_ptr(), file.len(), room, size, answer) })
        }
    )*};
}

shown! {
    /// The file without its symbols and relocation.
    strip by v7_strip;
    /// The line of size for a file.
    size by v7_size;
    /// The text of a file as instructions, with names and labels.
    disassemble by v7_disassemble;
    /// The listing of a file, as `v7-explain` prints it without its notes.
    listing by v7_list;
    /// The file that a listing describes, or its first mistake: `place` is the line and `word` the column.
    from_listing by v7_from_listing;
}

/// The object that one of GNU's assembler becomes; the options are bits.
pub fn from_gnu(file: &[u8], options: u32) -> Result<Vec<u8>, Fault> {
    filled(|room, size, answer| unsafe { raw::v7_from_gnu(options, file.as_ptr(), file.len(), room, size, answer) })
}
