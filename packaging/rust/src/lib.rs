//! Safe calls of libv7, the linker of Seventh Edition Unix for the PDP-11. `raw` declares the calls and their numbers.
//!
//! ```no_run
//! let objects = [std::fs::read("main.o")?, std::fs::read("twice.o")?];
//! let program = v7::Link::default().of(&objects)?;
//! std::fs::write("program", &program.file)?;
//! # Ok::<(), Box<dyn std::error::Error>>(())
//! ```
//!
//! Only a `Session` is kept between calls, by its owner, so threads may make calls at the same time.
mod objects;
mod records;
mod session;

pub use objects::{check, disassemble, disassemble_words, from_gnu, from_listing, listing, make, nm, read, size, strip, take_apart, Parts};
pub use records::{Link, Map, Program, Remark};
pub use session::Session;
pub use v7_sys as raw;
pub use v7_sys::{Fault, Finding, FindingPlace, Header, MapHead, MapLimit, MapName, MapObject, MapUse, Name, Number, Place, Symbol, Word};

use std::mem::size_of;

impl Link {
    /// Links these objects in their order.
    pub fn of<B: AsRef<[u8]>>(&self, objects: &[B]) -> Result<Program, Fault> {
        Ok(self.given(raw::V7_REPORT | raw::V7_FINDINGS | raw::V7_PLACES, objects)?.0)
    }

    /// The same, with the map of the link. A link that is refused for its sizes or its names has a map too, and an empty program.
    pub fn map<B: AsRef<[u8]>>(&self, objects: &[B]) -> Result<(Program, Map), Fault> {
        self.given(raw::V7_REPORT | raw::V7_FINDINGS | raw::V7_PLACES | raw::V7_MAP, objects)
    }

    fn given<B: AsRef<[u8]>>(&self, wants: u32, objects: &[B]) -> Result<(Program, Map), Fault> {
        let size = objects.iter().map(|object| object.as_ref().len()).sum();
        // SAFETY: the request is of `ask`; the result is of `run`
        self.ask(wants, objects, |request| run(request, size, self.forced.len(), |result| unsafe { raw::v7_run(request, result) }))
    }

    /// Lends a request to a call: what its slices point to has the sizes that they say.
    fn ask<B: AsRef<[u8]>, T>(&self, wants: u32, objects: &[B], call: impl FnOnce(&raw::Request) -> T) -> T {
        let objects: Vec<_> = objects.iter().map(|object| raw::Slice::of(object.as_ref())).collect();
        call(&raw::Request {
            size: size_of::<raw::Request>(),
            options: self.options,
            wants,
            entry: raw::Slice::of(&self.entry),
            forced: raw::Slice::of(&self.forced),
            objects: objects.as_ptr(),
            object_count: objects.len(),
        })
    }
}

/// Makes a call again and again until its buffers have the sizes that it answered: its status, the answer and the buffers.
fn made<A: Default, B: Default>(call: impl FnMut(&mut A, &mut B) -> u32) -> Result<(u32, A, B), Fault>
where
    for<'a> Fault: From<&'a A>,
{
    made_from(A::default(), call)
}

/// The same, first with buffers of the sizes that an answer has.
fn made_from<A, B: Default>(mut answer: A, mut call: impl FnMut(&mut A, &mut B) -> u32) -> Result<(u32, A, B), Fault>
where
    for<'a> Fault: From<&'a A>,
{
    let mut buffers = B::default();
    loop {
        let status = call(&mut answer, &mut buffers);
        match Fault::from(&answer) {
            Fault { fault: 0, .. } => return Ok((status, answer, buffers)),
            Fault { fault: raw::V7_NO_ROOM, .. } => {}
            fault => return Err(fault),
        }
    }
}

/// Makes a buffer of so many records, and lends it to a call.
fn lend<T: Clone + Default>(buffer: &mut Vec<T>, count: usize, records: &mut *mut T, room: &mut usize) {
    buffer.resize(count, T::default());
    (*records, *room) = (buffer.as_mut_ptr(), count);
}

/// Makes a call whose result has buffers of the sizes that they say, which outlive it: first with room for what a
/// link of such objects should give, and again if it needs more. Of a map an object should have at least sixteen
/// bytes, a name twelve, and a use four.
fn run(request: &raw::Request, size: usize, forced: usize, mut call: impl FnMut(&mut raw::Result) -> u32) -> Result<(Program, Map), Fault> {
    let file_size = 16 + size + 12 * forced;
    let count = file_size / 12 + 3;
    let mut most =
        raw::Result { file_size, report_size: 27 * count + 18, finding_count: count, place_count: count, ..raw::Result::default() };
    if request.wants & raw::V7_MAP != 0 {
        (most.map.object_count, most.map.name_count) = (file_size / 16, count);
        (most.map.use_count, most.map.limit_count) = (file_size / 4, raw::V7_LIMIT_NAMES as usize);
    }
    let (status, result, (mut program, mut map)) = made_from(most, |result, (program, map): &mut (Program, Map)| {
        lend(&mut program.file, result.file_size, &mut result.file, &mut result.file_room);
        lend(&mut program.report, result.report_size, &mut result.report, &mut result.report_room);
        lend(&mut program.findings, result.finding_count, &mut result.findings, &mut result.finding_room);
        lend(&mut program.places, result.place_count, &mut result.places, &mut result.place_room);
        let records = &mut result.map;
        lend(&mut map.objects, records.object_count, &mut records.objects, &mut records.object_room);
        lend(&mut map.names, records.name_count, &mut records.names, &mut records.name_room);
        lend(&mut map.uses, records.use_count, &mut records.uses, &mut records.use_room);
        lend(&mut map.limits, records.limit_count, &mut records.limits, &mut records.limit_room);
        call(result)
    })?;
    program.file.truncate(result.file_size);
    program.report.truncate(result.report_size);
    program.findings.truncate(result.finding_count);
    program.places.truncate(result.place_count);
    map.objects.truncate(result.map.object_count);
    map.names.truncate(result.map.name_count);
    map.uses.truncate(result.map.use_count);
    map.limits.truncate(result.map.limit_count);
    Ok((Program { status, ..program }, Map { status, head: result.map.head, ..map }))
}

/// Makes a call that fills a buffer with bytes.
fn filled(mut call: impl FnMut(*mut u8, usize, &mut raw::Answer) -> u32) -> Result<Vec<u8>, Fault> {
    let (_, _, bytes) = made(|answer: &mut raw::Answer, bytes: &mut Vec<u8>| {
        bytes.resize(answer.size, 0);
        call(bytes.as_mut_ptr(), bytes.len(), answer)
    })?;
    Ok(bytes)
}

/// The places at which an object fits a program, which may be stripped, in the order of their addresses.
pub fn places(program: &[u8], object: &[u8]) -> Result<Vec<Place>, Fault> {
    let (_, _, rows) = made(|answer: &mut raw::Answer, rows: &mut Vec<Place>| {
        rows.resize(answer.size, Place::default());
        let files = (program.as_ptr(), program.len(), object.as_ptr(), object.len());
        // SAFETY: files and buffer outlive the call, and have the sizes that are passed
        unsafe { raw::v7_places(files.0, files.1, files.2, files.3, rows.as_mut_ptr(), rows.len(), answer) }
    })?;
    Ok(rows)
}

/// What is wrong and odd in a file, as `v7-explain` prints it.
pub fn remarks(file: &[u8]) -> Result<Vec<Remark>, Fault> {
    let (_, _, (texts, rows)) = made(|answer: &mut raw::Answer, (texts, rows): &mut (Vec<u8>, Vec<raw::Remark>)| {
        texts.resize(answer.size, 0);
        rows.resize(answer.report_size, raw::Remark::default());
        // SAFETY: file and buffers outlive the call, and have the sizes that are passed
        unsafe { raw::v7_remarks(file.as_ptr(), file.len(), texts.as_mut_ptr(), texts.len(), rows.as_mut_ptr(), rows.len(), answer) }
    })?;
    let text = |row: &raw::Remark| String::from_utf8_lossy(&texts[row.text..row.text + row.text_size]).into_owned();
    Ok(rows.iter().map(|row| Remark { kind: row.kind, byte: row.place, text: text(row), part: row.part, word: row.word }).collect())
}
