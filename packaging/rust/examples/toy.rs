//! A toy assembler: `toy OUT FILE...` assembles each FILE, or takes it as an object if its name ends with .o, and links all. What is wrong
//! with a name is reported with a place of the source. examples/c/toy.c describes the language.
use std::{env, error::Error, fs, process};
use v7::{make, raw, take_apart, Name, Parts, Session, Symbol, Word};

/// Each name of a file, whether it is defined there, and at which line, or without a source at which address.
type Names = Vec<(Name, bool, String)>;

/// What the assembler has made of a source so far.
#[derive(Default)]
struct Assembler {
    parts: Parts,
    names: Names,
}

impl Assembler {
    /// A symbol of a name that is defined here, at this value, or that is used here.
    fn name(&mut self, at: &str, name: &str, is_defined: bool, value: u16) {
        let segment = if is_defined { raw::V7_TEXT } else { raw::V7_UNDEFINED };
        self.parts.symbols.push(Symbol { name: Name::from(name), r#type: segment + raw::V7_EXTERNAL, value });
        self.names.push((Name::from(name), is_defined, at.to_string()));
    }

    /// A word that refers to a name, by a symbol of its own.
    fn refer(&mut self, at: &str, name: &str, value: u16, from_pc: u16) {
        let reloc = raw::v7_refers_to(self.parts.symbols.len() as u16) + from_pc;
        self.parts.text.push(Word { value, reloc });
        self.name(at, name, false, 0);
    }

    fn line(&mut self, at: &str, line: &str) -> Result<(), Box<dyn Error>> {
        let here = 2 * self.parts.text.len() as u16;
        match line.split('#').next().unwrap_or("").split_whitespace().collect::<Vec<_>>()[..] {
            [] => {}
            [label] if label.ends_with(':') => self.name(at, &label[..label.len() - 1], true, here),
            ["call", name] => {
                self.parts.text.push(Word { value: 0o4767, reloc: raw::V7_NUMBER });
                self.refer(at, name, 0u16.wrapping_sub(here + 4), raw::V7_FROM_PC);
            }
            ["return"] => self.parts.text.push(Word { value: 0o207, reloc: raw::V7_NUMBER }),
            ["value", name] => self.refer(at, name, 0, 0),
            [ref words @ ..] => match u16::from_str_radix(&words.concat(), 8) {
                Ok(value) => self.parts.text.push(Word { value, reloc: raw::V7_NUMBER }),
                Err(_) => return Err(format!("{at}: what is this?").into()),
            },
        }
        Ok(())
    }
}

fn assembled(path: &str) -> Result<(Vec<u8>, Names), Box<dyn Error>> {
    let mut assembler = Assembler::default();
    for (number, line) in fs::read_to_string(path)?.lines().enumerate() {
        assembler.line(&format!("{path}:{}", number + 1), line)?;
    }
    Ok((make(&assembler.parts)?, assembler.names))
}

/// An object: a name has the address that it is defined at, or those of the words that refer to it.
fn read(path: &str) -> Result<(Vec<u8>, Names), Box<dyn Error>> {
    let object = fs::read(path)?;
    let Parts { text, data, symbols, .. } = take_apart(&object).unwrap_or_default();
    let mut names = Vec::new();
    for (number, symbol) in symbols.iter().enumerate().filter(|(_, symbol)| symbol.r#type & raw::V7_EXTERNAL != 0) {
        let mut put = |is_defined, address| names.push((symbol.name, is_defined, format!("{path} at {address:06o}")));
        if symbol.r#type != raw::V7_EXTERNAL {
            put(true, symbol.value as usize);
        } else {
            let refers = |word: &Word| word.reloc & !raw::V7_FROM_PC == raw::v7_refers_to(number as u16);
            text.iter().chain(&data).enumerate().filter(|(_, word)| refers(word)).for_each(|(place, _)| put(false, 2 * place));
        }
    }
    Ok((object, names))
}

fn run(out: &str, paths: &[String]) -> Result<u32, Box<dyn Error>> {
    let mut session = Session::new(&[])?;
    let mut names = Vec::new();
    for path in paths {
        let (object, more) = if path.ends_with(".o") { read(path)? } else { assembled(path)? };
        session.add(&object).map_err(|fault| format!("{path}: {fault}"))?;
        names.extend(more);
    }
    let mut program = session.link(0, b"")?;
    program.findings.dedup_by_key(|finding| finding.name);
    for finding in &program.findings {
        let is_defined = finding.kind != raw::V7_UNDEFINED_NAME;
        for (row, (name, _, at)) in names.iter().filter(|row| row.0 == finding.name && row.1 == is_defined).enumerate() {
            let what = if !is_defined { "not defined" } else { ["defined here", "defined here again"][row.min(1)] };
            eprintln!("{at}: {name} is {what}");
        }
    }
    fs::write(out, &program.file)?;
    Ok(program.status)
}

fn main() {
    let words: Vec<String> = env::args().skip(1).collect();
    process::exit(run(&words[0], &words[1..]).map_err(|error| eprintln!("{error}")).unwrap_or(2) as i32);
}
