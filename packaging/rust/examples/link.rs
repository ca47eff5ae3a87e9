//! Links objects: `link OUT OBJECT...` does what `v7 ld -o OUT OBJECT...` does, and writes where each name that is reported comes from to
//! standard error. It compares the link with that of a session and with its map, and each object, in a thread of its own, with that of its
//! listing.
use std::io::{self, Write};
use std::{env, error, fs, process, thread};
use v7::{from_gnu, from_listing, listing, places, remarks, Link, Program, Session};

/// Each name that is reported, with the path of the object that has it first.
fn show_findings(program: &Program, paths: &[String]) {
    for (finding, place) in program.findings.iter().zip(&program.places) {
        let first = place.first.get().map_or("no object", |number| &paths[number]);
        match place.further.get() {
            Some(further) => eprintln!("{} of {} is defined again in {}", finding.name, first, paths[further]),
            None => eprintln!("{} is first in {}", finding.name, first),
        }
    }
}

/// The map knows the same objects, and for each name that is reported the same first one.
fn compare_map(program: &Program, objects: &[Vec<u8>]) {
    let (same, map) = Link::default().map(objects).expect("a map");
    assert_eq!(&same, program);
    assert_eq!((map.status, map.head.fault, map.objects.len()), (program.status, 0, objects.len()));
    for (finding, place) in program.findings.iter().zip(&program.places) {
        let row = map.names.iter().find(|row| row.name == finding.name).expect("the name");
        assert_eq!(place.first.get(), row.definer.get().or(row.user.get()));
    }
}

/// The listing of an object is that object, and it has remarks or none.
fn compare_listing(object: &[u8]) {
    let text = listing(object).expect("a listing");
    assert_eq!(from_listing(&text).expect("the file"), object);
    assert!(remarks(object).expect("remarks").iter().all(|remark| !remark.text.is_empty()));
}

fn link(out: &str, paths: &[String]) -> Result<u32, Box<dyn error::Error>> {
    let objects = paths.iter().map(fs::read).collect::<Result<Vec<_>, _>>()?;
    let program = Link::default().of(&objects)?;
    let other = Link { forced: vec!["_forced".into()], entry: b"_none".to_vec(), ..Link::default() };
    let mut session = Session::new(&other.forced)?;
    for object in &objects {
        session.add(object)?;
    }
    let (again, whole) = (session.link(other.options, &other.entry)?, other.of(&objects)?);
    assert_eq!((again.file, again.findings), (whole.file, whole.findings));
    compare_map(&program, &objects);
    // each object is in the program, the first one at its beginning
    for object in &objects {
        assert!(!places(&program.file, object)?.is_empty());
    }
    thread::scope(|scope| {
        for object in &objects {
            scope.spawn(|| compare_listing(object));
        }
    });
    assert_eq!(from_gnu(b"short", 0).unwrap_err().fault, 11);
    fs::write(out, &program.file)?;
    io::stdout().write_all(&program.report)?;
    show_findings(&program, paths);
    Ok(program.status)
}

fn main() {
    let words: Vec<String> = env::args().skip(1).collect();
    let status = link(&words[0], &words[1..]).unwrap_or_else(|error| {
        eprintln!("{error}");
        2
    });
    process::exit(status as i32);
}
