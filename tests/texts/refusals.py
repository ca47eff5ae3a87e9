"""Searches the code for lines that could report `no memory` although no request was refused. Such a fault holds a `Refused`, which is
made of the error of a request. So no line of a crate makes an `AllocError` or an `AllocFailed`, names the kind `OutOfMemory` or an error
by its number, or is unsafe; and only the known lines ask what an error reports. It also searches for lines that could report the fault of a
device that did not fail, or of a path of which the system said nothing: wires alone make a `DeviceFault`, and only the known lines put a
device on a wire, ask the system for a path, make an error of `io` or a `PathFault` of one, or say that a script failed. Each known line
is there as often as it is listed.

tier: text, 1 seconds; for: crates
"""
import glob
import re
from collections import Counter

from tests.lib.compare import same
from tests.lib.files import read

# the field of `Refused`; what knows a refusal by its kind alone: errors of `io`, of clap, and of a writer in memory; and a box that is
# made of its pointer again
KNOWN = [
    "crates/aout_core/src/refused.rt: error: AllocError,",
    "crates/aout_core/src/refused.rt: pub fn reported_by(error: &io::Error) -> Option<Refused> {",
    "crates/aout_core/src/refused.rt: io::ErrorKind::OutOfMemory => Some(Refused { error: AllocError }),",
    "crates/host/src/held.rt: let _ = match Refused::reported_by(&error) {",
    "crates/host/src/disk_folders.rt: match Refused::reported_by(error) {",
    "crates/command_words/src/fault.rt: ErrorKind::OutOfMemory => WordsFault::Memory(Refused::from(AllocError)),",
    "crates/libv7/src/encoding.rt: Err(_) => Err(AllocError),",
    "crates/libv7/src/loose.rt: unsafe { Box::from_raw(alloc, at) }",
]
# the lines that put a device on a wire, whose fault is then one of that device
WIRES = [
    "crates/v7/src/terminal.rt: let mut output = Wire::new(BlockWriter::new(Answers::new(io::writer(rt), &answer)));",
    "crates/v7tools/src/files/commands.rt: let mut wire = Wire::new(source);",
    "crates/v7tools/src/session/command.rt: let mut wire = Wire::new(source);",
    "crates/host/src/sources.rt: let mut source = Wire::new(source);",
    "crates/v7tools/src/session/command.rt: let mut script = Script::new(setting.alloc, Wire::new(reader))?;",
    "crates/v7tools/src/link/command.rt: inputs.push((path, Wire::new(source))).unwrap();",
    "crates/v7tools/src/program.rt: output: Wire::new(BlockWriter::new(io::writer(rt))),",
    "crates/v7tools/src/program.rt: error: Wire::new(StandardError::new(rt)),",
    "crates/libv7/src/encoding.rt: let mut wire = Wire::new(Vec::with_capacity(alloc, size)?);",
    "crates/libv7/src/encoding.rt: let mut wire = Wire::new(Vec::new(alloc));",
    "crates/libv7/src/file_calls.rt: let mut wire = Wire::new(Vec::new(alloc));",
    "crates/libv7/src/file_calls.rt: let mut wire = Wire::new(Vec::new(alloc));",
    "crates/host/src/disk.rt: let mut out = Wire::new(PieceWriter::new(device, replaces));",
    "crates/host/src/disk.rt: Ok(device) => store_text_on(text, &mut Wire::new(PieceWriter::new(device, replaces))),",
    "crates/host/src/shown.rt: output: Wire::new(io::writer(rt)),",
    "crates/host/src/shown.rt: error: Wire::new(StandardError::new(rt)),",
]
# the lines that make a `PathFault`, or may by `?`; those that make an error of `io`, for a device that takes nothing and one that takes
# text alone; and the one that says that a script failed
PATHS = [
    "crates/host/src/path_fault.rt: pub struct PathFault(());",
    "crates/host/src/path_fault.rt: PathFault(())",
    "crates/host/src/path_fault.rt: PathFault(())",
    "crates/host/src/file_system.rt: NotCreated(PathFault),",
    "crates/host/src/file_system.rt: fn open(&mut self, path: &str) -> Result<Self::Source, PathFault>",
    "crates/host/src/disk.rt: fn open(&mut self, path: &str) -> Result<H::File, PathFault> {",
    "crates/host/src/disk.rt: return Err(PathFault::from(kind));",
    "crates/host/src/disk.rt: Err(error) => Found::Unknown(PathFault::from(error)),",
    "crates/host/src/disk.rt: Err(error) => Stored::NotCreated(PathFault::from(error)),",
    "crates/host/src/disk.rt: Err(error) => Stored::NotCreated(PathFault::from(error)),",
    "crates/host/src/pieces.rt: return Err(io::Error::from(ErrorKind::WriteZero));",
    "crates/command_words/src/block_writer.rt: return Err(io::Error::from(ErrorKind::WriteZero));",
    "crates/host/src/standard_error.rt: Err(_) => Err(io::Error::from(ErrorKind::InvalidData)),",
    "crates/v7tools/src/fault.rt: ScriptFailed,",
    "crates/v7tools/src/session/script.rt: Err(Stop::ReadFailed) => Err(CliFault::ScriptFailed),",
]
# the lines that ask the system for a path
SYSTEM = [
    "crates/host/src/disk.rt: let kind = fs::symlink_metadata(rt, path)?.file_type();",
    "crates/host/src/disk.rt: let target = fs::metadata(rt, path)?.file_type();",
    "crates/host/src/disk.rt: Ok(fs::open(self.rt, path)?)",
    "crates/host/src/disk.rt: match fs::metadata(self.rt, path) {",
    "crates/host/src/disk.rt: store_made(file, fs::create(self.rt, path), replaces)",
    "crates/host/src/disk.rt: store_text_made(text, fs::create(self.rt, path), replaces)",
    "crates/host/src/held.rt: let folder = fs::open(rt, \"/\")?;",
    "crates/host/src/disk_folders.rt: match fs::symlink_metadata(rt, path_in(alloc, path, name.as_str())?.as_str()) {",
    "crates/host/src/disk_folders.rt: let names = BufReader::new(alloc, rt.open_dir(path)?)?;",
    "crates/host/src/disk_folders.rt: match fs::symlink_metadata(self.rt, path) {",
]
# tests make faults of each kind, and devices that fail in each way
TESTS = ("crates/device_tests/", "crates/aout_core/src/samples.rt")
# the name of a type: what a result, a conversion or an `Option` may hold, what a function takes or returns, whose function is called
TYPE = re.compile(r"(, |From<|Option<)AllocError>|-> AllocError\b|for AllocError \{|\bfn .*\w: AllocError\b|AllocError::from\b")
MADE = re.compile(r"\b(AllocError\b|AllocFailed\s*\{|OutOfMemory\b|reported_by\b|from_raw_os_error\b|Wire::new\(|unsafe\s*\{|"
                  r"unsafe (fn|impl)\b|(NotCreated|Found::Unknown)\b(?!\(_\))|PathFault(\(|::|>)|ScriptFailed\b(?! =>))|"
                  r"(?<!\w)Error::(from|new|other)\(|ErrorKind::\w+\.into\(|\bfs::\w+\(|\bopen_dir\(")
# lines that make such an error, and lines that only pass one on
BAD = ["Err(AllocError)", "AllocFailed { value: 1 }", "io::Error::from(io::ErrorKind::OutOfMemory)", "Refused::reported_by(&full)",
       "Wire::new(&mut [][..])", "unsafe { f() }", "Err(Error::other(text))", "Stored::NotCreated(error.into())", "PathFault::from(error)"]
GOOD = ["fn f(alloc: Global) -> Result<u8, AllocError>", "impl From<AllocError> for Fault {", "Err(AllocError::from(refused))",
        "// Err(AllocError)", "Stored::NotCreated(_) => 1,", "use host::PathFault;"]


def makes(line):
    """Whether a line makes the error of a request for memory, a wire, or one of the other faults."""
    code = line.split("//")[0].strip()
    return not re.match(r"ghost |ensures |(pub )?use (?!.*(AllocError as|OutOfMemory))", code) and bool(MADE.search(TYPE.sub("", code)))


def main():
    same("lines that are planted", [line for line in BAD + GOOD if makes(line)], BAD)
    paths = [path for path in glob.glob("crates/*/src/**/*.rt", recursive=True) if not path.startswith(TESTS)]
    found = Counter(f"{path}: {line.strip()}" for path in paths for line in read(path).split("\n") if makes(line))
    known = Counter(KNOWN + WIRES + PATHS + SYSTEM)
    made = "lines that make the error of a request for memory or of a path, or put a device on a wire"
    same(made, sorted((found - known).elements()), [])
    same("known lines that are gone", sorted((known - found).elements()), [])
    print("no line makes the error of a request for memory or of a path, or puts a device of its own on a wire")


if __name__ == "__main__":
    main()
