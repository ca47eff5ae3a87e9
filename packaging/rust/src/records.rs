//! What a link is asked for, and what the calls give. Bits, kinds and statuses are those of v7.h.
use v7_sys::{Finding, FindingPlace, MapHead, MapLimit, MapName, MapObject, MapUse, Name};

/// What a link is asked for: options, a bit each, as `raw::V7_STRIP`; the name of the entry point; and names that are forced.
#[derive(Clone, Debug, Default, PartialEq, Eq)]
pub struct Link {
    pub options: u32,
    pub entry: Vec<u8>,
    pub forced: Vec<Name>,
}

/// What a link gives. The status is 1 if there is something to report.
#[derive(Clone, Debug, Default, PartialEq, Eq)]
pub struct Program {
    pub status: u32,
    pub file: Vec<u8>,
    /// The lines of the report.
    pub report: Vec<u8>,
    /// The names of the report.
    pub findings: Vec<Finding>,
    /// The objects of each finding; empty if a session is linked.
    pub places: Vec<FindingPlace>,
}

/// The map of a link, made or refused.
#[derive(Clone, Debug, Default, PartialEq, Eq)]
pub struct Map {
    pub status: u32,
    pub head: MapHead,
    pub objects: Vec<MapObject>,
    pub names: Vec<MapName>,
    pub uses: Vec<MapUse>,
    pub limits: Vec<MapLimit>,
}

/// What is wrong or odd in a file, at which byte, and in which part and word of it, as in `raw::Remark`.
#[derive(Clone, Debug, PartialEq, Eq)]
pub struct Remark {
    pub kind: u32,
    pub byte: usize,
    pub text: String,
    pub part: u32,
    pub word: u32,
}
