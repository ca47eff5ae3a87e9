//! The declarations of v7.h, made of it by tools/faces.py.
use crate::{Name, Number};
use std::ffi::c_void;
// enum v7_fault
pub const V7_NO_FAULT: u32 = 0; pub const V7_NO_OPTION: u32 = 1; pub const V7_EXCLUDED: u32 = 2; pub const V7_LONG_NAME: u32 = 3;
pub const V7_CUT_NAMES: u32 = 4; pub const V7_MANY_NAMES: u32 = 5; pub const V7_TOO_LONG: u32 = 6; pub const V7_SHORT_STRUCT: u32 = 7;
pub const V7_NO_SESSION: u32 = 8; pub const V7_NO_WANT: u32 = 9; pub const V7_SESSION_OPEN: u32 = 10; pub const V7_SHORT_HEADER: u32 = 11;
pub const V7_BAD_MAGIC: u32 = 12; pub const V7_ODD_SIZE: u32 = 13; pub const V7_TRUNCATED: u32 = 14; pub const V7_NOT_AN_OBJECT: u32 = 21;
pub const V7_NO_RELOCATION: u32 = 22; pub const V7_BAD_RELOCATION: u32 = 23; pub const V7_BAD_SYMBOL_NUMBER: u32 = 24;
pub const V7_TEXT_FULL: u32 = 31; pub const V7_DATA_FULL: u32 = 32; pub const V7_BSS_FULL: u32 = 33; pub const V7_NAMES_FULL: u32 = 34;
pub const V7_NOTHING: u32 = 35; pub const V7_NOT_KEPT: u32 = 36; pub const V7_DOES_NOT_FIT: u32 = 41;
pub const V7_TOO_MANY_SYMBOLS: u32 = 42; pub const V7_SYMBOL_NUMBER: u32 = 43; pub const V7_NO_MEMORY: u32 = 50;
pub const V7_NO_ROOM: u32 = 60; pub const V7_NO_COLUMN: u32 = 61; pub const V7_NOT_OCTAL: u32 = 62; pub const V7_TOO_LARGE: u32 = 63;
pub const V7_BAD_NAME: u32 = 64; pub const V7_WRONG_ADDRESS: u32 = 65; pub const V7_WRONG_NUMBER: u32 = 66;
pub const V7_TOO_MANY_WORDS: u32 = 67; pub const V7_TABLE_FULL: u32 = 68; pub const V7_NO_SECTION: u32 = 69;
pub const V7_UNKNOWN_WORD: u32 = 70; pub const V7_OUT_OF_ORDER: u32 = 71; pub const V7_TOO_LATE: u32 = 72;
pub const V7_AFTER_TABLE: u32 = 73; pub const V7_NO_MAGIC: u32 = 74; pub const V7_ODD_BSS: u32 = 75; pub const V7_LONG_SYMBOL: u32 = 76;
pub const V7_EXTRA_NUMBER: u32 = 77; pub const V7_STRAY_BYTE: u32 = 78; pub const V7_AFTER_END: u32 = 79; pub const V7_NO_END: u32 = 80;
pub const V7_BAD_STRINGS: u32 = 81; pub const V7_OVERLAY: u32 = 82; pub const V7_BAD_PLACE: u32 = 83; pub const V7_STAB: u32 = 84;
pub const V7_DESCRIPTION: u32 = 85; pub const V7_LINKED: u32 = 86; pub const V7_ALIKE_NAMES: u32 = 87; pub const V7_STAB_WORD: u32 = 88;
pub const V7_LOCAL_WORD: u32 = 89;
// enum v7_part
pub const V7_TEXT_PART: u32 = 1; pub const V7_DATA_PART: u32 = 2; pub const V7_BSS_PART: u32 = 3; pub const V7_SYMBOLS_PART: u32 = 4;
// enum v7_nm_option
pub const V7_NM_EXTERNAL: u32 = 1; pub const V7_NM_BY_VALUE: u32 = 2; pub const V7_NM_TABLE_ORDER: u32 = 4;
pub const V7_NM_REVERSE: u32 = 8; pub const V7_NM_UNDEFINED: u32 = 16;
// enum v7_gnu_option
pub const V7_DROP_DEBUGGER: u32 = 1; pub const V7_DROP_UNUSED: u32 = 2; pub const V7_DROP_LOCALS: u32 = 4;
// enum v7_remark_kind
pub const V7_REMARK_SHORT_HEADER: u32 = 1; pub const V7_REMARK_BAD_MAGIC: u32 = 2; pub const V7_REMARK_ODD_SIZE: u32 = 3;
pub const V7_REMARK_TRUNCATED: u32 = 4; pub const V7_REMARK_BAD_RELOCATION: u32 = 5; pub const V7_REMARK_BAD_SYMBOL_NUMBER: u32 = 6;
pub const V7_REMARK_MORE_BAD_WORDS: u32 = 7; pub const V7_REMARK_IGNORED_ENTRY: u32 = 8; pub const V7_REMARK_IGNORED_WORD: u32 = 9;
pub const V7_REMARK_BYTES_AFTER_TABLE: u32 = 10; pub const V7_REMARK_IGNORED_RELOCATION_BITS: u32 = 11;
pub const V7_REMARK_OUTSIDE_REFERENCE: u32 = 12; pub const V7_REMARK_EMPTY_NAME: u32 = 13; pub const V7_REMARK_UNPRINTABLE_NAME: u32 = 14;
pub const V7_REMARK_BYTES_AFTER_NAME: u32 = 15; pub const V7_REMARK_REPEATED_NAME: u32 = 16;
pub const V7_REMARK_IGNORED_TYPE_BITS: u32 = 17; pub const V7_REMARK_UNKNOWN_TYPE: u32 = 18; pub const V7_REMARK_ODD_COMMON: u32 = 19;
pub const V7_REMARK_OUTSIDE_VALUE: u32 = 20; pub const V7_REMARK_RELOCATED_FIRST_WORD: u32 = 21;
pub const V7_REMARK_UNSUITABLE_PC_BIT: u32 = 22; pub const V7_REMARK_CUT_INSTRUCTION: u32 = 23;
pub const V7_REMARK_NO_INSTRUCTION: u32 = 24; pub const V7_REMARK_BRANCH_OUTSIDE: u32 = 25; pub const V7_REMARK_BRANCH_WITHIN: u32 = 26;
pub const V7_REMARK_UNSUITABLE_REFERENCE: u32 = 27; pub const V7_REMARK_UNSUITABLE_ADDRESS: u32 = 28;
pub const V7_REMARK_ABSOLUTE_TEXT: u32 = 29; pub const V7_REMARK_NO_ROOM: u32 = 30; pub const V7_REMARK_UNUSED_NAME: u32 = 31;
pub const V7_REMARK_UNSUITABLE_JUMP: u32 = 32; pub const V7_REMARK_ODD_OPERAND: u32 = 33; pub const V7_REMARK_NO_END: u32 = 34;
pub const V7_REMARK_SIMILAR_NAME: u32 = 35; pub const V7_REMARK_UNSUITABLE_LINK: u32 = 36;
// enum v7_link_option
pub const V7_RELOCATABLE: u32 = 1; pub const V7_STRIP: u32 = 2; pub const V7_EXTERNALS: u32 = 4; pub const V7_NOT_L: u32 = 8;
pub const V7_PURE: u32 = 16; pub const V7_SPLIT: u32 = 32; pub const V7_FORCE_COMMONS: u32 = 64;
// enum v7_want
pub const V7_REPORT: u32 = 1; pub const V7_FINDINGS: u32 = 2; pub const V7_PLACES: u32 = 4; pub const V7_MAP: u32 = 8;
// enum v7_finding_kind
pub const V7_MULTIPLY_DEFINED: u32 = 1; pub const V7_RESERVED_NAME: u32 = 2; pub const V7_ENTRY_NOT_IN_TEXT: u32 = 3;
pub const V7_UNDEFINED_NAME: u32 = 4;
// enum v7_map_name_state
pub const V7_NAME_IS_PLACED: u32 = 1; pub const V7_NAME_IS_UNDEFINED: u32 = 2; pub const V7_NAME_IS_MULTIPLE: u32 = 4;
// enum v7_map_use_kind
pub const V7_DEFINES: u32 = 1; pub const V7_MAKES_COMMON: u32 = 2; pub const V7_WANTS: u32 = 3; pub const V7_FORCES: u32 = 4;
pub const V7_TEXT_WORD: u32 = 5; pub const V7_DATA_WORD: u32 = 6; pub const V7_TEXT_NEAR: u32 = 7; pub const V7_DATA_NEAR: u32 = 8;
// enum v7_map_limit_kind
pub const V7_LIMIT_TEXT: u32 = 1; pub const V7_LIMIT_DATA: u32 = 2; pub const V7_LIMIT_BSS: u32 = 3; pub const V7_LIMIT_END: u32 = 4;
pub const V7_LIMIT_SYMBOLS: u32 = 5; pub const V7_LIMIT_NUMBER: u32 = 6; pub const V7_LIMIT_NAMES: u32 = 7;
// enum v7_limit
pub const V7_MAX_FILE: u32 = 327684;
// enum v7_relocation
pub const V7_NUMBER: u16 = 0; pub const V7_IN_TEXT: u16 = 2; pub const V7_IN_DATA: u16 = 4; pub const V7_IN_BSS: u16 = 6;
pub const V7_FROM_PC: u16 = 1;
// enum v7_segment
pub const V7_UNDEFINED: u16 = 0; pub const V7_ABSOLUTE: u16 = 1; pub const V7_TEXT: u16 = 2; pub const V7_DATA: u16 = 3;
pub const V7_BSS: u16 = 4; pub const V7_EXTERNAL: u16 = 32;
/// `struct v7_answer`
#[repr(C)] #[derive(Clone, Copy, Debug, Default, PartialEq, Eq)]
pub struct Answer { pub fault: u32, pub word: u32, pub place: usize, pub size: usize, pub report_size: usize }
/// `struct v7_remark`
#[repr(C)] #[derive(Clone, Copy, Debug, Default, PartialEq, Eq)]
pub struct Remark { pub place: usize, pub text: usize, pub text_size: usize, pub kind: u32, pub part: u32, pub word: u32 }
/// `struct v7_place`
#[repr(C)] #[derive(Clone, Copy, Debug, Default, PartialEq, Eq)]
pub struct Place { pub text: u16, pub data: u16, pub has_data: u16 }
/// `struct v7_slice`
#[repr(C)] #[derive(Clone, Copy, Debug)]
pub struct Slice { pub bytes: *const u8, pub size: usize }
/// `struct v7_finding`
#[repr(C)] #[derive(Clone, Copy, Debug, Default, PartialEq, Eq)]
pub struct Finding { pub name: Name, pub kind: u32 }
/// `struct v7_finding_place`
#[repr(C)] #[derive(Clone, Copy, Debug, Default, PartialEq, Eq)]
pub struct FindingPlace { pub first: Number, pub further: Number }
/// `struct v7_map_head`
#[repr(C)] #[derive(Clone, Copy, Debug, Default, PartialEq, Eq)]
pub struct MapHead {
    pub text_end: u64, pub data_start: u64, pub data_end: u64, pub bss_start: u64, pub bss_end: u64, pub place: usize, pub fault: u32,
    pub state: u32, pub magic: u16, pub entry_point: u16, pub entry_name: Name
}
/// `struct v7_map_object`
#[repr(C)] #[derive(Clone, Copy, Debug, Default, PartialEq, Eq)]
pub struct MapObject {
    pub text: u64, pub data: u64, pub bss: u64, pub symbols: usize, pub text_size: u16, pub data_size: u16, pub bss_size: u16
}
/// `struct v7_map_name`
#[repr(C)] #[derive(Clone, Copy, Debug, Default, PartialEq, Eq)]
pub struct MapName {
    pub name: Name, pub definer: Number, pub next_definer: Number, pub user: Number, pub state: u32, pub r#type: u16, pub value: u16
}
/// `struct v7_map_use`
#[repr(C)] #[derive(Clone, Copy, Debug, Default, PartialEq, Eq)]
pub struct MapUse {
    pub address: u64, pub object: Number, pub name: usize, pub label: Name, pub kind: u32, pub offset: u16, pub line: u16, pub beyond: u16,
    pub is_labelled: u16, pub inside: u16
}
/// `struct v7_map_limit`
#[repr(C)] #[derive(Clone, Copy, Debug, Default, PartialEq, Eq)]
pub struct MapLimit { pub used: u64, pub most: u64, pub kind: u32 }
/// `struct v7_map`
#[repr(C)] #[derive(Clone, Copy, Debug)]
pub struct Map {
    pub head: MapHead, pub object_count: usize, pub name_count: usize, pub use_count: usize, pub limit_count: usize,
    pub objects: *mut MapObject, pub object_room: usize, pub names: *mut MapName, pub name_room: usize, pub uses: *mut MapUse,
    pub use_room: usize, pub limits: *mut MapLimit, pub limit_room: usize
}
/// `struct v7_request`
#[repr(C)] #[derive(Clone, Copy, Debug)]
pub struct Request {
    pub size: usize, pub options: u32, pub wants: u32, pub entry: Slice, pub forced: Slice, pub objects: *const Slice,
    pub object_count: usize
}
/// `struct v7_result`
#[repr(C)] #[derive(Clone, Copy, Debug)]
pub struct Result {
    pub size: usize, pub fault: u32, pub word: u32, pub place: usize, pub file_size: usize, pub report_size: usize, pub file: *mut u8,
    pub file_room: usize, pub report: *mut u8, pub report_room: usize, pub finding_count: usize, pub findings: *mut Finding,
    pub finding_room: usize, pub place_count: usize, pub places: *mut FindingPlace, pub place_room: usize, pub map: Map
}
/// `struct v7_session`
#[repr(C)] #[derive(Debug)]
pub struct Session { pub is_open: u32, pub state: *mut c_void }
/// `struct v7_word`
#[repr(C)] #[derive(Clone, Copy, Debug, Default, PartialEq, Eq)]
pub struct Word { pub value: u16, pub reloc: u16 }
/// `struct v7_symbol`
#[repr(C)] #[derive(Clone, Copy, Debug, Default, PartialEq, Eq)]
pub struct Symbol { pub name: Name, pub r#type: u16, pub value: u16 }
/// `struct v7_counts`
#[repr(C)] #[derive(Clone, Copy, Debug, Default, PartialEq, Eq)]
pub struct Counts { pub text: usize, pub data: usize, pub symbols: usize, pub bss: u32 }
/// `struct v7_header`
#[repr(C)] #[derive(Clone, Copy, Debug, Default, PartialEq, Eq)]
pub struct Header {
    pub magic: u16, pub text_size: u16, pub data_size: u16, pub bss_size: u16, pub symbol_size: u16, pub entry_point: u16, pub unused: u16,
    pub flag: u16
}
extern "C" {
    pub fn v7_version() -> u32;
    pub fn v7_check(bytes: *const u8, size: usize, answer: *mut Answer) -> u32;
    pub fn v7_strip(bytes: *const u8, size: usize, room: *mut u8, room_size: usize, answer: *mut Answer) -> u32;
    pub fn v7_nm(options: u32, bytes: *const u8, size: usize, room: *mut u8, room_size: usize, answer: *mut Answer) -> u32;
    pub fn v7_size(bytes: *const u8, size: usize, room: *mut u8, room_size: usize, answer: *mut Answer) -> u32;
    pub fn v7_disassemble(bytes: *const u8, size: usize, room: *mut u8, room_size: usize, answer: *mut Answer) -> u32;
    pub fn v7_disassemble_words(address: u16, words: *const u16, word_count: usize, room: *mut u8, room_size: usize, answer: *mut Answer) -> u32;
    pub fn v7_list(bytes: *const u8, size: usize, room: *mut u8, room_size: usize, answer: *mut Answer) -> u32;
    pub fn v7_from_listing(text: *const u8, size: usize, room: *mut u8, room_size: usize, answer: *mut Answer) -> u32;
    pub fn v7_from_gnu(options: u32, bytes: *const u8, size: usize, room: *mut u8, room_size: usize, answer: *mut Answer) -> u32;
    pub fn v7_remarks(bytes: *const u8, size: usize, texts: *mut u8, text_room: usize, remarks: *mut Remark, remark_room: usize, answer: *mut Answer) -> u32;
    pub fn v7_places(program: *const u8, program_size: usize, object: *const u8, object_size: usize, places: *mut Place, place_room: usize, answer: *mut Answer) -> u32;
    pub fn v7_run(request: *const Request, result: *mut Result) -> u32;
    pub fn v7_session_new(session: *mut Session, forced: *const u8, forced_size: usize, answer: *mut Answer) -> u32;
    pub fn v7_session_add(session: *mut Session, bytes: *const u8, size: usize, answer: *mut Answer) -> u32;
    pub fn v7_session_withdraw(session: *mut Session, answer: *mut Answer) -> u32;
    pub fn v7_session_link(session: *mut Session, request: *const Request, result: *mut Result) -> u32;
    pub fn v7_session_state(session: *mut Session, room: *mut u8, room_size: usize, answer: *mut Answer) -> u32;
    pub fn v7_session_free(session: *mut Session) -> u32;
    pub fn v7_make(text: *const Word, text_count: usize, data: *const Word, data_count: usize, bss: u32, symbols: *const Symbol, symbol_count: usize, room: *mut u8, room_size: usize, answer: *mut Answer) -> u32;
    pub fn v7_take_apart(bytes: *const u8, size: usize, text: *mut Word, text_room: usize, data: *mut Word, data_room: usize, symbols: *mut Symbol, symbol_room: usize, counts: *mut Counts, answer: *mut Answer) -> u32;
    pub fn v7_read(bytes: *const u8, size: usize, header: *mut Header, text: *mut Word, text_room: usize, data: *mut Word, data_room: usize, symbols: *mut Symbol, symbol_room: usize, counts: *mut Counts, answer: *mut Answer) -> u32;
}
/// What a fault means, as `v7_strerror` of v7.h says it.
pub(crate) fn text(fault: u32) -> &'static str {
    match fault {
        1 => "no such option", 2 => "options exclude each other", 3 => "the name of the entry point has more than 8 bytes",
        4 => "the size of the forced names is not a multiple of 8", 5 => "more than 64 names are forced",
        6 => "too many words, bytes of bss or symbols", 7 => "a struct is too short", 8 => "no session", 9 => "no such want",
        10 => "a session already", 11 => "short header", 12 => "bad magic number", 13 => "odd size", 14 => "truncated",
        21 => "not an object", 22 => "no relocation", 23 => "bad relocation", 24 => "bad symbol number", 31 => "text full",
        32 => "data full", 33 => "bss full", 34 => "names full", 35 => "nothing to withdraw", 36 => "not kept by a session",
        41 => "does not fit", 42 => "too many symbols", 43 => "symbol number too large", 50 => "no memory", 60 => "no room",
        61 => "a column is missing", 62 => "not an octal number", 63 => "over 177777", 64 => "bad byte in a name",
        65 => "the address does not follow", 66 => "the number does not follow", 67 => "more than 32767 words",
        68 => "more than 5461 symbols", 69 => "text, data or symbols is missing", 70 => "unknown word",
        71 => "text, data and symbols are not in this order", 72 => "magic and flag come before text, data and symbols",
        73 => "only symbols can follow symbols", 74 => "no such magic number", 75 => "odd size of bss", 76 => "more than 8 bytes in a name",
        77 => "one number too many", 78 => "a control character", 79 => "only comments can follow end",
        80 => "the line end is missing: the listing was cut", 81 => "the strings have a length under 4",
        82 => "a symbol belongs to an overlay", 83 => "a symbol has its name at no place of the strings",
        84 => "a symbol is for a debugger", 85 => "a symbol has a description, and is not for a debugger", 86 => "a linked program",
        87 => "two names are equal in eight bytes", 88 => "a word refers to a symbol for a debugger",
        89 => "a word refers to a local that is dropped", _ => "unknown fault"
    }
}
