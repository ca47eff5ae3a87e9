//! Fields of records as types of Rust. Each has the bytes that it has in C.
use std::fmt;

/// A name, filled up with NULs.
#[repr(transparent)]
#[derive(Clone, Copy, Default, PartialEq, Eq, PartialOrd, Ord, Hash)]
pub struct Name(pub [u8; 8]);

impl Name {
    /// The bytes before the first NUL.
    pub fn as_bytes(&self) -> &[u8] {
        self.0.split(|byte| *byte == 0).next().unwrap_or_default()
    }
}

impl From<&str> for Name {
    /// Cuts a name after eight bytes, as the linker does.
    fn from(name: &str) -> Self {
        let mut bytes = [0; 8];
        bytes.iter_mut().zip(name.bytes()).for_each(|(to, byte)| *to = byte);
        Name(bytes)
    }
}

impl fmt::Display for Name {
    fn fmt(&self, f: &mut fmt::Formatter<'_>) -> fmt::Result {
        String::from_utf8_lossy(self.as_bytes()).fmt(f)
    }
}

impl fmt::Debug for Name {
    fn fmt(&self, f: &mut fmt::Formatter<'_>) -> fmt::Result {
        write!(f, "Name(\"{}\")", self.as_bytes().escape_ascii())
    }
}

/// The number of an object, counted from 0, or that there is none.
#[repr(transparent)]
#[derive(Clone, Copy, PartialEq, Eq)]
pub struct Number(usize);

impl Number {
    pub fn get(self) -> Option<usize> {
        Some(self.0).filter(|number| *number != usize::MAX)
    }
}

impl fmt::Debug for Number {
    fn fmt(&self, f: &mut fmt::Formatter<'_>) -> fmt::Result {
        self.get().fmt(f)
    }
}

impl Default for Number {
    /// No object.
    fn default() -> Self {
        Number(usize::MAX)
    }
}
