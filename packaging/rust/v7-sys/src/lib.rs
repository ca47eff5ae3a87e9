//! Declarations of v7.h: the calls of libv7, their records and their numbers.
use std::{mem, ptr};

#[rustfmt::skip]
mod declared;
mod fault;
mod values;

pub use declared::*;
pub use fault::Fault;
pub use values::{Name, Number};

impl Slice {
    /// The bytes of items without padding. Its pointer is good as long as they are lent.
    pub fn of<T: Copy>(items: &[T]) -> Self {
        Slice { bytes: items.as_ptr().cast(), size: mem::size_of_val(items) }
    }
}

impl Default for Map {
    /// Without buffers.
    fn default() -> Self {
        // SAFETY: 0 is a number or a null pointer in each field
        unsafe { mem::zeroed() }
    }
}

impl Default for Result {
    /// Without buffers.
    fn default() -> Self {
        // SAFETY: 0 is a number or a null pointer in each field
        Result { size: mem::size_of::<Result>(), ..unsafe { mem::zeroed() } }
    }
}

impl Default for Session {
    /// Without a session that is begun.
    fn default() -> Self {
        Session { is_open: 0, state: ptr::null_mut() }
    }
}

/// `V7_REFERS_TO`: the relocation word of a word that refers to the symbol of this number, from 0 to 4,095, an undefined external.
pub const fn v7_refers_to(number: u16) -> u16 {
    8 + 16 * number
}
