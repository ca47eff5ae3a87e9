//! Faults of calls, as errors.
use std::{error, fmt};

use crate::declared::text;
use crate::{Answer, Result};

/// Why a call gives nothing: the number of the fault, of the object, edit, line or byte, and of the word or column, as in
/// `struct v7_answer`.
#[derive(Clone, Copy, Debug, PartialEq, Eq)]
pub struct Fault {
    pub fault: u32,
    pub place: usize,
    pub word: u32,
}

impl fmt::Display for Fault {
    fn fmt(&self, f: &mut fmt::Formatter<'_>) -> fmt::Result {
        write!(f, "{} (fault {} at {}, word {})", text(self.fault), self.fault, self.place, self.word)
    }
}

impl error::Error for Fault {}

macro_rules! faults_of {
    ($($answer:ty),*) => {$(
        impl From<&$answer> for Fault {
            fn from(answer: &$answer) -> Self {
                Fault { fault: answer.fault, place: answer.place, word: answer.word }
            }
        }
    )*};
}

faults_of!(Answer, Result);
