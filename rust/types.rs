//! What every file of this folder calls a letter and a refusal.

#![allow(dead_code)]

use std::fmt::{self, Display, Formatter};

/// A letter of a trace: signal k holds where bit k is set.
pub type Letter = u32;

/// Why an operation cannot answer: its number in the table of refusals and,
/// for some numbers, the place of the fault: a node, or a byte of the line.
#[derive(Clone, Copy, PartialEq, Eq, Debug)]
pub struct Refusal {
    pub number: u8,
    pub place: Option<usize>,
}

/// A refusal that is its number alone.
pub fn refused(number: u8) -> Refusal {
    Refusal {
        number,
        place: None,
    }
}

/// A refusal that carries a place.
pub fn refused_at(number: u8, place: usize) -> Refusal {
    Refusal {
        number,
        place: Some(place),
    }
}

/// As it is printed: the number and, where there is one, the place.
impl Display for Refusal {
    fn fmt(&self, out: &mut Formatter) -> fmt::Result {
        match self.place {
            None => write!(out, "{}", self.number),
            Some(place) => write!(out, "{} {}", self.number, place),
        }
    }
}
