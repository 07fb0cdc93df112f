//! Saying no: the number of a refusal, what it names, its mark, and its value.

use std::fmt;

#[derive(Clone, Copy, Debug, PartialEq, Eq)]
pub struct Refusal {
    /// 1 to 19.
    pub number: u32,
    /// A row or a position, both counted from 1; 0 where nothing is named.
    pub names: u32,
    /// 1 or 2 with number 11, otherwise 0.
    pub mark: u32,
    /// With number 11 how far it went beyond the limit, "0 for every other number".
    pub value: u32,
}

impl Refusal {
    /// A refusal that names nothing.
    pub fn plain(number: u32) -> Refusal {
        Refusal::naming(number, 0)
    }

    /// A refusal that names a row or a position.
    pub fn naming(number: u32, names: usize) -> Refusal {
        Refusal {
            number,
            names: names as u32,
            mark: 0,
            value: 0,
        }
    }
}

impl fmt::Display for Refusal {
    fn fmt(&self, f: &mut fmt::Formatter) -> fmt::Result {
        let Refusal {
            number,
            names,
            mark,
            value,
        } = self;
        write!(f, "refused {number} {names} {mark} {value}")
    }
}
