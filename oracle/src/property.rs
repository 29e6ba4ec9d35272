//! Stand-in for boa's property keys: three kinds of key around a 30-bit id.

const ID_BITS: u32 = 30;

#[derive(Debug, Clone, PartialEq, Eq, Hash)]
pub enum PropertyKey {
    String(u32),
    Symbol(u32),
    Index(u32),
}

impl PropertyKey {
    /// The key of the number kind * 2^30 + id; kind 3 is none.
    pub fn from_number(number: u32) -> Option<Self> {
        let id = number & ((1 << ID_BITS) - 1);
        match number >> ID_BITS {
            0 => Some(Self::String(id)),
            1 => Some(Self::Symbol(id)),
            2 => Some(Self::Index(id)),
            _ => None,
        }
    }

    pub fn number(&self) -> u32 {
        match self {
            Self::String(id) => *id,
            Self::Symbol(id) => (1 << ID_BITS) + id,
            Self::Index(id) => (2 << ID_BITS) + id,
        }
    }
}
