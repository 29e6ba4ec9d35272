//! The refusals that a driver without an image can give, with their numbers.

#[derive(Debug, Clone, Copy, PartialEq, Eq)]
pub enum Refusal {
    BadKey = 2,
    BadAttributes = 3,
    NoShape = 4,
    Present = 5,
    Absent = 6,
    BadLine = 14,
}
