//! A stand-in for the crate `subtle`: whether two byte strings are equal. Only what felica-rs uses. It
//! takes no care of time, which no answer depends on.

pub struct Choice(bool);

impl From<Choice> for bool {
    fn from(choice: Choice) -> bool {
        choice.0
    }
}

pub trait ConstantTimeEq {
    fn ct_eq(&self, other: &Self) -> Choice;
}

impl ConstantTimeEq for [u8] {
    fn ct_eq(&self, other: &[u8]) -> Choice {
        Choice(self == other)
    }
}
