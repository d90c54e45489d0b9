//! Kinds of grade. A smaller grade in Rust's order is a better one.

use std::cmp::Reverse;

pub trait Kind {
    type Grade: Copy + Ord;
    const BYTE: u8;
    const START: Self::Grade;
    fn join(a: Self::Grade, b: Self::Grade) -> Self::Grade;
    fn encode(grade: Self::Grade) -> u32;
    fn decode(code: u32) -> Option<Self::Grade>;
}

pub struct Tally;
pub struct Letter;
pub struct Odds;

impl Kind for Tally {
    type Grade = u32;
    const BYTE: u8 = b'T';
    const START: u32 = 0;
    fn join(a: u32, b: u32) -> u32 {
        a.saturating_add(b)
    }
    fn encode(grade: u32) -> u32 {
        grade
    }
    fn decode(code: u32) -> Option<u32> {
        Some(code)
    }
}

impl Kind for Letter {
    type Grade = u8;
    const BYTE: u8 = b'L';
    const START: u8 = 0;
    fn join(a: u8, b: u8) -> u8 {
        a.max(b)
    }
    fn encode(grade: u8) -> u32 {
        grade.into()
    }
    fn decode(code: u32) -> Option<u8> {
        u8::try_from(code).ok().filter(|&letter| letter < 5)
    }
}

impl Kind for Odds {
    type Grade = Reverse<u8>;
    const BYTE: u8 = b'O';
    const START: Reverse<u8> = Reverse(255);
    fn join(Reverse(a): Reverse<u8>, Reverse(b): Reverse<u8>) -> Reverse<u8> {
        Reverse((u16::from(a) * u16::from(b) / 255) as u8)
    }
    fn encode(Reverse(grade): Reverse<u8>) -> u32 {
        grade.into()
    }
    fn decode(code: u32) -> Option<Reverse<u8>> {
        u8::try_from(code).ok().map(Reverse)
    }
}
