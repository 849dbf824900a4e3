//! "A set is 64 bits, bit q for node q, nodes numbered from 0."

pub type Set = u64;

pub fn only(q: usize) -> Set {
    1 << q
}

pub fn has(set: Set, q: usize) -> bool {
    set & only(q) != 0
}

pub fn size(set: Set) -> u32 {
    set.count_ones()
}

pub fn inside(part: Set, whole: Set) -> bool {
    part & !whole == 0
}

/// all nodes of N
pub fn all(n: usize) -> Set {
    if n < 64 {
        only(n) - 1
    } else {
        Set::MAX
    }
}

/// the nodes below n with a property
pub fn those(n: usize, property: impl Fn(usize) -> bool) -> Set {
    (0..n).filter(|&q| property(q)).fold(0, |set, q| set | only(q))
}

pub fn nodes(set: Set) -> impl Iterator<Item = usize> {
    (0..64).filter(move |&q| has(set, q))
}

/// "Numbers of several bytes stand highest byte first."
pub fn number(bytes: &[u8]) -> u64 {
    bytes.iter().fold(0, |sum, &byte| sum << 8 | u64::from(byte))
}
