//! What each attribute of each operator takes: values of a right shape, of a wrong type, out of range.

use super::rng::Rng;
use crate::plain::Profile;
use crate::text::Value;

/// What an attribute takes.
#[derive(Debug, Clone, Copy, PartialEq, Eq)]
pub enum Shape {
    /// ubyte in one of two ranges.
    E(u8, u8, u8, u8),
    /// ubyte or uint16 from..=to.
    N(u32, u32),
    /// uint16 pair, both at least 1, or real32 pair above zero.
    Sizes,
    /// Two ubyte, uint16, sint16 or finite real32.
    Point,
    /// Four ubyte, uint16 or sint16.
    Box,
    /// ubyte array of from..=to.
    A(usize, usize),
    /// ubyte 0..=21 or 96, or ubyte array of at least one.
    Media,
    /// ubyte, uint16 or uint32.
    Length,
    /// sint16.
    Signed,
}

/// Whether an attribute may be missing.
#[derive(Debug, Clone, Copy, PartialEq, Eq)]
pub enum Need {
    Must,
    May,
    Choice,
}

use Need::{Choice, May, Must};
use Shape::{Box, Length, Media, Point, Signed, Sizes, A, E, N};

/// Every attribute of every operator that has any, in class 1;1.
const SHAPES: [(u8, u16, Shape, Need); 49] = [
    (0x41, 134, E(0, 2, 0, 2), Must),
    (0x41, 137, Sizes, Must),
    (0x41, 143, E(0, 3, 0, 3), May),
    (0x43, 40, E(0, 3, 0, 3), Must),
    (0x43, 37, E(0, 12, 14, 16), Must),
    (0x43, 38, E(0, 6, 0, 6), May),
    (0x44, 49, N(1, 1), May),
    (0x47, 129, A(0, 1024), May),
    (0x48, 136, E(0, 0, 0, 0), Must),
    (0x48, 130, E(0, 1, 0, 1), Must),
    (0x5b, 139, A(1, 16), Must),
    (0x5c, 140, N(1, 0xffff), Must),
    (0x5e, 139, A(1, 16), Must),
    (0x63, 11, A(3, 3), Choice),
    (0x63, 9, E(0, 255, 0, 255), Choice),
    (0x63, 4, E(0, 0, 0, 0), Choice),
    (0x63, 8, Signed, Choice),
    (0x6a, 3, E(1, 2, 1, 2), Must),
    (0x6b, 76, Point, Must),
    (0x6c, 76, Point, Must),
    (0x79, 11, A(3, 3), Choice),
    (0x79, 9, E(0, 255, 0, 255), Choice),
    (0x79, 5, E(0, 0, 0, 0), Choice),
    (0x7a, 75, N(0, 0xffff), Must),
    (0x9b, 69, Point, Choice),
    (0x9b, 77, N(1, 0xffff), Choice),
    (0x9b, 80, E(0, 3, 0, 3), Choice),
    (0x9d, 69, Point, Choice),
    (0x9d, 77, N(1, 0xffff), Choice),
    (0x9d, 80, E(0, 3, 0, 3), Choice),
    (0xa0, 66, Box, Must),
    (0xb0, 100, E(0, 0, 0, 0), Must),
    (0xb0, 98, E(0, 2, 0, 2), Must),
    (0xb0, 108, N(1, 0xffff), Must),
    (0xb0, 107, N(1, 0xffff), Must),
    (0xb0, 103, Sizes, Must),
    (0xb1, 109, N(0, 0xffff), Must),
    (0xb1, 99, N(1, 0xffff), Must),
    (0xb1, 101, E(0, 0, 0, 0), Must),
    (0xb3, 100, E(0, 0, 0, 0), Must),
    (0xb3, 98, E(0, 2, 0, 2), Must),
    (0xb3, 108, N(1, 0xffff), Must),
    (0xb3, 107, N(1, 0xffff), Must),
    (0xb3, 103, Sizes, Must),
    (0xb3, 105, Signed, Must),
    (0xb3, 104, E(1, 2, 1, 2), Must),
    (0xb4, 109, N(0, 0xffff), Must),
    (0xb4, 99, N(1, 0xffff), Must),
    (0xb4, 101, E(0, 0, 0, 0), Must),
];

/// What class 2;1 has besides or in place of these.
const SHAPES_TWO: [(u8, u16, Shape, Need); 7] = [
    (0x43, 37, Media, May),
    (0x43, 39, A(0, 1024), May),
    (0x43, 40, E(0, 3, 0, 3), May),
    (0xb1, 110, E(1, 255, 1, 255), May),
    (0xb1, 111, Length, May),
    (0xb4, 110, E(1, 255, 1, 255), May),
    (0xb4, 111, Length, May),
];

/// Tags of the operator table of class 2;1; class 1;1 has all but 0x57.
pub const TAGS: [u8; 32] = [
    0x41, 0x42, 0x43, 0x44, 0x47, 0x48, 0x49, 0x57, 0x5b, 0x5c, 0x5d, 0x5e, 0x60, 0x61, 0x63, 0x6a, 0x6b, 0x6c, 0x79,
    0x7a, 0x84, 0x85, 0x86, 0x9b, 0x9d, 0xa0, 0xb0, 0xb1, 0xb2, 0xb3, 0xb4, 0xb5,
];

/// The tags of a class.
pub fn tags_of(profile: Profile) -> impl Iterator<Item = u8> {
    TAGS.into_iter().filter(move |&tag| tag != 0x57 || profile == Profile::Two)
}

/// The attributes of all operators of a class.
pub(super) fn shapes(profile: Profile) -> impl Iterator<Item = (u8, u16, Shape, Need)> {
    let own = if profile == Profile::Two { &SHAPES_TWO[..] } else { &[] };
    let same = move |s: &&(u8, u16, Shape, Need)| !own.iter().any(|o| (o.0, o.1) == (s.0, s.1));
    SHAPES.iter().filter(same).chain(own).copied()
}

/// The attributes of one operator.
pub fn shapes_of(profile: Profile, tag: u8) -> impl Iterator<Item = (u16, Shape, Need)> {
    shapes(profile).filter(move |s| s.0 == tag).map(|s| (s.1, s.2, s.3))
}

/// The shape of an attribute of an operator.
pub(super) fn shape_of(profile: Profile, tag: u8, number: u16) -> Option<Shape> {
    shapes_of(profile, tag).find(|s| s.0 == number).map(|s| s.1)
}

/// The number of any attribute, of both classes, those of patterns often.
pub(super) fn any_number(rng: &mut Rng) -> u16 {
    if rng.one_in(6) {
        rng.pick(&[8, 39, 104, 105, 110, 111])
    } else {
        SHAPES[rng.below(SHAPES.len())].1
    }
}

pub(super) fn number(kind: u8, n: u32) -> Value {
    Value { kind, numbers: vec![n], wide: false }
}

pub(super) fn array(bytes: &[u8], wide: bool) -> Value {
    let numbers = bytes.iter().map(|&b| b.into()).collect();
    Value { kind: 0xc8, numbers, wide: wide || bytes.len() > 255 }
}

/// A value that the shape takes, edges often.
pub(super) fn good_value(rng: &mut Rng, shape: Shape) -> Value {
    match shape {
        Media if rng.one_in(2) => good_value(rng, E(0, 21, 96, 96)),
        Media => good_value(rng, A(1, 1024)),
        Length => {
            let kind = rng.pick(&[0xc0, 0xc1, 0xc2]);
            any_value(rng, kind)
        }
        Signed => {
            let any = rng.draw() as u32 & 0xffff;
            number(0xc3, rng.pick(&[0, 1, 2, 0x7fff, 0x8000, 0xffff, any]))
        }
        E(a, b, c, d) => {
            let (from, to) = if rng.one_in(2) { (a, b) } else { (c, d) };
            let n = match rng.below(3) {
                0 => from,
                1 => to,
                _ => from + rng.below(usize::from(to - from) + 1) as u8,
            };
            number(0xc0, n.into())
        }
        N(from, to) => {
            let (kind, edges) = if rng.one_in(2) { (0xc0, [1, 2, 5, 255]) } else { (0xc1, [1, 256, 300, 65535]) };
            let n = if rng.one_in(5) { from } else { rng.pick(&edges) };
            number(kind, n.clamp(from, to))
        }
        Sizes if rng.one_in(2) => real_pair(rng, &ABOVE_ZERO),
        Sizes => {
            let numbers = vec![rng.pick(&[1, 256, 600, 65535]), rng.pick(&[1, 256, 600, 65535])];
            Value { kind: 0xd1, numbers, wide: false }
        }
        Point if rng.one_in(3) => real_pair(rng, &FINITE),
        Point | Box => {
            let (family, count) = if shape == Point { (0xd0, 2) } else { (0xe0, 4) };
            let kind = family + rng.pick(&[0u8, 1, 3]);
            let numbers = (0..count).map(|_| rng.draw() as u32).collect();
            Value { kind, numbers, wide: false }
        }
        A(from, to) => {
            let length = match rng.below(4) {
                0 => from,
                1 if to <= 16 || rng.one_in(20) => to,
                _ => from + rng.below((to - from).min(9) + 1),
            };
            let wide = rng.one_in(4);
            array(&rng.bytes(length), wide)
        }
    }
}

pub(super) fn takes_type(shape: Shape, kind: u8) -> bool {
    match shape {
        E(..) => kind == 0xc0,
        N(..) => kind == 0xc0 || kind == 0xc1,
        Sizes => [0xd1, 0xd5].contains(&kind),
        Point => [0xd0, 0xd1, 0xd3, 0xd5].contains(&kind),
        Box => [0xe0, 0xe1, 0xe3].contains(&kind),
        A(..) => kind == 0xc8,
        Media => kind == 0xc0 || kind == 0xc8,
        Length => [0xc0, 0xc1, 0xc2].contains(&kind),
        Signed => kind == 0xc3,
    }
}

/// Any value of one type.
pub(super) fn any_value(rng: &mut Rng, kind: u8) -> Value {
    let count = match kind {
        0xc0..=0xc5 => 1,
        0xd0..=0xd5 => 2,
        0xe0..=0xe5 => 4,
        _ => rng.pick(&[0, 1, 3, 4]),
    };
    let numbers = (0..count)
        .map(|_| match rng.below(4) {
            0 | 1 => rng.below(4) as u32,
            2 if kind & 7 == 5 => {
                let class = rng.pick(&CLASSES);
                real(rng, class)
            }
            _ => rng.draw() as u32,
        })
        .collect();
    Value { kind, numbers, wide: rng.one_in(3) }
}

pub(super) fn any_type(rng: &mut Rng) -> u8 {
    rng.pick(&[0xc0u8, 0xc8, 0xd0, 0xe0]) + rng.below(6) as u8
}

/// A value of a type the shape does not take.
pub(super) fn bad_type(rng: &mut Rng, shape: Shape) -> Value {
    // Half of them of the right family, where a mistake is easiest.
    let family = match shape {
        E(..) | N(..) | Media | Length | Signed => 0xc0,
        Sizes | Point => 0xd0,
        Box => 0xe0,
        A(..) => 0xc8,
    };
    loop {
        let kind = if rng.one_in(2) { family + rng.below(6) as u8 } else { any_type(rng) };
        if !takes_type(shape, kind) {
            return any_value(rng, kind);
        }
    }
}

/// A value of a right type but out of range, if there is any.
pub(super) fn bad_range(rng: &mut Rng, shape: Shape) -> Option<Value> {
    Some(match shape {
        E(0, 255, ..) | N(0, 0xffff) | Box | Length | Signed | A(0, _) => return None,
        Media if rng.one_in(2) => array(&[], rng.one_in(2)),
        Media => return bad_range(rng, E(0, 21, 96, 96)),
        E(a, b, c, d) => loop {
            let n = if rng.one_in(2) {
                rng.pick(&[b.wrapping_add(1), b.wrapping_add(1), d.wrapping_add(1), a.wrapping_sub(1)])
            } else {
                rng.draw() as u8
            };
            if !(a..=b).contains(&n) && !(c..=d).contains(&n) {
                break number(0xc0, n.into());
            }
        },
        N(from, to) => loop {
            let kind = rng.pick(&[0xc0, 0xc1]);
            let n = if to < 0xff { rng.pick(&[0, to + 1, 128, 255, 256, 65535]) } else { 0 };
            if !(from..=to).contains(&n) && (kind == 0xc1 || n < 256) {
                break number(kind, n);
            }
        },
        Point => bad_real_pair(rng, &FINITE),
        Sizes if rng.one_in(2) => bad_real_pair(rng, &ABOVE_ZERO),
        Sizes => {
            let numbers = rng.pick(&[[0, 1], [1, 0], [0, 0], [0, 600]]).to_vec();
            Value { kind: 0xd1, numbers, wide: false }
        }
        A(from, to) => {
            let length = if rng.one_in(2) { from - 1 } else { to + 1 };
            array(&rng.bytes(length), false)
        }
    })
}

// ---------------------------------------------------------------- reals

/// A kind of 32 bits read as a real, without its sign.
#[derive(Debug, Clone, Copy, PartialEq, Eq, PartialOrd, Ord)]
pub enum Size {
    Zero,
    Denormal,
    Normal,
    Infinite,
    NotANumber,
}

/// A kind of 32 bits read as a real, and whether its sign bit is set.
#[derive(Debug, Clone, Copy, PartialEq, Eq, PartialOrd, Ord)]
pub struct Class(pub Size, pub bool);

use Size::{Denormal, Infinite, Normal, NotANumber, Zero};

/// Every class.
pub const CLASSES: [Class; 10] = [
    Class(Zero, false),
    Class(Zero, true),
    Class(Denormal, false),
    Class(Denormal, true),
    Class(Normal, false),
    Class(Normal, true),
    Class(Infinite, false),
    Class(Infinite, true),
    Class(NotANumber, false),
    Class(NotANumber, true),
];

/// Those that a point takes, and those that a size takes.
const FINITE: [Class; 6] = [CLASSES[0], CLASSES[1], CLASSES[2], CLASSES[3], CLASSES[4], CLASSES[5]];
const ABOVE_ZERO: [Class; 2] = [CLASSES[2], CLASSES[4]];

/// The class of 32 bits.
pub fn class_of(bits: u32) -> Class {
    let size = match (bits >> 23 & 0xff, bits & 0x7f_ffff) {
        (0, 0) => Zero,
        (0, _) => Denormal,
        (0xff, 0) => Infinite,
        (0xff, _) => NotANumber,
        _ => Normal,
    };
    Class(size, bits >> 31 == 1)
}

/// Bits of a class, edges often.
pub(super) fn real(rng: &mut Rng, Class(size, negative): Class) -> u32 {
    let free = rng.draw() as u32;
    let bits = match size {
        Zero => 0,
        Denormal => rng.pick(&[1, 0x40_0000, 0x7f_ffff, free & 0x7f_ffff | 2]),
        Normal => {
            let half = rng.below(2000) as f32 / 2.0 + 0.5;
            rng.pick(&[0x80_0000, 0x3f80_0000, 0x7f7f_ffff, half.to_bits(), 0x80_0000 + free % 0x7f00_0000])
        }
        Infinite => 0x7f80_0000,
        NotANumber => rng.pick(&[0x7f80_0001, 0x7fc0_0000, 0x7fff_ffff, 0x7f80_0001 + free % 0x7f_ffff]),
    };
    bits | u32::from(negative) << 31
}

/// Two reals of some classes.
fn real_pair(rng: &mut Rng, classes: &[Class]) -> Value {
    let numbers = (0..2).map(|_| rng.pick(classes)).collect::<Vec<_>>();
    Value { kind: 0xd5, numbers: numbers.into_iter().map(|c| real(rng, c)).collect(), wide: false }
}

/// Two reals of which one at least is of none of these classes.
fn bad_real_pair(rng: &mut Rng, classes: &[Class]) -> Value {
    let others: Vec<Class> = CLASSES.into_iter().filter(|c| !classes.contains(c)).collect();
    let mut pair = real_pair(rng, classes);
    let class = rng.pick(&others);
    pair.numbers[rng.below(2)] = real(rng, class);
    if rng.one_in(4) {
        pair.numbers.reverse();
    }
    pair
}

#[cfg(test)]
mod tests {
    use super::*;

    #[test]
    fn reals_are_of_their_class() {
        for (i, class) in CLASSES.into_iter().enumerate() {
            for round in 0..200 {
                assert_eq!(class_of(real(&mut Rng::new(round, i as u64), class)), class);
            }
        }
    }
}
