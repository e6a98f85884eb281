//! Reals of every class, of both signs and in both byte orders, as a value of every attribute.

use super::broken::{ending_in, Broken};
use super::job::{Job, Op, Pair};
use super::rng::Rng;
use super::shapes::{any_value, real, shapes, Class, Shape, CLASSES};
use super::Setting;
use crate::plain::Profile;
use crate::text::Value;

/// The attributes that take reals, and the others.
fn of_shapes(profile: Profile, takes_reals: bool) -> Vec<(u8, u16)> {
    let takes = |shape: Shape| matches!(shape, Shape::Point | Shape::Sizes);
    shapes(profile).filter(|s| takes(s.2) == takes_reals).map(|s| (s.0, s.1)).collect()
}

/// Job `turn` of a row that has every attribute, class and byte order, the attributes that take reals as often as all others.
pub fn reals(rng: &mut Rng, set: Setting, turn: usize) -> Job {
    let own = turn.is_multiple_of(2);
    let shapes = of_shapes(set.profile, own);
    let (high_first, turn) = (turn / 2 % 2 == 1, turn / 4);
    let (tag, number) = shapes[turn % shapes.len()];
    let class = CLASSES[turn / shapes.len() % CLASSES.len()];
    let rule = Broken { profile: set.profile, tag, number, code: 15 };
    let inside = rng.one_in(4);
    let mut job = ending_in(rng, set.gray, rule, inside, |rng, made| put_real(rng, made, number, own, class));
    job.high_first = high_first;
    job
}

/// Puts a value with a real of the class in place of the attribute's.
fn put_real(rng: &mut Rng, made: &mut Op, number: u16, own: bool, class: Class) {
    let kind = if own { 0xd5 } else { rng.pick(&[0xc5, 0xcd, 0xd5, 0xe5]) };
    let mut value: Value = any_value(rng, kind);
    // The other of two is often a plain one, so that only the first decides.
    if rng.one_in(2) {
        value.numbers.iter_mut().for_each(|n| *n = 0x3f00_0000);
    }
    if !value.numbers.is_empty() {
        let at = rng.below(value.numbers.len());
        value.numbers[at] = real(rng, class);
    }
    match made.pairs.iter_mut().find(|p| p.number == number) {
        Some(pair) => pair.value = value,
        None => made.pairs.push(Pair { value, number, wide: false }),
    }
}

#[cfg(test)]
mod tests {
    use super::*;
    use crate::generate::{judged, setting, write};
    use std::collections::BTreeSet;

    #[test]
    fn reals_are_taken_refused_by_range_and_refused_by_type() {
        let code =
            |turn: u64| judged(&write(&reals(&mut Rng::new(31, turn), setting(0), turn as usize)), setting(0)).code;
        let own: BTreeSet<u32> = (0..800).step_by(2).map(code).collect();
        let others: BTreeSet<u32> = (1..800).step_by(2).map(code).collect();
        assert!([16, 27].iter().all(|c| own.contains(c)) && !own.contains(&15), "{own:?}");
        assert!(others.contains(&15) && !others.contains(&16), "{others:?}");
    }
}
