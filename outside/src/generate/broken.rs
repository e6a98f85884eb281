//! Jobs that break one attribute rule of one operator.

use super::bricks::colour_space;
use super::job::{op, Job, Motif, Node, Op, Pair};
use super::maker::{Maker, Page};
use super::rng::Rng;
use super::shapes::{
    any_number, any_type, any_value, array, bad_range, bad_type, good_value, number, shape_of, shapes_of, tags_of,
    Need, Shape,
};
use super::Setting;
use crate::plain::Profile;

/// One attribute rule of one operator, and how it is broken.
#[derive(Debug, Clone, Copy, PartialEq, Eq, PartialOrd, Ord)]
pub struct Broken {
    pub profile: Profile,
    pub tag: u8,
    /// The attribute, or 0 where it is the operator's as a whole.
    pub number: u16,
    pub code: u32,
}

/// Every attribute rule that can be broken.
pub fn all_rules() -> Vec<Broken> {
    let mut all = Vec::new();
    for profile in [Profile::One, Profile::Two] {
        let rule = |tag, number, code| Broken { profile, tag, number, code };
        for tag in tags_of(profile) {
            all.push(rule(tag, 0, 11));
            for (n, shape, need) in shapes_of(profile, tag) {
                all.extend([rule(tag, n, 12), rule(tag, n, 15)]);
                if bad_range(&mut Rng::new(0, 0), shape).is_some() {
                    all.push(rule(tag, n, 16));
                }
                match need {
                    Need::Must => all.push(rule(tag, n, 13)),
                    Need::Choice => all.extend([rule(tag, 0, 13), rule(tag, n, 14)]),
                    Need::May => {}
                }
            }
        }
        all.extend([0xb1, 0xb4].iter().flat_map(|&tag| [rule(tag, 109, 14), rule(tag, 99, 14)]));
    }
    all.extend([0xb1, 0xb4].map(|tag| Broken { profile: Profile::Two, tag, number: 111, code: 14 }));
    all.sort();
    all.dedup();
    all
}

fn page_tag(tag: u8) -> bool {
    matches!(tag, 0x47 | 0x57 | 0x5e..=0x61) || (0x63..=0xb5).contains(&tag)
}

/// Operators that may stand in a motif: those of a page but patterns.
fn motif_tag(tag: u8) -> bool {
    page_tag(tag) && !(0xb3..=0xb5).contains(&tag)
}

/// A job that breaks one rule first, in the job or, where it may stand in one, in a motif.
pub fn broken(rng: &mut Rng, gray: bool, rule: Broken, inside: bool) -> Job {
    ending_in(rng, gray, rule, inside, |rng, made| break_op(rng, made, rule))
}

/// A job that ends in the operator of a rule, in the job or in a motif, right but for one change.
pub(super) fn ending_in(
    rng: &mut Rng,
    gray: bool,
    rule: Broken,
    inside: bool,
    change: impl Fn(&mut Rng, &mut Op),
) -> Job {
    let inside = inside && motif_tag(rule.tag);
    let mut m = Maker::new(rng.clone(), Setting { gray, profile: rule.profile });
    rng.draw();
    if rng.one_in(3) {
        m.session(1, 1, 5);
    }
    start(&mut m, rule.tag);
    let mut made = right_operator(&mut m, rule, inside);
    let mut before = Vec::new();
    if page_tag(rule.tag) || rule.tag == 0x44 {
        let begin = m.op(0x43, 0).node();
        if !inside && (rule.tag != 0x47 || rng.one_in(2)) {
            m.nodes.push(begin);
        }
        before = operators_before(&mut m, rule.tag, inside);
        if matches!(rule.tag, 0xb1 | 0xb2 | 0xb4 | 0xb5) {
            let (rows, last) = part_of_image(&mut m, rule);
            before.extend(rows);
            made = last;
        }
    }
    change(&mut m.rng, &mut made);
    before.push(made.node());
    if inside {
        let split = if m.rng.one_in(2) { vec![7] } else { vec![] };
        let high_first = m.rng.one_in(2);
        let (name, header, spoil) = (b"new one".to_vec(), None, None);
        m.nodes.push(Node::Motif(Motif { other_class: false, name, high_first, header, body: before, split, spoil }));
    } else {
        m.nodes.extend(before);
    }
    let space = rng.pick(&[0, 0, 4]);
    m.job(space)
}

/// A session, the source open and a motif, as far as the operator may stand behind them.
fn start(m: &mut Maker, tag: u8) {
    m.forget();
    let outer = m.op(0x41, 0).node();
    let open = m.op(0x48, 0).node();
    m.open = true;
    if tag != 0x41 {
        m.nodes.push(outer);
        if !matches!(tag, 0x42 | 0x48) {
            m.nodes.push(open);
            let motif = m.motif(4);
            m.nodes.push(motif);
        }
    }
}

/// The operator of the rule with all rules kept; a stream is begun for those that need one.
fn right_operator(m: &mut Maker, rule: Broken, inside: bool) -> Op {
    match rule.tag {
        0x5c | 0x5d => {
            m.nodes.push(op(0x5b).with(139, array(b"new one", false)).node());
            if rule.tag == 0x5d {
                return op(0x5d);
            }
            op(0x5c).with(140, number(0xc0, 3)).data(vec![1, 2, 3])
        }
        0x5e => m.call(&mut Page::new(m.set), inside, true).unwrap_or(op(0x5e)),
        0x9b | 0x9d if matches!(rule.number, 77 | 80) && rule.code != 14 => m.points(rule.tag),
        0x63 | 0x79 => {
            let choice = shapes_of(rule.profile, rule.tag).position(|s| s.0 == rule.number).unwrap_or(2);
            m.op(rule.tag, choice)
        }
        tag => m.op(tag, 0),
    }
}

/// Operators of a page before the broken one, so that it may come.
fn operators_before(m: &mut Maker, tag: u8, inside: bool) -> Vec<Node> {
    let mut before = Vec::new();
    if tag != 0x47 {
        let n = m.rng.below(6);
        before.extend(m.page(n, &mut Page::new(m.set), inside));
    }
    if tag == 0x60 {
        before.push(op(0x61).node());
    }
    before
}

/// Cursor, gray and an image or pattern up to the operator of the rule, and that operator.
fn part_of_image(m: &mut Maker, rule: Broken) -> (Vec<Node>, Op) {
    let mut before = vec![m.op(0x6b, 0).node(), colour_space(1)];
    let mut image = if rule.tag < 0xb3 { m.image() } else { m.pattern() };
    let end = image.len() - 1;
    let stop = match rule {
        Broken { tag: 0xb2 | 0xb5, .. } => end,
        // The last block, so that one row more is one too many.
        Broken { number: 99, code: 14, .. } => end - 1,
        _ => 1 + m.rng.below(end - 1),
    };
    let made = image[stop].clone();
    image.truncate(stop);
    before.extend(image.into_iter().map(Op::node));
    (before, made)
}

fn good_pair(rng: &mut Rng, rule: Broken, number: u16) -> Pair {
    let shape = shape_of(rule.profile, rule.tag, number).unwrap_or(Shape::N(0, 0xffff));
    Pair { value: good_value(rng, shape), number, wide: rng.one_in(3) }
}

/// Breaks the rule in an operator that keeps all.
fn break_op(rng: &mut Rng, made: &mut Op, rule: Broken) {
    match rule.code {
        11 => put_foreign(rng, made, rule.profile),
        12 => put_twice(rng, made, rule),
        13 if rule.number == 0 => made.pairs.clear(),
        13 => made.pairs.retain(|p| p.number != rule.number),
        14 if matches!(rule.tag, 0xb1 | 0xb4) => put_wrong_rows(rng, made, rule.number),
        14 => put_clash(rng, made, rule),
        15 | 16 => put_wrong_value(rng, made, rule),
        _ => {}
    }
}

/// An attribute that is not the operator's.
fn put_foreign(rng: &mut Rng, made: &mut Op, profile: Profile) {
    let own: Vec<u16> = shapes_of(profile, made.tag).map(|s| s.0).collect();
    let foreign = loop {
        let n = match rng.below(4) {
            0 => rng.draw() as u16,
            // A neighbour of an own attribute.
            1 if !own.is_empty() => rng.pick(&own) - 1 + rng.pick(&[0, 2]),
            _ => any_number(rng),
        };
        if !own.contains(&n) {
            break n;
        }
    };
    let kind = any_type(rng);
    let place = rng.below(made.pairs.len() + 1);
    let value = any_value(rng, kind);
    made.pairs.insert(place, Pair { value, number: foreign, wide: false });
}

fn put_twice(rng: &mut Rng, made: &mut Op, rule: Broken) {
    let given = made.pairs.iter().any(|p| p.number == rule.number);
    for _ in usize::from(given)..2 {
        let pair = good_pair(rng, rule, rule.number);
        made.pairs.push(pair);
    }
}

/// Half of a pair, or one more of a choice.
fn put_clash(rng: &mut Rng, made: &mut Op, rule: Broken) {
    let number = rule.number;
    let given = made.pairs.iter().any(|p| p.number == number);
    let half = matches!(number, 77 | 80) && rng.one_in(2);
    if half {
        made.pairs.clear();
    }
    let other = if !given || half {
        number
    } else {
        let others: Vec<u16> = shapes_of(rule.profile, rule.tag).map(|s| s.0).filter(|&n| n != number).collect();
        rng.pick(&others)
    };
    let pair = good_pair(rng, rule, other);
    made.pairs.push(pair);
}

/// Another StartLine, more rows than there are, or another length than the rows have.
fn put_wrong_rows(rng: &mut Rng, made: &mut Op, wrong: u16) {
    let Some(p) = made.pairs.iter_mut().find(|p| p.number == wrong) else {
        let value = number(0xc2, rng.pick(&[0, 0x00ff_ffff, u32::MAX]));
        made.pairs.push(Pair { value, number: wrong, wide: false });
        return;
    };
    let n = &mut p.value.numbers[0];
    *n = match wrong {
        _ if rng.one_in(2) => *n + 1,
        109 => 77,
        99 => rng.pick(&[6, 7, 255]),
        _ => *n - 1,
    };
}

fn put_wrong_value(rng: &mut Rng, made: &mut Op, rule: Broken) {
    let shape = shape_of(rule.profile, rule.tag, rule.number).unwrap_or(Shape::N(0, 0xffff));
    let value = if rule.code == 15 { Some(bad_type(rng, shape)) } else { bad_range(rng, shape) };
    let pair = Pair { value: value.unwrap_or(number(0xc0, 0)), number: rule.number, wide: false };
    match made.pairs.iter().position(|p| p.number == rule.number) {
        Some(at) => made.pairs[at] = pair,
        None => made.pairs.push(pair),
    }
}

#[cfg(test)]
mod tests {
    use super::*;
    use crate::generate::{judged, write};
    use crate::{plain, text};

    #[test]
    fn rules_break_as_meant() {
        for (i, rule) in all_rules().into_iter().enumerate() {
            for inside in [false, true] {
                for round in 0..6 {
                    let job = write(&broken(&mut Rng::new(round, i as u64), round % 2 == 0, rule, inside));
                    let verdict = judged(&job, Setting { gray: round % 2 == 0, profile: rule.profile });
                    assert_eq!(verdict.code, rule.code, "{rule:x?} {verdict:?}\n{}", text::list(&job));
                    assert_eq!(verdict.inner != plain::NO_INNER, inside && motif_tag(rule.tag));
                }
            }
        }
    }
}
