//! Lines and one-byte operators side by side.

use super::bricks::{begin_page, begin_session, call_of, ends, motif_of, open_source, page_start, point, times};
use super::job::{op, spoil, write, Job, Node};
use super::rng::Rng;
use super::Setting;
use crate::text::number_width;

/// The bytes of a line by its end point.
fn line(rng: &mut Rng) -> Vec<u8> {
    let kind = rng.pick(&[0xd0, 0xd1, 0xd3, 0xd5]);
    let mut out = vec![kind];
    out.extend(rng.bytes(2 * number_width(kind)));
    out.extend([0xf8, 69, rng.pick(&[0x9b, 0x9d])]);
    out
}

/// White space, mostly of one byte, shorter and longer than what a checker may care to pass in one go.
fn gap(rng: &mut Rng) -> Vec<u8> {
    let length = rng.pick(&[1, 1, 2, 3, 4, 5, 15, 16, 17, 18, 33]);
    let usual = rng.pick(&[0x00, 0x20]);
    (0..length).map(|_| if rng.one_in(8) { rng.pick(&[0x00, 0x09, 0x0d, 0x20]) } else { usual }).collect()
}

/// Calls in a page that leave fewer than ten operators up to the limit, with the motifs that they call.
fn nearly_all() -> (Vec<Node>, Vec<Node>) {
    let mut motifs = vec![motif_of(&[1], times(op(0x86).node(), 10))];
    motifs.extend((2..=5).map(|k| motif_of(&[k], times(call_of(&[k - 1]), 10))));
    let calls = [(5, 8), (4, 9), (3, 9), (2, 9), (1, 8)];
    (motifs, calls.iter().flat_map(|&(k, n)| times(call_of(&[k]), n)).collect())
}

/// Lines by their end point and operators of one byte side by side in a page, near misses and white space between them.
pub fn runs(rng: &mut Rng, set: Setting) -> Vec<u8> {
    let (motifs, calls) = if rng.one_in(40) { nearly_all() } else { (vec![], vec![]) };
    let mut nodes = vec![begin_session(), open_source()];
    nodes.extend(motifs);
    nodes.push(begin_page());
    nodes.extend(page_start(rng));
    nodes.extend(calls);
    for _ in 0..rng.below(24) {
        nodes.push(match rng.below(16) {
            0..=7 => Node::Raw(line(rng)),
            8..=11 => op(rng.pick(&[0x84, 0x85, 0x86, 0x61, 0x60, 0x57])).node(),
            12 | 13 => point(0x6b, 76),
            14 => Node::Raw(gap(rng)),
            _ => {
                let mut near = line(rng);
                spoil(rng, &mut near);
                Node::Raw(near)
            }
        });
    }
    nodes.extend(ends());
    write(&Job {
        profile: set.profile,
        high_first: rng.one_in(2),
        header: None,
        nodes,
        space: 0,
        space_seed: 0,
        pad: None,
    })
}

#[cfg(test)]
mod tests {
    use super::*;
    use crate::generate::{judged, setting};
    use std::collections::BTreeSet;

    #[test]
    fn runs_pass_and_break_off() {
        let mut seen = BTreeSet::new();
        let mut far = 0;
        for index in 0..4000 {
            let verdict = judged(&runs(&mut Rng::new(12, index), setting(index)), setting(index));
            seen.insert(verdict.code);
            far = far.max(verdict.performed);
        }
        assert!([0, 5, 6, 10, 15, 16, 24, 26].iter().all(|code| seen.contains(code)), "{seen:?}");
        assert_eq!(far, 1_000_000);
    }
}
