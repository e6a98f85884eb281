//! Tags as they come.

use super::bricks::{begin_page, begin_session, open_source};
use super::job::{any_tag, header_bytes, Writer};
use super::rng::Rng;
use crate::plain::Profile;

/// A header and tags as they come.
pub fn tags(rng: &mut Rng) -> Vec<u8> {
    if rng.one_in(30) {
        // Hardly any bytes at all.
        let mut few = vec![rng.pick(&[0x26, 0x27, 0x28, 0x29])];
        few.extend_from_slice(&b" HP"[..rng.below(4)]);
        return few;
    }
    let profile = rng.pick(&[Profile::One, Profile::Two]);
    let mut out = if rng.one_in(6) { rng.bytes(17) } else { header_bytes(profile, rng.one_in(2), &None) };
    if rng.one_in(2) {
        let high = out[0] == 0x28;
        let mut w = Writer { profile, out, high_first: high, space: 0, rng: rng.clone(), pad: None, places: 0 };
        w.nodes(&[begin_session(), open_source(), begin_page()][..1 + rng.below(3)]);
        out = w.out;
    }
    for _ in 0..rng.below(60) {
        let tag = any_tag(rng);
        out.push(tag);
        match tag {
            0xc0..=0xc5 | 0xf8 | 0xfb => {
                let n = rng.pick(&[1, 1, 2, 4]);
                out.extend(rng.bytes(n));
            }
            0xc8..=0xcd => {
                let n = rng.below(4) as u8;
                out.extend([rng.pick(&[0xc0, 0xc0, 0xc1, 0xc2]), n]);
                out.extend(rng.bytes(n.into()));
            }
            0xd0 | 0xd1 => out.extend([0, 1]),
            _ => {}
        }
    }
    out
}
