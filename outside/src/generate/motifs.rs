//! Motifs that are replaced, named before they are held, or call each other in rings and long chains.

use super::bricks::{
    begin_page, begin_session, call_of, ends, ends_outside, motif_of, open_source, page_start, small_body, times,
};
use super::job::{op, write, Job, Node};
use super::rng::Rng;
use super::Setting;

/// A name that no motif of a row has.
const LOST: usize = 200;

/// A job of such motifs.
pub fn motifs(rng: &mut Rng, set: Setting) -> Vec<u8> {
    let mut nodes = vec![begin_session(), open_source()];
    match rng.below(6) {
        0 | 1 => row(rng, &mut nodes),
        2 | 3 => any_calls(rng, &mut nodes),
        4 => story(rng, &mut nodes),
        _ => room(rng, &mut nodes),
    }
    let high_first = rng.one_in(2);
    write(&Job { profile: set.profile, high_first, header: None, nodes, space: 0, space_seed: rng.draw(), pad: None })
}

/// A page that calls a motif.
fn page_calling(rng: &mut Rng, name: &[u8]) -> Vec<Node> {
    let mut page = vec![begin_page()];
    page.extend(page_start(rng));
    page.extend([call_of(name), op(0x44).node()]);
    page
}

/// Up to 40 motifs, each calling the next; the last calls none, one of them, or a name not held. Defined in any order.
fn row(rng: &mut Rng, nodes: &mut Vec<Node>) {
    let n = if rng.one_in(2) { 30 + rng.below(6) } else { 1 + rng.below(40) };
    let last = match rng.below(4) {
        0 => None,
        1 => Some(LOST),
        2 => Some(0),
        _ => Some(rng.below(n)),
    };
    let stray = rng.one_in(3);
    let mut all: Vec<Node> = (0..n)
        .map(|i| {
            let mut body = if rng.one_in(8) { small_body(rng) } else { vec![] };
            let next = if i + 1 < n { Some(i + 1) } else { last };
            body.extend(next.map(|next| call_of(&[next as u8])));
            if stray && rng.one_in(12) {
                body.push(call_of(&[rng.below(n) as u8]));
            }
            motif_of(&[i as u8], body)
        })
        .collect();
    rng.shuffle(&mut all);
    nodes.extend(all);
    let first = if rng.one_in(2) { 0 } else { rng.below(n) };
    for _ in 0..rng.below(4) {
        // One of them is replaced, longer or shorter, with another call or with none, perhaps after a page that went well.
        if rng.one_in(6) {
            nodes.extend(page_calling(rng, &[first as u8]));
        }
        let mut body = small_body(rng);
        if rng.one_in(2) {
            body.push(call_of(&[rng.pick(&[0, n - 1, LOST]) as u8]));
        }
        nodes.push(motif_of(&[rng.below(n) as u8], body));
    }
    nodes.extend(page_calling(rng, &[first as u8]));
    nodes.extend(ends_outside());
}

/// A few names, defined and replaced with any calls among them, and pages between that call them.
fn any_calls(rng: &mut Rng, nodes: &mut Vec<Node>) {
    let names = 2 + rng.below(7);
    // Seldom a call of a later name, so that some jobs go far.
    let wild = rng.pick(&[2, 6, 20, 60]);
    for _ in 0..4 + rng.below(20) {
        let i = rng.below(names);
        if rng.one_in(4) {
            let page = page_calling(rng, &[i as u8]);
            nodes.extend(page);
            continue;
        }
        let mut body = small_body(rng);
        for _ in 0..rng.below(3) {
            let called = if rng.one_in(wild) { rng.below(names + 1) } else { rng.below(i + 1).saturating_sub(1) };
            if called != i || rng.one_in(wild) {
                body.push(call_of(&[called as u8]));
            }
            body.extend(small_body(rng));
        }
        nodes.push(motif_of(&[i as u8], body));
    }
    nodes.extend(ends_outside());
}

/// A caller and its callee, which is replaced from page to page: longer, shorter, breaking the caller or mending it.
fn story(rng: &mut Rng, nodes: &mut Vec<Node>) {
    nodes.push(motif_of(b"caller", vec![call_of(b"callee"), op(0x86).node()]));
    for _ in 0..1 + rng.below(5) {
        let body = match rng.below(8) {
            0 => vec![call_of(b"caller")],
            1 => vec![call_of(b"later")],
            2 => times(op(0x86).node(), rng.below(300)),
            _ => small_body(rng),
        };
        nodes.push(motif_of(b"callee", body));
        if rng.one_in(3) {
            let body = small_body(rng);
            nodes.push(motif_of(b"later", body));
        }
        let page = page_calling(rng, b"caller");
        nodes.extend(page);
    }
    nodes.extend(ends_outside());
}

/// A motif of so many bytes.
fn sized(rng: &mut Rng, name: &[u8], size: usize) -> Node {
    let mut motif = motif_of(name, vec![Node::Raw(vec![0x86; size - 16])]);
    if let Node::Motif(m) = &mut motif {
        m.split = (0..rng.below(3)).map(|_| 1 + rng.below(size)).collect();
    }
    motif
}

/// Replacements that fill the room to the byte with both counted, or pass it by one; perhaps with 64 held.
fn room(rng: &mut Rng, nodes: &mut Vec<Node>) {
    let others = if rng.one_in(3) { 63 } else { rng.below(4) };
    for i in 0..others {
        nodes.push(sized(rng, &[i as u8], 16));
    }
    let mut size = 16 + rng.below(16_384 - 16 * others - 32);
    nodes.push(sized(rng, b"x", size));
    for _ in 0..1 + rng.below(3) {
        // What is left beside the old one, which is free again behind it.
        let left = 16_384 - 16 * others - size;
        let new = if rng.one_in(3) { 16 + rng.below(left.max(17) - 16) } else { (left + rng.below(2)).max(16) };
        // With 64 held a name that is not among them is one too many.
        let name: &[u8] = if rng.one_in(8) { b"y" } else { b"x" };
        nodes.push(sized(rng, name, new));
        size = new;
    }
    nodes.push(begin_page());
    nodes.push(call_of(b"x"));
    nodes.extend(ends());
}

#[cfg(test)]
mod tests {
    use super::*;
    use crate::generate::{judged, setting};
    use std::collections::BTreeMap;

    #[test]
    fn motifs_pass_and_break_off() {
        let mut seen = BTreeMap::new();
        for i in 0..3000 {
            *seen.entry(judged(&motifs(&mut Rng::new(41, i), setting(i)), setting(i)).code).or_insert(0) += 1;
        }
        assert!([0, 19, 21, 22, 24, 25, 32].iter().all(|code| seen.contains_key(code)), "{seen:?}");
    }
}
