//! Jobs at the edge of a limit, or one past it.

use super::bricks::{
    begin_page, begin_session, call_of, colour_space, ends, ends_outside, motif_of, open_source, page_start, point,
    saved_around, small_body, times,
};
use super::job::{op, write, Job, Motif, Node, Op};
use super::maker::Maker;
use super::rng::Rng;
use super::shapes::{array, number, TAGS};
use super::Setting;
use crate::plain::{row_bytes, Profile};
use crate::text::Value;

/// A job being built behind BeginSession and OpenDataSource, and what else it needs.
struct Edge {
    set: Setting,
    nodes: Vec<Node>,
    /// Text in the header.
    header: Option<Vec<u8>>,
    /// A length to be reached, and the byte that fills it.
    fill: Option<(usize, u8)>,
}

/// Builds on from the start of a job; the number is 0 at a limit and 1 past it.
type Build = fn(&mut Rng, usize, &mut Edge);

/// Each limit; those with more cases to tell stand twice.
const LIMITS: [Build; 20] = [
    held_motifs,
    motif_bytes,
    nesting,
    saved_in_page,
    saved_by_calls,
    deep_stack,
    performed,
    performed,
    attributes,
    elements,
    header_bytes,
    job_bytes,
    job_bytes,
    tower,
    tower,
    powers_of_eight,
    bad_ends,
    image_order,
    sessions,
    long_block,
];

/// A job at the edge of a limit, or one past it.
pub fn limit(rng: &mut Rng, set: Setting, which: usize) -> Vec<u8> {
    let mut edge = Edge { set, nodes: vec![begin_session(), open_source()], header: None, fill: None };
    let more = rng.below(2);
    LIMITS[which % LIMITS.len()](rng, more, &mut edge);
    let Edge { set, nodes, header, fill } = edge;
    let mut bytes = write(&Job {
        profile: set.profile,
        high_first: rng.one_in(2),
        header,
        nodes,
        space: 0,
        space_seed: rng.draw(),
        pad: None,
    });
    if let Some((length, byte)) = fill {
        // Before the last three operators, so that the job may still end well.
        let at = if byte == 0x42 { 0 } else { bytes.len() - 3 };
        let more = length - bytes.len();
        bytes.splice(at..at, std::iter::repeat_n(byte, more));
    }
    bytes
}

impl Edge {
    /// A page that some operators may stand in before a call, the call, and the ends.
    fn call_in_page(&mut self, rng: &mut Rng, name: &[u8]) {
        self.nodes.push(begin_page());
        self.nodes.extend(page_start(rng));
        self.nodes.push(call_of(name));
        self.nodes.extend(ends());
    }
}

/// 64 motifs, or a 65th, perhaps of a held name.
fn held_motifs(rng: &mut Rng, more: usize, edge: &mut Edge) {
    for i in 0..64 + more {
        let name = if i == 64 && rng.one_in(2) { 3 } else { i as u8 };
        let body = small_body(rng);
        edge.nodes.push(motif_of(&[name], body));
    }
    edge.nodes.push(begin_page());
    edge.nodes.extend(page_start(rng));
    edge.nodes.push(call_of(&[rng.pick(&[0, 5, 63, 64, 65])]));
    edge.nodes.extend(ends());
}

/// 16,384 bytes of motifs, or one more, in one or in several, in blocks; perhaps the room is used again.
fn motif_bytes(rng: &mut Rng, more: usize, edge: &mut Edge) {
    let mut left = 16_384 + more;
    let parts = 1 + rng.below(4);
    for i in 0..parts {
        let size = if i + 1 == parts { left } else { 17 + rng.below(left / 2) };
        left -= size;
        let mut m = Motif {
            other_class: false,
            name: vec![i as u8],
            high_first: rng.one_in(2),
            header: None,
            body: vec![Node::Raw(vec![0x86; size - 16])],
            split: vec![],
            spoil: None,
        };
        if rng.one_in(2) {
            m.split = (0..3).map(|_| 1 + rng.below(6000)).collect();
        }
        edge.nodes.push(Node::Motif(m));
    }
    edge.nodes.extend(ends_outside());
    if rng.one_in(2) {
        edge.nodes.extend([begin_session(), open_source()]);
        edge.nodes.push(motif_of(b"z", vec![Node::Raw(vec![0x86; 16_368])]));
        edge.nodes.extend([begin_page(), call_of(b"z")]);
        edge.nodes.extend(ends());
    }
}

/// 32 deep, or 33.
fn nesting(rng: &mut Rng, more: usize, edge: &mut Edge) {
    for i in 0..32 + more {
        let mut body = small_body(rng);
        if i > 0 {
            body.push(call_of(&[i as u8 - 1]));
        }
        body.extend(small_body(rng));
        if i > 1 && rng.one_in(4) {
            // A call of a flatter motif, which changes nothing about how deep this one is.
            body.push(call_of(&[rng.below(i - 1) as u8]));
        }
        edge.nodes.push(motif_of(&[i as u8], body));
    }
    edge.call_in_page(rng, &[31 + more as u8]);
}

/// 24 saved, or 25, in the page.
fn saved_in_page(rng: &mut Rng, more: usize, edge: &mut Edge) {
    edge.nodes.push(begin_page());
    for _ in 0..24 + more {
        edge.nodes.extend(page_start(rng));
        edge.nodes.push(op(0x61).node());
    }
    edge.nodes.extend(times(op(0x60).node(), 24 + more));
    edge.nodes.extend(ends());
}

/// 24 saved, or 25, by page, call and call in a call.
fn saved_by_calls(rng: &mut Rng, more: usize, edge: &mut Edge) {
    let (a, b) = (rng.below(12), rng.below(12));
    let inside = small_body(rng);
    edge.nodes.push(motif_of(b"a", saved_around(inside, a)));
    edge.nodes.push(motif_of(b"b", saved_around(vec![call_of(b"a")], b)));
    edge.nodes.push(begin_page());
    edge.nodes.extend(page_start(rng));
    edge.nodes.extend(saved_around(vec![call_of(b"b")], 24 + more - a - b));
    edge.nodes.extend(ends());
}

/// A deep stack inside a motif, called or not.
fn deep_stack(rng: &mut Rng, _: usize, edge: &mut Edge) {
    let depth = 20 + rng.below(10) + if rng.one_in(4) { 3000 } else { 0 };
    let mut body = Vec::new();
    for i in 0..depth {
        if i < 40 {
            body.extend(small_body(rng));
        }
        body.push(op(0x61).node());
    }
    body.extend(times(op(0x60).node(), depth - usize::from(rng.one_in(6))));
    edge.nodes.push(motif_of(b"a", body));
    edge.call_in_page(rng, b"a");
}

/// Exactly 1,000,000 performed, one fewer, one or two more.
fn performed(rng: &mut Rng, _: usize, edge: &mut Edge) {
    let ten = 2 + rng.below(9);
    let mut counts = vec![1 + ten as u64];
    edge.nodes.push(motif_of(&[0], times(op(0x86).node(), ten)));
    while counts[counts.len() - 1] < 400_000 {
        let i = counts.len() as u8;
        edge.nodes.push(motif_of(&[i], times(call_of(&[i - 1]), ten)));
        counts.push(1 + ten as u64 * counts[counts.len() - 1]);
    }
    let before = 2 + 3 * counts.len() as u64 + 1;
    let mut left = 1_000_000 - before - 3 + rng.below(4) as u64 - 1;
    edge.nodes.push(begin_page());
    for (i, &count) in counts.iter().enumerate().rev() {
        while left >= count && count <= 1_000_000 {
            edge.nodes.push(call_of(&[i as u8]));
            left -= count;
        }
    }
    edge.nodes.extend(times(op(0x84).node(), left as usize));
    edge.nodes.extend(ends());
    if rng.one_in(3) {
        edge.nodes.extend([begin_session(), op(0x42).node()]);
    }
    if rng.one_in(3) {
        end_in_motif(rng, &mut edge.nodes);
    }
}

/// The last operators of all are a motif, sound or faulty.
fn end_in_motif(rng: &mut Rng, nodes: &mut Vec<Node>) {
    let at = nodes.iter().rposition(|n| *n == op(0x44).node()).unwrap_or(0);
    let at = at - nodes[..at].iter().rev().take_while(|n| **n == op(0x84).node()).count().min(4);
    let body = if rng.one_in(2) { vec![op(0x60).node()] } else { vec![] };
    nodes.truncate(at);
    nodes.push(op(0x44).node());
    nodes.push(motif_of(b"last", body));
}

/// 16 attributes, or 17.
fn attributes(rng: &mut Rng, more: usize, edge: &mut Edge) {
    let mut many = op(0x7a);
    for _ in 0..16 + more {
        many = many.with(75, number(0xc0, 1));
    }
    if rng.one_in(3) {
        many = many.with(75, array(&[1; 1025], true));
    }
    if rng.one_in(2) {
        edge.nodes.extend([begin_page(), many.node()]);
        edge.nodes.extend(ends());
    } else {
        edge.nodes.push(motif_of(b"a", vec![many.node()]));
    }
}

/// Arrays of 1,024, or 1,025, of any type.
fn elements(rng: &mut Rng, more: usize, edge: &mut Edge) {
    let kind = 0xc8 + rng.below(6) as u8;
    let kind = if rng.one_in(2) { 0xc8 } else { kind };
    let value = Value { kind, numbers: vec![7; 1024 + more], wide: true };
    let comment = op(0x47).with(129, value).node();
    if rng.one_in(2) {
        edge.nodes.push(comment);
        edge.nodes.extend(ends_outside());
    } else {
        edge.nodes.push(motif_of(b"a", vec![comment]));
    }
}

/// A header of 256 bytes, or 257.
fn header_bytes(rng: &mut Rng, more: usize, edge: &mut Edge) {
    edge.header = Some(vec![b'h'; 239 + more]);
    if rng.one_in(2) {
        edge.nodes.push(Node::Motif(Motif {
            other_class: false,
            name: b"a".to_vec(),
            high_first: true,
            header: edge.header.take(),
            body: small_body(rng),
            split: vec![100],
            spoil: None,
        }));
    }
    edge.nodes.extend(ends_outside());
}

/// A job of 61,440 bytes, or one more.
fn job_bytes(rng: &mut Rng, more: usize, edge: &mut Edge) {
    edge.nodes.push(begin_page());
    edge.nodes.extend(ends());
    edge.fill = Some((61_440 + more, rng.pick(&[0x00, 0x20, 0x86, 0x61, 0x42])));
}

/// A tower that unfolds to far more than can be walked.
fn tower(rng: &mut Rng, _: usize, edge: &mut Edge) {
    let levels = 8 + rng.below(25);
    // A tame tower breaks no rule of the state, whatever the page is like.
    let tame = rng.one_in(2);
    let body = if tame { tame_body() } else { small_body(rng) };
    edge.nodes.push(motif_of(&[0], body));
    for i in 1..levels {
        let saves = if rng.one_in(2) { 1 + rng.below(2) } else { 0 };
        let mut body = Vec::new();
        for _ in 0..1 + rng.below(5) {
            body.push(call_of(&[i as u8 - 1]));
            if rng.one_in(6) && !tame {
                body.extend(small_body(rng));
            }
        }
        edge.nodes.push(motif_of(&[i as u8], saved_around(body, saves)));
    }
    if rng.one_in(3) {
        edge.nodes.push(op(0x49).node());
    }
    edge.nodes.push(begin_page());
    edge.nodes.extend(page_start(rng));
    let saved = rng.pick(&[0, 0, 0, 20, 24]);
    edge.nodes.extend(saved_around(vec![call_of(&[levels as u8 - 1])], saved));
    edge.nodes.extend(ends());
}

/// Operators that need cursor, gray and RGB and set each before.
fn tame_body() -> Vec<Node> {
    let level = op(0x63).with(9, number(0xc0, 5)).node();
    let colour = op(0x79).with(11, array(&[1, 2, 3], false)).node();
    let gray = saved_around(vec![colour_space(1), level], 1);
    [vec![point(0x6b, 76), colour_space(2)], gray, vec![point(0x9b, 69), colour]].concat()
}

/// Counts of exactly 2 to the 32nd or 64th and a little more: calling level k counts 8 to the k.
fn powers_of_eight(rng: &mut Rng, _: usize, edge: &mut Edge) {
    let (levels, rounds) = rng.pick(&[(10, 3), (21, 1)]);
    let lower = |k: u8| {
        let mut round: Vec<Node> = (1..k).map(|j| call_of(&[j])).collect();
        round.push(op(0x86).node());
        round.into_iter().cycle().take(7 * usize::from(k))
    };
    for k in 1..=levels {
        edge.nodes.push(motif_of(&[k], lower(k).collect()));
    }
    let mut body = times(call_of(&[levels]), rounds);
    body.extend(lower(levels));
    edge.nodes.push(motif_of(b"q", body));
    let mut body = small_body(rng);
    body.push(call_of(b"q"));
    edge.nodes.push(motif_of(b"r", body));
    edge.nodes.push(begin_page());
    edge.nodes.extend(page_start(rng));
    edge.nodes.push(call_of(rng.pick(&[b"q", b"r"])));
    edge.nodes.extend(ends());
}

/// Motifs that do not end well: an image open, rows unread, saves, data or attributes left.
fn bad_ends(rng: &mut Rng, _: usize, edge: &mut Edge) {
    let mut maker = Maker::new(rng.clone(), edge.set);
    rng.draw();
    let mut body = small_body(rng);
    match rng.below(5) {
        0 | 1 => {
            let mut image = maker.image();
            let left = image.len() - 1 - rng.below(image.len());
            image.truncate(left.max(1));
            body.extend(image.into_iter().map(Op::node));
        }
        2 => body.push(op(0x61).node()),
        3 => {
            let mut line = maker.points(0x9b);
            line.data = None;
            body.push(line.node());
        }
        _ => body.push(Node::Raw(vec![0xc0, 0x00, 0xf8, 0x4b][..2 + 2 * rng.below(2)].to_vec())),
    }
    edge.nodes.push(motif_of(b"a", body));
    edge.nodes.extend(ends_outside());
}

/// Images whose operators do not come in order, in the page or in a motif.
fn image_order(rng: &mut Rng, _: usize, edge: &mut Edge) {
    let mut maker = Maker::new(rng.clone(), edge.set);
    rng.draw();
    let mut image: Vec<Node> = maker.image().into_iter().map(Op::node).collect();
    let at = 1 + rng.below(image.len() - 1);
    match rng.below(4) {
        0 => {
            image.remove(at);
        }
        1 => {
            let last = image.len() - 1;
            image.swap(at, last);
        }
        2 => {
            let copy = image[at].clone();
            image.insert(at, copy);
        }
        _ => {
            let tag = rng.pick(&TAGS);
            let made = if tag == 0x5e { call_of(b"a") } else { maker.op(tag, 0).node() };
            image.insert(at, made);
        }
    }
    let mut body = vec![point(0x6b, 76), colour_space(1)];
    body.extend(image);
    if rng.one_in(2) {
        edge.nodes.push(motif_of(b"a", body));
        body = vec![call_of(b"a")];
    }
    edge.nodes.push(begin_page());
    edge.nodes.extend(body);
    edge.nodes.extend(ends());
}

/// Many sessions, motifs of one name, a call of a dropped one.
fn sessions(rng: &mut Rng, _: usize, edge: &mut Edge) {
    edge.nodes.clear();
    for _ in 0..2 + rng.below(5) {
        edge.nodes.extend([begin_session(), open_source()]);
        if !rng.one_in(5) {
            let body = small_body(rng);
            edge.nodes.push(motif_of(b"S3 wave", body));
        }
        edge.nodes.extend([begin_page(), call_of(b"S3 wave")]);
        edge.nodes.extend(ends());
    }
}

/// Rows in class 2;1 whose length passes 2 to the 32nd: no length of data equals it, whatever is left of it in 32 bits.
fn long_block(rng: &mut Rng, more: usize, edge: &mut Edge) {
    edge.set.profile = Profile::Two;
    let (pad, rows) = (rng.pick(&[200, 255]), 65_535);
    let rest = (row_bytes(65_535, 2, pad) * rows) as u32;
    let size = Value { kind: 0xd1, numbers: vec![1, 1], wide: false };
    let image = op(0xb0).with(100, number(0xc0, 0)).with(98, number(0xc0, 2)).with(103, size);
    let mut read = op(0xb1).with(109, number(0xc0, 0)).with(101, number(0xc0, 0)).with(110, number(0xc0, pad));
    if more == 1 {
        read = read.with(111, number(0xc2, rest));
    }
    let lines = |n| number(0xc1, n);
    edge.nodes.extend([begin_page(), point(0x6b, 76), colour_space(1)]);
    edge.nodes.push(image.with(108, lines(65_535)).with(107, lines(65_535)).node());
    edge.nodes.push(read.with(99, lines(rows as u32)).node());
    edge.nodes.push(Node::Raw([&[0xfa][..], &rest.to_le_bytes(), &[0; 9]].concat()));
}

#[cfg(test)]
mod tests {
    use super::*;
    use crate::generate::{judged, setting};
    use std::collections::BTreeSet;

    #[test]
    fn limits_fall_on_both_sides() {
        let mut codes = vec![BTreeSet::new(); LIMITS.len()];
        for round in 0..30 {
            for (which, seen) in codes.iter_mut().enumerate() {
                seen.insert(
                    judged(&limit(&mut Rng::new(round, which as u64), setting(round), which), setting(round)).code,
                );
            }
        }
        let want: [&[u32]; LIMITS.len()] = [
            &[19, 21],
            &[0, 19],
            &[22],
            &[0, 23],
            &[0, 23],
            &[23],
            &[0, 26],
            &[0, 26],
            &[7, 12],
            &[0, 8],
            &[0, 2],
            &[0, 1],
            &[1],
            &[26, 24],
            &[26, 23],
            &[26],
            &[27],
            &[10, 14],
            &[0, 21],
            &[14, 18],
        ];
        for (which, want) in want.iter().enumerate() {
            assert!(want.iter().all(|c| codes[which].contains(c)), "limit {which}: {:?}", codes[which]);
        }
    }
}
