//! Parts of which jobs at an edge are built.

use super::job::{op, Motif, Node};
use super::rng::Rng;
use super::shapes::{array, number};
use crate::text::Value;

pub(super) fn begin_session() -> Node {
    op(0x41).with(134, number(0xc0, 0)).with(137, Value { kind: 0xd1, numbers: vec![600, 600], wide: false }).node()
}

pub(super) fn open_source() -> Node {
    op(0x48).with(136, number(0xc0, 0)).with(130, number(0xc0, 1)).node()
}

pub(super) fn begin_page() -> Node {
    op(0x43).with(40, number(0xc0, 0)).with(37, number(0xc0, 0)).node()
}

pub(super) fn call_of(name: &[u8]) -> Node {
    op(0x5e).with(139, array(name, false)).node()
}

pub(super) fn motif_of(name: &[u8], body: Vec<Node>) -> Node {
    Node::Motif(Motif {
        other_class: false,
        name: name.to_vec(),
        high_first: false,
        header: None,
        body,
        split: vec![],
        spoil: None,
    })
}

pub(super) fn ends() -> [Node; 3] {
    [op(0x44).node(), op(0x49).node(), op(0x42).node()]
}

pub(super) fn ends_outside() -> [Node; 2] {
    [op(0x49).node(), op(0x42).node()]
}

/// Gray for 1, RGB for 2.
pub(super) fn colour_space(n: u32) -> Node {
    op(0x6a).with(3, number(0xc0, n)).node()
}

/// Operators between so many PushGS and PopGS.
pub(super) fn saved_around(inside: Vec<Node>, n: usize) -> Vec<Node> {
    [times(op(0x61).node(), n), inside, times(op(0x60).node(), n)].concat()
}

pub(super) fn times(node: Node, n: usize) -> Vec<Node> {
    vec![node; n]
}

pub(super) fn point(tag: u8, n: u16) -> Node {
    op(tag).with(n, Value { kind: 0xd0, numbers: vec![1, 2], wide: false }).node()
}

/// A small body that needs or changes something.
pub(super) fn small_body(rng: &mut Rng) -> Vec<Node> {
    let mut body = Vec::new();
    for _ in 0..rng.below(4) {
        match rng.below(9) {
            0 => body.push(point(0x6b, 76)),
            1 => body.push(point(0x9b, 69)),
            2 => body.push(op(0x85).node()),
            3 => body.push(colour_space(1 + rng.below(2) as u32)),
            4 => body.push(op(0x63).with(9, number(0xc0, 5)).node()),
            5 => body.push(op(0x79).with(11, array(&[1, 2, 3], false)).node()),
            6 => {
                let depth = 1 + rng.below(3);
                body.extend(saved_around(small_body(rng), depth));
            }
            7 => {
                let line = op(0x9d).with(77, number(0xc0, 1)).with(80, number(0xc0, 0)).data(vec![1, 2]);
                body.push(line.node());
            }
            _ => body.push(op(0x86).node()),
        }
    }
    body
}

/// Operators that may stand before a call in a page.
pub(super) fn page_start(rng: &mut Rng) -> Vec<Node> {
    let mut out = Vec::new();
    if rng.one_in(2) {
        out.push(point(0x6b, 76));
    }
    if rng.one_in(2) {
        out.push(colour_space(1 + rng.below(2) as u32));
    }
    out
}
