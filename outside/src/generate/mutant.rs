//! Jobs with faults in their structure or their bytes.

use super::job::{any_tag, spoil, write, Node, Op, Pair};
use super::maker::{rich, valid, Maker};
use super::rng::Rng;
use super::shapes::{any_number, any_type, any_value, bad_range, good_value, shape_of, shapes, TAGS};
use super::Setting;

/// One to four faults in a job, in its structure (lengths mended) or its bytes.
pub fn mutant(rng: &mut Rng, set: Setting) -> Vec<u8> {
    let mut job = if rng.one_in(3) { rich(rng, set) } else { valid(rng, set) };
    let faults = 1 + rng.below(4);
    let mut in_bytes = 0;
    for _ in 0..faults {
        match rng.below(8) {
            0 | 1 => in_bytes += 1,
            2..=4 => {
                let motifs: Vec<usize> =
                    (0..job.nodes.len()).filter(|&i| matches!(job.nodes[i], Node::Motif(_))).collect();
                if motifs.is_empty() {
                    mutate(rng, set, &mut job.nodes);
                } else if let Node::Motif(m) = &mut job.nodes[motifs[rng.below(motifs.len())]] {
                    match rng.below(14) {
                        4 => m.other_class = true,
                        0 => m.name = b"a".to_vec(),
                        1 => m.header = Some(rng.bytes(5)),
                        2 | 3 => m.spoil = Some(rng.draw()),
                        _ => mutate(rng, set, &mut m.body),
                    }
                }
            }
            _ => mutate(rng, set, &mut job.nodes),
        }
    }
    let mut bytes = write(&job);
    for _ in 0..in_bytes {
        spoil(rng, &mut bytes);
    }
    bytes
}

fn mutate(rng: &mut Rng, set: Setting, nodes: &mut Vec<Node>) {
    if nodes.is_empty() {
        let kind = any_tag(rng);
        nodes.push(Node::Raw(vec![kind]));
        return;
    }
    let at = rng.below(nodes.len());
    match rng.below(16) {
        0 => {
            nodes.remove(at);
        }
        1 => {
            let copy = nodes[at].clone();
            nodes.insert(at, copy);
        }
        2 => {
            let other = rng.below(nodes.len());
            nodes.swap(at, other);
        }
        3 => {
            let n = 1 + rng.below(3);
            let bytes = if rng.one_in(2) { rng.bytes(n) } else { vec![any_tag(rng)] };
            nodes.insert(at, Node::Raw(bytes));
        }
        4 | 5 => {
            let mut maker = Maker::new(rng.clone(), set);
            rng.draw();
            let tag = rng.pick(&TAGS);
            let choice = rng.below(3);
            let made = match (tag, rng.one_in(2)) {
                (0x9b | 0x9d, true) => maker.points(tag),
                _ => maker.op(tag, choice),
            };
            nodes.insert(at, made.node());
        }
        _ => {
            if let Node::Op(op) = &mut nodes[at] {
                mutate_op(rng, set, op);
            }
        }
    }
}

fn mutate_op(rng: &mut Rng, set: Setting, op: &mut Op) {
    let pairs = op.pairs.len();
    let at = rng.below(pairs);
    match rng.below(10) {
        0 => op.tag = if rng.one_in(2) { rng.pick(&TAGS) } else { 0x41 + rng.below(0x7f) as u8 },
        1 if pairs > 0 => {
            op.pairs.remove(at);
        }
        2 if pairs > 0 => {
            let copy = op.pairs[at].clone();
            op.pairs.push(copy);
        }
        3 if pairs > 0 => op.pairs[at].number = any_number(rng),
        4 if pairs > 0 => {
            let kind = any_type(rng);
            op.pairs[at].value = any_value(rng, kind);
        }
        5 if pairs > 0 => {
            let (tag, n) = (op.tag, op.pairs[at].number);
            if let Some(shape) = shape_of(set.profile, tag, n) {
                op.pairs[at].value = bad_range(rng, shape).unwrap_or_else(|| good_value(rng, shape));
            }
        }
        6 => match &mut op.data {
            Some(data) if rng.one_in(2) => {
                data.pop();
            }
            Some(data) => data.push(0),
            None => op.data = Some(vec![1, 2]),
        },
        7 => op.data = None,
        8 if pairs > 0 => {
            while op.pairs.len() < 15 + rng.below(4) {
                let copy = op.pairs[at].clone();
                op.pairs.push(copy);
            }
        }
        _ => {
            let all: Vec<_> = shapes(set.profile).collect();
            let (_, number, shape, _) = rng.pick(&all);
            let value = good_value(rng, shape);
            op.pairs.push(Pair { value, number, wide: false });
        }
    }
}
