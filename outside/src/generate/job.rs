//! The structure of a job and its bytes.

use super::rng::Rng;
use super::shapes::{any_type, array, number, TAGS};
use crate::plain::Profile;
use crate::text::{put_attribute, put_data, put_value, Value};

#[derive(Debug, Clone, PartialEq)]
pub struct Pair {
    pub value: Value,
    pub number: u16,
    pub wide: bool,
}

#[derive(Debug, Clone, PartialEq)]
pub struct Op {
    pub tag: u8,
    pub pairs: Vec<Pair>,
    pub data: Option<Vec<u8>>,
}

#[derive(Debug, Clone, PartialEq)]
pub enum Node {
    Op(Op),
    Motif(Motif),
    Raw(Vec<u8>),
}

/// A motif to be defined: its lengths are measured when it is written down.
#[derive(Debug, Clone, PartialEq)]
pub struct Motif {
    /// Its header is not of the job's class.
    pub(super) other_class: bool,
    pub(super) name: Vec<u8>,
    pub(super) high_first: bool,
    pub(super) header: Option<Vec<u8>>,
    pub(super) body: Vec<Node>,
    pub(super) split: Vec<usize>,
    /// Seed of a fault in the bytes of the body.
    pub(super) spoil: Option<u64>,
}

#[derive(Debug, Clone, PartialEq)]
pub struct Job {
    pub(super) profile: Profile,
    pub(super) high_first: bool,
    pub(super) header: Option<Vec<u8>>,
    pub(super) nodes: Vec<Node>,
    /// White space between items once in so many times; 0 never.
    pub(super) space: usize,
    pub(super) space_seed: u64,
    pub(super) pad: Option<Pad>,
}

/// So many zero bytes in one of the places where white space may stand, counted from 0 through job and motifs.
#[derive(Debug, Clone, Copy, PartialEq)]
pub(super) struct Pad {
    pub(super) place: usize,
    pub(super) length: usize,
}

pub(super) fn op(tag: u8) -> Op {
    Op { tag, pairs: Vec::new(), data: None }
}

impl Op {
    pub(super) fn with(mut self, n: u16, value: Value) -> Op {
        self.pairs.push(Pair { value, number: n, wide: false });
        self
    }

    pub(super) fn data(mut self, data: Vec<u8>) -> Op {
        self.data = Some(data);
        self
    }

    pub(super) fn node(self) -> Node {
        Node::Op(self)
    }
}

pub(super) struct Writer {
    pub(super) profile: Profile,
    pub(super) out: Vec<u8>,
    pub(super) high_first: bool,
    pub(super) space: usize,
    pub(super) rng: Rng,
    pub(super) pad: Option<Pad>,
    /// Places for white space so far.
    pub(super) places: usize,
}

pub(super) fn header_bytes(profile: Profile, high_first: bool, text: &Option<Vec<u8>>) -> Vec<u8> {
    let mut out = vec![if high_first { 0x28 } else { 0x29 }];
    out.extend(if profile == Profile::One { b" HP-PCL XL;1;1" } else { b" HP-PCL XL;2;1" });
    if let Some(text) = text {
        out.push(b';');
        out.extend(text);
    }
    out.push(b'\n');
    out
}

pub(super) fn other_than(profile: Profile) -> Profile {
    if profile == Profile::One {
        Profile::Two
    } else {
        Profile::One
    }
}

impl Writer {
    pub(super) fn gap(&mut self) {
        while self.space > 0 && self.rng.one_in(self.space) {
            let byte = self.rng.pick(&[0x00, 0x09, 0x0a, 0x0b, 0x0c, 0x0d, 0x20]);
            self.out.push(byte);
        }
        if let Some(pad) = self.pad.filter(|pad| pad.place == self.places) {
            self.out.extend(std::iter::repeat_n(0, pad.length));
        }
        self.places += 1;
    }

    pub(super) fn op(&mut self, op: &Op) {
        for pair in &op.pairs {
            self.gap();
            put_value(&mut self.out, self.high_first, &pair.value);
            self.gap();
            put_attribute(&mut self.out, self.high_first, pair.number, pair.wide || pair.number > 255);
        }
        self.gap();
        self.out.push(op.tag);
        if let Some(data) = &op.data {
            self.gap();
            let wide = data.len() > 255 || self.rng.one_in(3);
            put_data(&mut self.out, self.high_first, wide, data);
        }
    }

    pub(super) fn nodes(&mut self, nodes: &[Node]) {
        for node in nodes {
            match node {
                Node::Op(op) => self.op(op),
                Node::Raw(bytes) => self.out.extend(bytes),
                Node::Motif(motif) => self.motif(motif),
            }
        }
    }

    pub(super) fn motif(&mut self, motif: &Motif) {
        let profile = if motif.other_class { other_than(self.profile) } else { self.profile };
        let mut inside = Writer {
            out: header_bytes(profile, motif.high_first, &motif.header),
            profile,
            high_first: motif.high_first,
            space: self.space,
            rng: Rng::new(self.rng.draw(), 1),
            pad: self.pad,
            places: self.places,
        };
        inside.nodes(&motif.body);
        inside.gap();
        self.places = inside.places;
        let mut body = inside.out;
        if let Some(seed) = motif.spoil {
            spoil(&mut Rng::new(seed, 2), &mut body);
        }
        self.op(&op(0x5b).with(139, array(&motif.name, false)));
        let mut rest = &body[..];
        let mut sizes = motif.split.iter();
        while !rest.is_empty() {
            let size = sizes.next().map_or(rest.len(), |&s| s.max(1)).min(rest.len()).min(0xffff);
            let (block, after) = rest.split_at(size);
            let kind = if size > 255 || self.rng.one_in(3) { 0xc1 } else { 0xc0 };
            self.op(&op(0x5c).with(140, number(kind, size as u32)).data(block.to_vec()));
            rest = after;
        }
        self.op(&op(0x5d));
    }
}

/// The bytes of a job.
pub fn write(job: &Job) -> Vec<u8> {
    write_counting(job).0
}

/// The bytes of a job, and how many places it has for white space.
pub(super) fn write_counting(job: &Job) -> (Vec<u8>, usize) {
    let mut w = Writer {
        out: header_bytes(job.profile, job.high_first, &job.header),
        profile: job.profile,
        high_first: job.high_first,
        space: job.space,
        rng: Rng::new(job.space_seed, 3),
        pad: job.pad,
        places: 0,
    };
    w.nodes(&job.nodes);
    w.gap();
    (w.out, w.places)
}

/// One fault in a string of bytes.
pub(super) fn spoil(rng: &mut Rng, bytes: &mut Vec<u8>) {
    if bytes.len() > 15 && rng.one_in(12) {
        // A fault of the header, often one that leaves it well formed.
        let (at, byte) = rng.pick(&[
            (0, 0x27),
            (0, 0x28),
            (0, 0x29),
            (12, b'2'),
            (14, b'0'),
            (14, b'2'),
            (15, b';'),
            (15, b'\r'),
            (1, 0),
            (11, 0),
            (15, 0),
        ]);
        bytes[at] = byte;
        return;
    }
    // Faults behind the header are the more telling ones.
    let from = if bytes.len() > 16 && !rng.one_in(8) { 16 } else { 0 };
    let at = from + rng.below(bytes.len() - from);
    let byte = if rng.one_in(2) { rng.draw() as u8 } else { any_tag(rng) };
    match rng.below(6) {
        0 | 1 if at < bytes.len() => bytes[at] = byte,
        2 if at < bytes.len() => {
            bytes.remove(at);
        }
        3 if at < bytes.len() => bytes[at] = bytes[at].wrapping_add(rng.pick(&[1, 255, 128])),
        4 => bytes.truncate(at),
        _ => bytes.insert(at, byte),
    }
}

pub(super) fn any_tag(rng: &mut Rng) -> u8 {
    match rng.below(5) {
        0 | 1 => rng.pick(&TAGS),
        2 => any_type(rng),
        3 => rng.pick(&[0xf8, 0xf9, 0xfa, 0xfb]),
        _ => {
            rng.pick(&[0x00, 0x20, 0x0a, 0x27, 0x28, 0x29, 0x40, 0x45, 0xbf, 0xc6, 0xc7, 0xce, 0xd6, 0xe6, 0xfc, 0xff])
        }
    }
}
