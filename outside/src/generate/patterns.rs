//! Patterns up to 32 of each persistence and one more, replaced, hidden and dropped, selected in pages and by motifs.

use super::bricks::{begin_page, begin_session, call_of, colour_space, motif_of, open_source};
use super::job::{op, write, Job, Node};
use super::rng::Rng;
use super::shapes::number;
use super::Setting;
use crate::plain::PATTERNS_MAX;
use crate::text::Value;
use std::collections::BTreeSet;

/// A motif: the numbers that it selects, and those that it calls, all defined before it by place.
#[derive(Debug, Clone, Default)]
struct Held {
    selects: Vec<u16>,
    calls: Vec<usize>,
}

/// A session being written, and what it holds.
struct Story<'r> {
    rng: &'r mut Rng,
    nodes: Vec<Node>,
    /// Numbers defined, of the page and of the session.
    defined: [BTreeSet<u16>; 2],
    motifs: Vec<Held>,
    /// Once in so many operators nothing is looked at.
    wild: usize,
}

/// A job of patterns.
pub fn patterns(rng: &mut Rng, set: Setting) -> Vec<u8> {
    let mut nodes = Vec::new();
    for _ in 0..if rng.one_in(4) { 2 } else { 1 } {
        let wild = rng.pick(&[20, 60, 200, 200, 1000]);
        let mut story = Story { rng, nodes: Vec::new(), defined: Default::default(), motifs: Vec::new(), wild };
        story.session();
        nodes.extend(story.nodes);
    }
    let high_first = rng.one_in(2);
    write(&Job { profile: set.profile, high_first, header: None, nodes, space: 0, space_seed: 0, pad: None })
}

/// So many numbers, no two the same: side by side, other in the high byte alone, or any.
fn numbers(rng: &mut Rng, n: usize) -> Vec<u16> {
    let any = rng.draw() as u16;
    let base = rng.pick(&[0, 1, 0x7fe0, 0x8000, 0xffe0, any]);
    let kind = rng.below(3);
    let mut all: Vec<u16> = Vec::new();
    while all.len() < n {
        let i = all.len() as u16;
        let next = match kind {
            0 => base.wrapping_add(i),
            1 => base.wrapping_add(i << 8),
            _ => rng.draw() as u16,
        };
        if !all.contains(&next) {
            all.push(next);
        }
    }
    rng.shuffle(&mut all);
    all
}

/// SetBrushSource with a pattern.
fn select(n: u16) -> Node {
    op(0x63).with(8, number(0xc3, n.into())).node()
}

/// The name of the motif at a place.
fn name_of(place: usize) -> Vec<u8> {
    vec![b'm', place as u8]
}

impl Story<'_> {
    fn session(&mut self) {
        self.nodes.extend([begin_session(), open_source()]);
        match self.rng.below(3) {
            0 => self.places(),
            1 => self.wants(),
            _ => self.pages(),
        }
        self.nodes.extend([op(0x49).node(), op(0x42).node()]);
    }

    fn wild(&mut self) -> bool {
        self.rng.one_in(self.wild)
    }

    fn begin_page(&mut self) {
        self.nodes.push(begin_page());
        // Seldom as the page starts, or in RGB.
        if !self.wild() {
            let space = if self.wild() { 2 } else { 1 };
            self.nodes.push(colour_space(space));
        }
    }

    fn end_page(&mut self) {
        self.nodes.push(op(0x44).node());
        self.defined[0].clear();
    }

    /// A pattern if there is a place for it.
    fn define(&mut self, n: u16, persistence: usize) {
        let own = &self.defined[persistence - 1];
        if own.len() < PATTERNS_MAX || own.contains(&n) || self.wild() {
            self.put(n, persistence);
        }
    }

    /// A pattern with its rows, in one block or two; 1 is the page's, 2 the session's.
    fn put(&mut self, n: u16, persistence: usize) {
        self.defined[persistence - 1].insert(n);
        let (width, height, depth) = (1 + self.rng.below(8), 1 + self.rng.below(2), self.rng.below(3));
        let size = Value { kind: 0xd1, numbers: vec![1, 1], wide: false };
        let begin = op(0xb3).with(100, number(0xc0, 0)).with(98, number(0xc0, depth as u32)).with(103, size);
        let begin = begin.with(108, number(0xc0, width as u32)).with(107, number(0xc0, height as u32));
        let begin = begin.with(105, number(0xc3, n.into())).with(104, number(0xc0, persistence as u32));
        self.nodes.push(begin.node());
        // Up to 8 wide, a row is at most 8 bytes; more than one only with 8 bits and a width above 4.
        let row = if depth == 2 && width > 4 { 8 } else { 4 };
        let blocks = if height == 2 && self.rng.one_in(2) { vec![1, 1] } else { vec![height] };
        let mut from = 0;
        for rows in blocks {
            let read = op(0xb4).with(109, number(0xc0, from as u32)).with(99, number(0xc0, rows as u32));
            let read = read.with(101, number(0xc0, 0)).data(self.rng.bytes(row * rows));
            self.nodes.push(read.node());
            from += rows;
        }
        if !self.rng.one_in(20 * self.wild) {
            self.nodes.push(op(0xb5).node());
        }
    }

    fn is_defined(&self, n: u16) -> bool {
        self.defined.iter().any(|of| of.contains(&n))
    }

    /// Selects one of these that is defined, or any of them.
    fn select(&mut self, all: &[u16]) {
        let n = self.rng.pick(all);
        if self.is_defined(n) || self.wild() {
            self.nodes.push(select(n));
        }
    }

    /// The numbers that a call of a motif selects.
    fn wanted(&self, place: usize) -> BTreeSet<u16> {
        let held = &self.motifs[place];
        let inner = held.calls.iter().flat_map(|&called| self.wanted(called));
        held.selects.iter().copied().chain(inner).collect()
    }

    /// Defines or replaces the motif at a place.
    fn motif(&mut self, place: usize, held: Held) {
        let mut body: Vec<Node> = held.selects.iter().map(|&n| select(n)).collect();
        body.extend(held.calls.iter().map(|&called| call_of(&name_of(called))));
        if self.rng.one_in(2) {
            self.rng.shuffle(&mut body);
        }
        let mut node = motif_of(&name_of(place), body);
        if let Node::Motif(m) = &mut node {
            // Numbers are read in the motif's own byte order.
            m.high_first = self.rng.one_in(2);
        }
        self.nodes.push(node);
        if place == self.motifs.len() {
            self.motifs.push(held);
        } else {
            self.motifs[place] = held;
        }
    }

    /// Calls a motif whose patterns are defined, or any.
    fn call(&mut self, place: usize) {
        let met = self.wanted(place).iter().all(|&n| self.is_defined(n));
        if met || self.wild() {
            self.nodes.push(call_of(&name_of(place)));
        }
    }

    /// Pages with as many of each persistence as there are places, or one less or more, some replaced, some selected.
    fn places(&mut self) {
        let all = numbers(self.rng, PATTERNS_MAX + 2);
        for _ in 0..1 + self.rng.below(3) {
            self.begin_page();
            let kinds = self.rng.pick(&[&[1, 2][..], &[2, 1], &[1], &[2], &[1, 2, 1]]);
            for &persistence in kinds {
                let some = self.rng.pick(&[1, 31, 32, 32, 33]);
                let mut order = all[..some].to_vec();
                self.rng.shuffle(&mut order);
                order.iter().for_each(|&n| self.define(n, persistence));
            }
            if self.rng.one_in(4) {
                self.nodes.push(colour_space(2));
            }
            for _ in 0..self.rng.below(6) {
                self.select(&all);
            }
            if self.rng.one_in(4) {
                // With no place this is 33, in RGB too.
                let (n, persistence) = (self.rng.pick(&all), 1 + self.rng.below(2));
                self.put(n, persistence);
            }
            if self.rng.one_in(8) {
                let persistence = 1 + self.rng.below(2);
                self.put(all[PATTERNS_MAX + 1], persistence);
            }
            self.end_page();
        }
    }

    /// A motif that, through others, selects as many numbers as can be defined, or a few less or more.
    fn wants(&mut self) {
        let all = numbers(self.rng, 72);
        let some = self.rng.pick(&[1, 2, 31, 33, 63, 64, 64, 64, 65, 66, 72]);
        let early = self.rng.one_in(2);
        if early {
            self.selecting_motifs(&all[..some]);
        }
        // All session ones in a page of their own, or in the one that calls.
        self.begin_page();
        let (page, session) = (self.rng.pick(&[0, 31, 32, 32, 32, 32]), self.rng.pick(&[0, 31, 32, 32, 32, 32]));
        all[page..page + session].iter().for_each(|&n| self.define(n, 2));
        if !early || self.rng.one_in(2) {
            self.end_page();
            if !early {
                self.selecting_motifs(&all[..some]);
            }
            self.begin_page();
        }
        all[..page].iter().for_each(|&n| self.define(n, 1));
        let top = self.motifs.len() - 1;
        // Not looked at: what is wanted is to be judged.
        self.nodes.push(call_of(&name_of(top)));
        self.end_page();
        if self.rng.one_in(4) {
            self.motif(0, Held::default());
            self.begin_page();
            self.call(top);
            self.end_page();
        }
    }

    /// Motifs that share these numbers out among them, some twice, and one that calls them all.
    fn selecting_motifs(&mut self, all: &[u16]) {
        let parts = 1 + self.rng.below(4);
        let mut held = vec![Held::default(); parts];
        for &n in all {
            for _ in 0..if self.rng.one_in(5) { 2 } else { 1 } {
                held[self.rng.below(parts)].selects.push(n);
            }
        }
        for (place, mut one) in held.into_iter().enumerate() {
            if place > 0 && self.rng.one_in(3) {
                one.calls.push(place - 1);
            }
            self.motif(place, one);
        }
        self.motif(parts, Held { selects: vec![], calls: (0..parts).collect() });
    }

    /// Pages of a few numbers defined, replaced, hidden and selected, and motifs between them.
    fn pages(&mut self) {
        let some = 1 + self.rng.below(5);
        let all = numbers(self.rng, some);
        for _ in 0..1 + self.rng.below(4) {
            for _ in 0..self.rng.below(4) {
                // Some replace one that others call.
                let place = self.rng.below(self.motifs.len() + 1);
                let selects = (0..self.rng.below(3)).map(|_| self.rng.pick(&all)).collect();
                let calls = if place > 0 && self.rng.one_in(3) { vec![self.rng.below(place)] } else { vec![] };
                self.motif(place, Held { selects, calls });
            }
            self.begin_page();
            for _ in 0..self.rng.below(12) {
                match self.rng.below(8) {
                    0..=2 => {
                        let (n, persistence) = (self.rng.pick(&all), 1 + self.rng.below(2));
                        self.define(n, persistence);
                    }
                    3 | 4 => self.select(&all),
                    5 | 6 if !self.motifs.is_empty() => {
                        let place = self.rng.below(self.motifs.len());
                        self.call(place);
                    }
                    _ => self.nodes.push(op(0x86).node()),
                }
            }
            self.end_page();
        }
    }
}

#[cfg(test)]
mod tests {
    use super::*;
    use crate::generate::{judged, setting};
    use std::collections::BTreeMap;

    #[test]
    fn patterns_pass_and_break_off() {
        let mut seen = BTreeMap::new();
        for i in 0..2000 {
            *seen.entry(judged(&patterns(&mut Rng::new(61, i), setting(i)), setting(i)).code).or_insert(0) += 1;
        }
        assert!([0, 10, 25, 33, 34].iter().all(|code| seen.contains_key(code)), "{seen:?}");
        assert!(seen[&0] > 900 && seen[&33] > 100 && seen[&34] > 100, "{seen:?}");
    }

    #[test]
    fn numbers_differ() {
        for i in 0..200 {
            let all = numbers(&mut Rng::new(62, i), 72);
            assert_eq!(all.iter().collect::<BTreeSet<_>>().len(), 72);
        }
    }
}
