//! Jobs that keep the rules, or those of the layout.

use super::job::{op, Job, Motif, Node, Op, Pair};
use super::rng::Rng;
use super::shapes::{array, good_value, number, shape_of, shapes_of, Need, Shape};
use super::Setting;
use crate::plain::{self, Profile};
use crate::text::Value;

/// The state of a page as the maker knows it.
#[derive(Debug, Clone)]
pub(super) struct Page {
    cursor: bool,
    gray: bool,
    saved: Vec<(bool, bool)>,
    /// Most saved at a time.
    most: usize,
    reads: bool,
    count: u64,
    deep: u32,
    /// Numbers of the patterns that a motif selects.
    wants: Vec<u16>,
}

/// A motif as the maker knows it; it sets cursor and colour space before it needs them.
#[derive(Debug, Clone)]
pub(super) struct Held {
    name: Vec<u8>,
    after: Page,
    /// Whether a motif has called it, which a replacement would change.
    called: bool,
}

pub(super) struct Maker {
    pub(super) rng: Rng,
    pub(super) set: Setting,
    pub(super) held: Vec<Held>,
    pub(super) open: bool,
    /// Numbers of the patterns that are defined, of the page and of the session.
    patterns: [Vec<u16>; 2],
    pub(super) nodes: Vec<Node>,
    /// Once in so many operators the state is not looked at; 0 never.
    wild: usize,
}

impl Page {
    /// A page that starts as the setting says.
    pub(super) fn new(set: Setting) -> Page {
        Page {
            cursor: false,
            gray: set.gray,
            saved: Vec::new(),
            most: 0,
            reads: false,
            count: 0,
            deep: 1,
            wants: Vec::new(),
        }
    }

    fn bring_back(&mut self) {
        (self.cursor, self.gray) = self.saved.pop().unwrap_or_default();
    }
}

impl Maker {
    pub(super) fn new(rng: Rng, set: Setting) -> Maker {
        Maker { rng, set, held: Vec::new(), open: false, patterns: Default::default(), nodes: Vec::new(), wild: 0 }
    }

    pub(super) fn pair(&mut self, tag: u8, n: u16) -> Pair {
        let shape = shape_of(self.set.profile, tag, n).unwrap_or(Shape::N(0, 0xffff));
        Pair { value: good_value(&mut self.rng, shape), number: n, wide: self.rng.one_in(6) }
    }

    /// An operator with right attributes in any order; of a choice the one at `choice`.
    pub(super) fn op(&mut self, tag: u8, choice: usize) -> Op {
        let mut made = op(tag);
        let mut seen = 0;
        let all: Vec<_> = shapes_of(self.set.profile, tag).collect();
        for (n, _, need) in all {
            let take = match need {
                Need::Must => true,
                Need::May => self.rng.one_in(2),
                Need::Choice => {
                    seen += 1;
                    // A line takes the first, or the other two together.
                    seen - 1 == choice || matches!(tag, 0x9b | 0x9d) && choice == 1 && seen == 3
                }
            };
            if take && made.pairs.iter().all(|p| p.number != n) {
                let pair = self.pair(tag, n);
                made.pairs.push(pair);
            }
        }
        for i in (1..made.pairs.len()).rev() {
            let j = self.rng.below(i + 1);
            made.pairs.swap(i, j);
        }
        made
    }

    pub(super) fn set(made: &mut Op, n: u16, value: Value) {
        if let Some(p) = made.pairs.iter_mut().find(|p| p.number == n) {
            p.value = value;
        }
    }

    /// A line with points in its data.
    pub(super) fn points(&mut self, tag: u8) -> Op {
        let mut made = self.op(tag, 1);
        let n = 1 + self.rng.below(6);
        let kind = self.rng.below(4);
        let width = self.rng.pick(&[0xc0, 0xc1]);
        Self::set(&mut made, 77, number(width, n as u32));
        Self::set(&mut made, 80, number(0xc0, kind as u32));
        let bytes = self.rng.bytes(n * if kind < 2 { 2 } else { 4 });
        made.data(bytes)
    }

    /// Drops what a session holds.
    pub(super) fn forget(&mut self) {
        self.held.clear();
        self.patterns = Default::default();
    }

    /// An image with all its rows.
    pub(super) fn image(&mut self) -> Vec<Op> {
        self.rows(0xb0)
    }

    /// A pattern with all its rows, of a few numbers, so that some are replaced or hide others.
    pub(super) fn pattern(&mut self) -> Vec<Op> {
        let persistence = self.rng.below(2);
        let defined = &self.patterns[persistence];
        let number_of = if defined.len() < plain::PATTERNS_MAX { self.any_pattern() } else { self.rng.pick(defined) };
        if !self.patterns[persistence].contains(&number_of) {
            self.patterns[persistence].push(number_of);
        }
        let mut all = self.rows(0xb3);
        Self::set(&mut all[0], 104, number(0xc0, persistence as u32 + 1));
        Self::set(&mut all[0], 105, number(0xc3, number_of.into()));
        all
    }

    /// The number of a pattern, often one of a few.
    fn any_pattern(&mut self) -> u16 {
        let any = self.rng.draw() as u16;
        self.rng.pick(&[0, 1, 1, 2, 0x7fff, 0x8000, 0xffff, any])
    }

    fn defined(&self, number: u16) -> bool {
        self.patterns.iter().any(|of| of.contains(&number))
    }

    /// SetBrushSource with a pattern that is defined, or any if wild; a motif may want one that is not, and is then not called.
    fn select(&mut self, page: &mut Page, inside: bool, wild: bool) -> Vec<Op> {
        let of = if inside { self.patterns[1].clone() } else { self.patterns.concat() };
        let chosen =
            if of.is_empty() || wild || inside && self.rng.one_in(6) { self.any_pattern() } else { self.rng.pick(&of) };
        if !inside && !wild && !self.defined(chosen) {
            return vec![];
        }
        if inside {
            page.wants.push(chosen);
        }
        let mut made = self.op(0x63, 3);
        Self::set(&mut made, 8, number(0xc3, chosen.into()));
        vec![made]
    }

    /// An image or pattern, by the tag of its Begin, with all its rows.
    fn rows(&mut self, tag: u8) -> Vec<Op> {
        let (width, height, depth) = (1 + self.rng.below(70), 1 + self.rng.below(5), self.rng.below(3));
        let mut begin = self.op(tag, 0);
        let kind = self.rng.pick(&[0xc0, 0xc1]);
        Self::set(&mut begin, 98, number(0xc0, depth as u32));
        Self::set(&mut begin, 108, number(kind, width as u32));
        Self::set(&mut begin, 107, number(kind, height as u32));
        let mut all = vec![begin];
        let mut rows = 0;
        while rows < height {
            let block = 1 + self.rng.below(height - rows);
            let mut read = self.op(tag + 1, 0);
            self.fill(&mut read, (width as u32, depth as u32), rows as u32, block as u32);
            all.push(read);
            rows += block;
        }
        all.push(op(tag + 2));
        all
    }

    /// Puts rows into an operator that reads them; in class 2;1 perhaps padded otherwise, and with their length.
    fn fill(&mut self, read: &mut Op, (width, depth): (u32, u32), from: u32, rows: u32) {
        let kind = self.rng.pick(&[0xc0, 0xc1]);
        Self::set(read, 109, number(kind, from));
        Self::set(read, 99, number(kind, rows));
        let pad = read.pairs.iter().find(|p| p.number == 110).map_or(4, |p| p.value.numbers[0]);
        let length = plain::row_bytes(width, depth, pad) as u32 * rows;
        let least = [0xff, 0xffff].iter().filter(|&&most| length > most).count() as u8;
        let kind = 0xc0 + least + self.rng.below(3 - usize::from(least)) as u8;
        Self::set(read, 111, number(kind, length));
        read.data = Some(self.rng.bytes(length as usize));
    }

    /// A call of a held motif that keeps the rules, or of any if wild.
    pub(super) fn call(&mut self, page: &mut Page, inside: bool, wild: bool) -> Option<Op> {
        if self.held.is_empty() {
            return None;
        }
        let index = self.rng.below(self.held.len());
        let wanted = inside || self.held[index].after.wants.iter().all(|&number| self.defined(number));
        let held = &mut self.held[index];
        let after = &held.after;
        let fits = wanted
            && page.saved.len() + after.most <= 24
            && (self.open || inside || !after.reads)
            && page.count + after.count < 20_000;
        if (inside && after.deep >= 32 && !wild) || !fits && !wild {
            return None;
        }
        page.cursor = after.cursor;
        page.gray = after.gray;
        page.most = page.most.max(page.saved.len() + after.most);
        page.reads |= after.reads;
        page.count += after.count;
        page.deep = page.deep.max(after.deep + 1);
        page.wants.extend(&after.wants);
        held.called |= inside;
        let name = held.name.clone();
        let wide = self.rng.one_in(4);
        Some(op(0x5e).with(139, array(&name, wide)))
    }

    /// About `n` operators of a page that keep the rules of its state, balanced at the end.
    pub(super) fn page(&mut self, n: usize, page: &mut Page, inside: bool) -> Vec<Node> {
        let mut out = Vec::new();
        let floor = page.saved.len();
        for _ in 0..n {
            let wild = self.wild > 0 && self.rng.one_in(self.wild);
            let ops = match self.rng.below(24) {
                which @ 1..=4 => self.save_or_bring_back(which, page, floor, wild),
                which @ 5..=9 => vec![self.change(which, page)],
                22 if inside || !self.rng.one_in(3) => self.select(page, inside, wild),
                which @ (15..=18 | 22..) => self.needing(which, page, inside, wild),
                19..=21 => self.call(page, inside, wild).into_iter().collect(),
                which => vec![self.indifferent(which, page, wild)],
            };
            page.count += ops.len() as u64;
            out.extend(ops.into_iter().map(Op::node));
        }
        while page.saved.len() > floor {
            page.bring_back();
            page.count += 1;
            out.push(op(0x60).node());
        }
        out
    }

    /// PushGS or PopGS, where the page allows it.
    fn save_or_bring_back(&mut self, which: usize, page: &mut Page, floor: usize, wild: bool) -> Vec<Op> {
        match which {
            1 | 2 if page.saved.len() < 24 || wild => {
                page.saved.push((page.cursor, page.gray));
                page.most = page.most.max(page.saved.len());
                vec![op(0x61)]
            }
            3 | 4 if page.saved.len() > floor => {
                page.bring_back();
                vec![op(0x60)]
            }
            _ => vec![],
        }
    }

    /// An operator that changes cursor or colour space.
    fn change(&mut self, which: usize, page: &mut Page) -> Op {
        match which {
            5 | 6 => {
                page.cursor = true;
                self.op(0x6b, 0)
            }
            7 if self.set.profile == Profile::Two && self.rng.one_in(2) => {
                (page.cursor, page.gray) = (false, self.set.gray);
                op(0x57)
            }
            7 => {
                page.cursor = false;
                op(0x85)
            }
            _ => {
                let mut made = self.op(0x6a, 0);
                page.gray = self.rng.one_in(2);
                Self::set(&mut made, 3, number(0xc0, if page.gray { 1 } else { 2 }));
                made
            }
        }
    }

    /// An operator that needs no cursor and no source.
    fn indifferent(&mut self, which: usize, page: &Page, wild: bool) -> Op {
        match which {
            0 => self.op(0x47, 0),
            10 | 11 => {
                let tag = self.rng.pick(&[0x63, 0x79]);
                let right = if page.gray { [1, 2] } else { [0, 2] };
                let choice = if wild { self.rng.below(3) } else { self.rng.pick(&right) };
                self.op(tag, choice)
            }
            12 => self.op(0x7a, 0),
            13 => self.op(0xa0, 0),
            _ => op(self.rng.pick(&[0x84, 0x86])),
        }
    }

    /// An operator that needs the cursor, where it is set, or any if wild; some need gray and the source too.
    fn needing(&mut self, which: usize, page: &mut Page, inside: bool, wild: bool) -> Vec<Op> {
        let data = self.open || inside;
        match which {
            15 if page.cursor || wild => vec![self.op(0x6c, 0)],
            16 if page.cursor || wild => {
                let tag = self.rng.pick(&[0x9b, 0x9d]);
                vec![self.op(tag, 0)]
            }
            17 if (page.cursor && data) || wild => {
                let tag = self.rng.pick(&[0x9b, 0x9d]);
                page.reads = true;
                vec![self.points(tag)]
            }
            18 if (page.cursor && page.gray && data) || (wild && self.rng.one_in(3)) => {
                page.reads = true;
                self.image()
            }
            // Only in a page, and no cursor is needed.
            22.. if !inside && (page.gray && data || wild && self.rng.one_in(3)) => self.pattern(),
            _ => vec![],
        }
    }

    pub(super) fn name(&mut self) -> Vec<u8> {
        loop {
            let name = match self.rng.below(3) {
                0 => vec![b'a' + self.rng.below(26) as u8],
                1 => format!("S{} wave", self.rng.below(100)).into_bytes(),
                _ => {
                    let n = 1 + self.rng.below(16);
                    self.rng.bytes(n)
                }
            };
            if self.held.iter().all(|h| h.name != name) {
                return name;
            }
        }
    }

    /// A held motif to be replaced, taken out of those held; unless wild it is one that no motif calls.
    fn replaced(&mut self) -> Option<Held> {
        if self.held.is_empty() || !self.rng.one_in(4) {
            return None;
        }
        let index = self.rng.below(self.held.len());
        (self.wild > 0 || !self.held[index].called).then(|| self.held.remove(index))
    }

    /// A motif, perhaps in place of a held one; unless wild it needs nothing of the page that calls it.
    pub(super) fn motif(&mut self, n: usize) -> Node {
        let old = self.replaced();
        let mut page = Page::new(self.set);
        let mut body = Vec::new();
        if self.wild == 0 || self.rng.one_in(3) {
            page.gray = self.rng.one_in(2);
            page.cursor = true;
            body.push(self.op(0x6b, 0).node());
            body.push(op(0x6a).with(3, number(0xc0, if page.gray { 1 } else { 2 })).node());
            page.count = 2;
        }
        body.extend(self.page(n, &mut page, true));
        let called = old.as_ref().is_some_and(|held| held.called);
        let name = old.map_or_else(|| self.name(), |held| held.name);
        self.held.push(Held { name: name.clone(), after: page, called });
        let header = self.rng.one_in(5).then(|| b"a motif".to_vec());
        let split = (0..self.rng.below(4)).map(|_| 1 + self.rng.below(40)).collect();
        Node::Motif(Motif {
            other_class: false,
            name,
            high_first: self.rng.one_in(2),
            header,
            body,
            split,
            spoil: None,
        })
    }

    pub(super) fn session(&mut self, motifs: usize, pages: usize, size: usize) {
        self.forget();
        self.open = false;
        let begin = self.op(0x41, 0);
        self.nodes.push(begin.node());
        let mut defined = 0;
        for _ in 0..motifs + pages {
            if self.rng.one_in(3) || motifs > 0 && !self.open {
                self.turn_source();
            }
            if self.rng.one_in(5) {
                let comment = self.op(0x47, 0);
                self.nodes.push(comment.node());
            }
            if self.open && defined < motifs {
                defined += 1;
                let n = self.rng.below(size);
                let motif = self.motif(n);
                self.nodes.push(motif);
            } else {
                self.whole_page(size);
            }
        }
        if self.open {
            self.nodes.push(op(0x49).node());
            self.open = false;
        }
        self.nodes.push(op(0x42).node());
    }

    /// Opens or closes the source.
    fn turn_source(&mut self) {
        self.open = !self.open;
        let made = if self.open { self.op(0x48, 0) } else { op(0x49) };
        self.nodes.push(made.node());
    }

    /// A page from BeginPage to EndPage.
    fn whole_page(&mut self, size: usize) {
        let begin = self.op(0x43, 0);
        self.nodes.push(begin.node());
        let n = self.rng.below(2 * size);
        let ops = self.page(n, &mut Page::new(self.set), false);
        self.nodes.extend(ops);
        let end = self.op(0x44, 0);
        self.nodes.push(end.node());
        self.patterns[0].clear();
    }

    pub(super) fn job(mut self, space: usize) -> Job {
        let header = self.rng.one_in(4).then(|| {
            let n = self.rng.below(30);
            self.rng.bytes(n).into_iter().filter(|&b| b != b'\n').collect()
        });
        let high_first = self.rng.one_in(2);
        Job {
            profile: self.set.profile,
            high_first,
            header,
            nodes: self.nodes,
            space,
            space_seed: self.rng.draw(),
            pad: None,
        }
    }
}

/// A job that passes, given room for its list.
pub fn valid(rng: &mut Rng, set: Setting) -> Job {
    let mut maker = Maker::new(rng.clone(), set);
    rng.draw();
    let sessions = if rng.one_in(3) { 1 + rng.below(4) } else { 1 };
    for _ in 0..sessions {
        let (motifs, pages, size) = (rng.below(6), rng.below(4), 3 + rng.below(20));
        maker.session(motifs, pages, size);
    }
    let space = rng.pick(&[0, 0, 2, 5, 12]);
    maker.job(space)
}

/// A job rich in cursor, colour, saves and calls that keeps the layout rules but not always the state's.
pub fn rich(rng: &mut Rng, set: Setting) -> Job {
    let mut maker = Maker::new(rng.clone(), set);
    rng.draw();
    maker.wild = rng.pick(&[2, 4, 8, 20, 60]);
    let (motifs, pages, size) = (1 + rng.below(12), 1 + rng.below(3), 3 + rng.below(12));
    maker.session(motifs, pages, size);
    maker.job(0)
}

#[cfg(test)]
mod tests {
    use super::*;
    use crate::generate::{judged, setting, write};
    use crate::text;

    #[test]
    fn valid_jobs_pass() {
        for index in 0..3000 {
            let job = write(&valid(&mut Rng::new(11, index), setting(index)));
            let verdict = judged(&job, setting(index));
            if job.len() <= plain::JOB_MAX {
                assert_eq!(verdict.code, 0, "{index} {verdict:?}\n{}", text::list(&job));
            }
        }
    }
}
