//! Motifs whose names are nearly one another, held, replaced and called in every order.

use super::bricks::{
    begin_page, begin_session, call_of, ends_outside, motif_of, open_source, point, small_body, times,
};
use super::job::{op, write, Job, Node};
use super::rng::Rng;
use super::shapes::array;
use super::Setting;

type Name = Vec<u8>;

const LONGEST: usize = 16;

/// Bytes that stand in another order as signed numbers or as letters, and the one that could fill up a shorter name.
const BYTES: [u8; 12] = [0, 0, 1, b'A', b'a', b'a', b'b', 0x7f, 0x80, 0x81, 0xfe, 0xff];

/// What tells the motifs of a session apart beside the number of their operators.
#[derive(Debug, Clone, Copy, PartialEq)]
enum Style {
    Count,
    /// Some need the cursor, which is set before a call of those alone.
    Cursor,
    /// Some call another.
    Calls,
    /// Some need or change anything.
    Any,
}

/// A motif that is held, and whether it needs the cursor.
struct Held {
    name: Name,
    line: bool,
}

/// A job of such motifs.
pub fn names(rng: &mut Rng, set: Setting) -> Vec<u8> {
    let nodes = sessions(rng);
    written(rng, set, nodes)
}

fn written(rng: &mut Rng, set: Setting, nodes: Vec<Node>) -> Vec<u8> {
    let high_first = rng.one_in(2);
    write(&Job { profile: set.profile, high_first, header: None, nodes, space: 0, space_seed: 0, pad: None })
}

/// A session, or two with the same names.
fn sessions(rng: &mut Rng) -> Vec<Node> {
    let n = if rng.one_in(3) { rng.pick(&[62, 63, 64, 64, 64, 65]) } else { 1 + rng.below(33) };
    let all = family(rng, n);
    let mut nodes = session(rng, &all);
    if rng.one_in(6) {
        nodes.extend(session(rng, &all));
    }
    nodes
}

fn byte(rng: &mut Rng) -> u8 {
    if rng.one_in(4) {
        rng.draw() as u8
    } else {
        rng.pick(&BYTES)
    }
}

/// A name nearly one of these: a byte shorter or longer, or other in one byte, often the first, eighth, ninth or last.
fn near(rng: &mut Rng, all: &[Name]) -> Name {
    let mut out = all[rng.below(all.len())].clone();
    let last = out.len() - 1;
    match rng.below(4) {
        0 if last > 0 => {
            out.pop();
        }
        1 if out.len() < LONGEST => out.push(byte(rng)),
        _ => {
            let any = rng.below(out.len());
            let at = rng.pick(&[0, 7, 8, last, any]).min(last);
            out[at] = if rng.one_in(2) { byte(rng) } else { out[at].wrapping_add(rng.pick(&[1, 128, 255])) };
        }
    }
    out
}

/// So many names, no two the same: of one kind, and near those where there are no more of it.
fn family(rng: &mut Rng, n: usize) -> Vec<Name> {
    let kind = rng.below(7);
    let long = rng.pick(&[1, 2, 7, 8, 9, 15, 16, 16, 16]);
    let at = rng.pick(&[0, 7, 8, long - 1]).min(long - 1);
    // One byte again and again, or any.
    let same = rng.one_in(2).then(|| byte(rng));
    let base: Name = (0..LONGEST).map(|_| same.unwrap_or_else(|| byte(rng))).collect();
    let mut all = vec![base[..long].to_vec()];
    while all.len() < n {
        let cut = 1 + rng.below(LONGEST);
        let mut name = match kind {
            // Each begins the longer ones.
            0 | 1 => base[..cut].to_vec(),
            // Each has so many zero bytes behind the same start.
            2 => [&base[..long.min(cut)], &vec![0; cut - long.min(cut)][..]].concat(),
            // Each has its own byte in the same place.
            3 | 4 => [&base[..at], &[byte(rng)], &base[at + 1..long]].concat(),
            // Each is near one before it.
            5 => all[0].clone(),
            _ => base[..cut].iter().map(|_| byte(rng)).collect(),
        };
        while all.contains(&name) {
            name = near(rng, &all);
        }
        all.push(name);
    }
    all
}

/// Rising, falling, from both ends inwards, or in any order.
fn in_order(rng: &mut Rng, all: &[Name]) -> Vec<Name> {
    let mut out = all.to_vec();
    out.sort();
    match rng.below(5) {
        0 => {}
        1 => out.reverse(),
        2 => {
            let (low, high) = out.split_at(out.len() / 2);
            let high: Vec<&Name> = high.iter().rev().collect();
            out = (0..high.len()).flat_map(|i| [Some(high[i]), low.get(i)]).flatten().cloned().collect();
        }
        _ => rng.shuffle(&mut out),
    }
    out
}

/// A motif of so many operators and what the style adds; it may call one of `others`, or a name near one.
fn motif(rng: &mut Rng, style: Style, name: &[u8], count: usize, others: &[Name]) -> (Node, Held) {
    let mut body = times(op(0x86).node(), count);
    let line = style == Style::Cursor && rng.one_in(2);
    match style {
        Style::Cursor if line => body.insert(0, point(0x9b, 69)),
        Style::Calls if !others.is_empty() && rng.one_in(3) => {
            let called = if rng.one_in(30) { near(rng, others) } else { others[rng.below(others.len())].clone() };
            body.push(call_of(&called));
        }
        Style::Any if rng.one_in(4) => body.extend(small_body(rng)),
        _ => {}
    }
    (motif_of(name, body), Held { name: name.to_vec(), line })
}

/// A page that calls these in turn.
fn page(rng: &mut Rng, style: Style, called: &[&Held]) -> Vec<Node> {
    let mut out = vec![begin_page(), point(0x6b, 76)];
    for held in called {
        match style {
            Style::Cursor if held.line => out.push(point(0x6b, 76)),
            Style::Cursor => out.push(op(0x85).node()),
            _ => {}
        }
        out.push(op(0x5e).with(139, array(&held.name, rng.one_in(8))).node());
    }
    out.push(op(0x44).node());
    out
}

/// A few of those held, or each in some order, some more than once: one found in place of another changes the number performed.
fn called<'a>(rng: &mut Rng, held: &'a [Held], each: bool) -> Vec<&'a Held> {
    if !each {
        return (0..1 + rng.below(8)).map(|_| &held[rng.below(held.len())]).collect();
    }
    let names: Vec<Name> = held.iter().map(|h| h.name.clone()).collect();
    let order = in_order(rng, &names);
    let of = |name: &Name| held.iter().find(|h| h.name == *name);
    order.iter().filter_map(of).flat_map(|h| vec![h; 1 + rng.below(5)]).collect()
}

/// Motifs of these names, some replaced, pages that call them, at last perhaps a call of a name near one.
fn session(rng: &mut Rng, all: &[Name]) -> Vec<Node> {
    let style = rng.pick(&[Style::Count, Style::Cursor, Style::Cursor, Style::Calls, Style::Calls, Style::Any]);
    let order = in_order(rng, all);
    let mut nodes = vec![begin_session(), open_source()];
    let mut held: Vec<Held> = Vec::new();
    for (i, name) in order.iter().enumerate() {
        // Seldom one that calls a name held later.
        let others = if rng.one_in(40) { &order[..] } else { &order[..i] };
        let (node, new) = motif(rng, style, name, i, others);
        nodes.push(node);
        held.push(new);
        if rng.one_in(16) {
            let some = called(rng, &held, false);
            nodes.extend(page(rng, style, &some));
        }
    }
    for more in 0..rng.below(6) {
        let i = rng.below(held.len());
        let (node, new) = motif(rng, style, &order[i], order.len() + more, &order[..i]);
        nodes.push(node);
        held[i] = new;
        if rng.one_in(3) {
            let some = called(rng, &held, false);
            nodes.extend(page(rng, style, &some));
        }
    }
    let each = !rng.one_in(3);
    let some = called(rng, &held, each);
    nodes.extend(page(rng, style, &some));
    if rng.one_in(4) {
        let name = near(rng, &order);
        nodes.extend(page(rng, style, &[&Held { name, line: true }]));
    }
    nodes.extend(ends_outside());
    nodes
}

#[cfg(test)]
mod tests {
    use super::*;
    use crate::generate::{judged, setting};
    use std::collections::BTreeMap;

    #[test]
    fn names_pass_and_break_off() {
        let mut seen = BTreeMap::new();
        for i in 0..3000 {
            *seen.entry(judged(&names(&mut Rng::new(51, i), setting(i)), setting(i)).code).or_insert(0) += 1;
        }
        assert!([0, 19, 21, 24, 32].iter().all(|code| seen.contains_key(code)), "{seen:?}");
        assert!(seen[&0] > 1200, "{seen:?}");
    }

    #[test]
    fn names_differ_and_are_no_longer_than_names_may_be() {
        for i in 0..600 {
            let mut rng = Rng::new(52, i);
            let n = 1 + rng.below(65);
            let mut all = family(&mut rng, n);
            assert!(all.iter().all(|name| (1..=LONGEST).contains(&name.len())));
            let mut again = in_order(&mut rng, &all);
            all.sort();
            again.sort();
            assert_eq!(all, again);
            all.dedup();
            assert_eq!(all.len(), n);
        }
    }

    /// The places of the motifs in a job.
    fn places(nodes: &[Node]) -> Vec<usize> {
        (0..nodes.len()).filter(|&i| matches!(nodes[i], Node::Motif(_))).collect()
    }

    #[test]
    fn two_names_exchanged_are_seen() {
        let (mut passed, mut seen) = (0, 0);
        for i in 0..1500 {
            let mut rng = Rng::new(53, i);
            let mut nodes = sessions(&mut rng);
            let before = judged(&written(&mut Rng::new(1, 1), setting(i), nodes.clone()), setting(i));
            let motifs = places(&nodes);
            let (a, b) = (motifs[rng.below(motifs.len())], motifs[rng.below(motifs.len())]);
            if before.code != 0 || nodes[a] == nodes[b] {
                continue;
            }
            let (one, other) = (nodes[a].clone(), nodes[b].clone());
            if let (Node::Motif(one), Node::Motif(other)) = (one, other) {
                for (at, name) in [(a, other.name), (b, one.name)] {
                    if let Node::Motif(m) = &mut nodes[at] {
                        m.name = name;
                    }
                }
            }
            let after = judged(&written(&mut Rng::new(1, 1), setting(i), nodes), setting(i));
            passed += 1;
            seen += usize::from(after != before);
        }
        assert!(passed > 500 && seen * 4 > passed * 3, "{seen} of {passed}");
    }

    #[test]
    fn the_order_of_names_changes_no_number() {
        for i in 0..300 {
            let mut rng = Rng::new(54, i);
            let n = 1 + rng.below(64);
            let all = family(&mut rng, n);
            let mut motifs: Vec<Node> = Vec::new();
            let mut held = Vec::new();
            for (count, name) in all.iter().enumerate() {
                let (node, new) = motif(&mut rng, Style::Calls, name, count, &all[..count]);
                motifs.push(node);
                held.push(new);
            }
            let calls = page(&mut rng.clone(), Style::Calls, &called(&mut rng, &held, true));
            let mut answers = (0..4).map(|_| {
                rng.shuffle(&mut motifs);
                let start = vec![begin_session(), open_source()];
                let nodes = [start, motifs.clone(), calls.clone(), ends_outside().to_vec()].concat();
                judged(&written(&mut Rng::new(1, 1), setting(i), nodes), setting(i))
            });
            let first = answers.next();
            assert!(answers.all(|answer| Some(answer) == first));
        }
    }
}
