//! Jobs padded with zero bytes, as an adapter of the serial line does it.

use super::job::{write, write_counting, Job, Pad};
use super::maker::valid;
use super::rng::Rng;
use super::Setting;
use crate::plain::{HEADER_MAX, JOB_MAX};

/// A job that passes unpadded, with zeros in one place: between items, in job or motif, or where none may stand.
pub fn padded(rng: &mut Rng, set: Setting) -> Vec<u8> {
    let mut job = valid(rng, set);
    job.space = 0;
    match rng.below(8) {
        0 => in_header(rng, &write(&job)),
        1 => in_an_item(rng, &write(&job)),
        2 => up_to_the_limit(rng, job),
        _ => between_items(rng, job),
    }
}

/// A few zeros, or many, between two items of the job or of a motif.
fn between_items(rng: &mut Rng, mut job: Job) -> Vec<u8> {
    let (_, places) = write_counting(&job);
    let length = if rng.one_in(4) { rng.below(17_500) } else { rng.pick(&[1, 1, 2, 3, 7, 255, 256, 257]) };
    job.pad = Some(Pad { place: rng.below(places), length });
    write(&job)
}

/// As many zeros behind the last item as the job may have bytes, or one more.
fn up_to_the_limit(rng: &mut Rng, mut job: Job) -> Vec<u8> {
    let (bytes, places) = write_counting(&job);
    let length = (JOB_MAX + rng.below(2)).saturating_sub(bytes.len());
    job.pad = Some(Pad { place: places - 1, length });
    write(&job)
}

/// A zero in place of one of the first bytes, in front of them all, or in the text of a header.
fn in_header(rng: &mut Rng, job: &[u8]) -> Vec<u8> {
    let mut out = job.to_vec();
    let end = job.iter().take(HEADER_MAX).position(|&b| b == b'\n').unwrap_or(0);
    match rng.below(3) {
        0 => out.insert(0, 0),
        1 => out[rng.below(end + 1)] = 0,
        _ => out.insert(16.min(end + 1), 0),
    }
    out
}

/// A zero put in anywhere behind the header: between two items white space, inside one a byte of it.
fn in_an_item(rng: &mut Rng, job: &[u8]) -> Vec<u8> {
    let mut out = job.to_vec();
    out.insert(16 + rng.below(job.len() - 15), 0);
    out
}

#[cfg(test)]
mod tests {
    use super::*;
    use crate::generate::job::Node;
    use crate::generate::{judged, setting};
    use std::collections::BTreeSet;

    #[test]
    fn zeros_between_items_change_no_verdict() {
        for index in 0..600 {
            let mut rng = Rng::new(21, index);
            let mut job = valid(&mut rng, setting(index));
            job.space = 0;
            // In one block, so that a longer motif has no more of them.
            for node in &mut job.nodes {
                if let Node::Motif(motif) = node {
                    motif.split.clear();
                }
            }
            let (before, padded) = (write(&job), between_items(&mut rng, job));
            let (before, padded) = (judged(&before, setting(index)), judged(&padded, setting(index)));
            if !matches!(padded.code, 1 | 19) {
                assert_eq!((padded.code, padded.records), (before.code, before.records), "{index}");
                assert_eq!(padded.performed, before.performed, "{index}");
            }
        }
    }

    #[test]
    fn every_place_may_be_padded() {
        let mut job = valid(&mut Rng::new(3, 3), setting(0));
        job.space = 0;
        let (bytes, places) = write_counting(&job);
        let lengths: BTreeSet<usize> = (0..places)
            .map(|place| {
                job.pad = Some(Pad { place, length: 1 });
                let padded = write(&job);
                assert_eq!(judged(&padded, setting(0)).code, 0, "{place}");
                padded.len() - bytes.len()
            })
            .collect();
        assert!(lengths.contains(&1) && !lengths.contains(&0), "{lengths:?}");
    }

    #[test]
    fn padded_jobs_pass_and_break_off() {
        let seen: BTreeSet<u32> =
            (0..2000).map(|i| judged(&padded(&mut Rng::new(22, i), setting(i)), setting(i)).code).collect();
        assert!([0, 1, 2, 6, 19].iter().all(|code| seen.contains(code)), "{seen:?}");
    }
}
