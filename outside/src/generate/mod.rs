//! Jobs made from a seed: valid ones, edges of every limit, broken rules, mutants, rich states, padded ones, reals, rings and
//! replacements of motifs, names near one another, patterns, tags, truncations.
//!
//! `case(seed, index)` is the same for the same numbers, so a difference can be made again.

mod bricks;
mod broken;
mod job;
mod limits;
mod maker;
mod motifs;
mod mutant;
mod names;
mod padding;
mod patterns;
mod reals;
mod rng;
mod runs;
mod shapes;
mod tags;

pub use broken::{all_rules, broken, Broken};
pub use job::write;
pub use limits::limit;
pub use maker::{rich, valid};
pub use motifs::motifs;
pub use mutant::mutant;
pub use names::names;
pub use padding::padded;
pub use patterns::patterns;
pub use reals::reals;
pub use rng::Rng;
pub use runs::runs;
pub use shapes::{class_of, shapes_of, Class, Need, Size, CLASSES, TAGS};
pub use tags::tags;

use crate::plain::{self, Profile};

/// All jobs that a job cut off anywhere is.
pub fn truncations(job: &[u8]) -> impl Iterator<Item = &[u8]> {
    (0..=job.len()).map(|n| &job[..n])
}
/// What a job is made for.
#[derive(Debug, Clone, Copy, PartialEq)]
pub struct Setting {
    /// Pages start in gray, else in RGB.
    pub gray: bool,
    pub profile: Profile,
}

/// One job with both buffers as lent.
#[derive(Debug, Clone, PartialEq)]
pub struct Case {
    pub kind: &'static str,
    pub job: Vec<u8>,
    pub work: Vec<u8>,
    pub list: Vec<u8>,
    /// What is asked for the start: 0 for gray, any other number for RGB.
    pub rgb: u32,
}

/// Bytes of the jobs whose truncations are taken one after the other.
const CUT: u64 = 512;

/// Case `index` of a seed; kinds take turns, and each counts its own.
pub fn case(seed: u64, index: u64) -> Case {
    let mut rng = Rng::new(seed, index);
    let (eighth, sixteenth) = (index / 8, index / 16);
    let rgb = if rng.one_in(2) { 0 } else { rng.pick(&[1, 1, 2, 256, 1 << 31, u32::MAX]) };
    let set = Setting { gray: rgb == 0, profile: rng.pick(&[Profile::One, Profile::Two]) };
    let (kind, job) = match index % 16 {
        0 | 8 => ("valid", write(&valid(&mut rng, set))),
        1 | 9 => {
            let rules = all_rules();
            let rule = rules[(eighth / 2) as usize % rules.len()];
            ("broken rule", write(&broken(&mut rng, set.gray, rule, eighth % 2 == 1)))
        }
        10 if sixteenth.is_multiple_of(2) => ("names", names(&mut rng, set)),
        2 | 3 | 10 => ("mutant", mutant(&mut rng, set)),
        13 => ("motifs", motifs(&mut rng, set)),
        12 if sixteenth.is_multiple_of(2) => ("patterns", patterns(&mut rng, set)),
        4 | 5 | 12 => ("rich", write(&rich(&mut rng, set))),
        // The longer limit jobs come less often.
        6 if sixteenth.is_multiple_of(2) => ("limit", limit(&mut rng, set, (sixteenth / 2) as usize)),
        6 => ("runs", runs(&mut rng, set)),
        11 => ("reals", write(&reals(&mut rng, set, sixteenth as usize))),
        14 if sixteenth.is_multiple_of(2) => ("padded", padded(&mut rng, set)),
        14 => ("tags", tags(&mut rng)),
        _ => ("truncation", truncation(seed, set, eighth)),
    };
    let (work, list) = buffers(&mut rng, &job, rgb);
    Case { kind, job, work, list, rgb }
}

/// A job that passes cut off after so many bytes, one byte later from turn to turn.
fn truncation(seed: u64, set: Setting, turn: u64) -> Vec<u8> {
    let mut base = Rng::new(seed, turn / CUT);
    let mut job = write(&valid(&mut base, set));
    while !(60..CUT as usize).contains(&job.len()) {
        job = write(&valid(&mut base, set));
    }
    job.truncate((turn % CUT) as usize);
    job
}

/// Buffers of varying length and content for a job.
fn buffers(rng: &mut Rng, job: &[u8], rgb: u32) -> (Vec<u8>, Vec<u8>) {
    let work = match rng.below(100) {
        0 => rng.pick(&[0, 1, 16_382, 16_383]),
        1..=49 => 16_384,
        _ => 16_384 + rng.below(70),
    };
    let list = match rng.below(20) {
        0 => rng.pick(&[0, 1, 15, 16, 17, 47, 48]),
        1 => rng.below(600),
        2 => 65_536,
        // Exactly as long as the records, or a little shorter.
        3..=5 => {
            let mut room = vec![0; 16 * (job.len() + 1)];
            let records = plain::check(job, &mut vec![0; 16_384], &mut room, rgb).records as usize;
            (records * 16).saturating_sub(rng.pick(&[0, 0, 1, 16, 17]))
        }
        _ => (16 * (job.len() + 1)).min(100_000),
    };
    (rng.bytes(work), rng.bytes(list))
}

/// The plain checker's answer with room for the whole list.
#[cfg(test)]
fn judged(job: &[u8], set: Setting) -> plain::Verdict {
    plain::check(job, &mut vec![1; plain::STORE], &mut vec![1; 16 * (job.len() + 1)], u32::from(!set.gray))
}

/// The settings in turn.
#[cfg(test)]
fn setting(index: u64) -> Setting {
    Setting { gray: index.is_multiple_of(2), profile: [Profile::One, Profile::Two][index as usize / 2 % 2] }
}

#[cfg(test)]
mod tests {
    use super::*;
    use crate::text;

    #[test]
    fn same_numbers_same_case() {
        for index in 0..600 {
            assert_eq!(case(5, index), case(5, index));
        }
        assert!((0..50).any(|i| case(5, i) != case(6, i)));
    }

    #[test]
    fn jobs_read_back_as_text() {
        for index in 0..800 {
            let job = case(3, index).job;
            assert_eq!(text::assemble(&text::list(&job)).unwrap(), job);
        }
    }

    #[test]
    fn every_truncation_is_there() {
        let job = write(&valid(&mut Rng::new(1, 1), setting(0)));
        assert_eq!(truncations(&job).count(), job.len() + 1);
        let cuts: std::collections::BTreeSet<usize> = (0..40).map(|t| case(9, t * 8 + 7).job.len()).collect();
        assert_eq!(cuts, (0..40).collect());
    }
}
