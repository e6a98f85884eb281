//! Order of pupils: two neighbouring sessions of a passed job exchanged, and the list that the exchanged job must have.

use std::ops::Range;

const RECORD: usize = 16;
const OPERATOR: u8 = 2;
const BEGIN_SESSION: u8 = 0x41;
const END_SESSION: u8 = 0x42;

/// A whole session of a passed job.
struct Session {
    /// From its first value tag to the tag of its EndSession.
    bytes: Range<usize>,
    /// Its part of the list.
    records: Range<usize>,
}

/// A job with two sessions exchanged, and its records.
pub struct Exchanged {
    pub job: Vec<u8>,
    pub records: Vec<u8>,
}

fn offset(record: &[u8], at: usize) -> usize {
    u32::from_le_bytes([record[at], record[at + 1], record[at + 2], record[at + 3]]) as usize
}

/// The sessions that the records of a passed job tell.
fn sessions(records: &[u8]) -> Vec<Session> {
    let mut found = Vec::new();
    let (mut first, mut begun) = (0, None);
    for (i, record) in records.chunks_exact(RECORD).enumerate() {
        if record[0] != OPERATOR {
            continue;
        }
        match record[1] {
            BEGIN_SESSION => begun = Some(first),
            END_SESSION => {
                if let Some(from) = begun.take() {
                    let bytes = offset(&records[from..], 4)..offset(record, 4) + 1;
                    found.push(Session { bytes, records: from..(i + 1) * RECORD });
                }
            }
            _ => {}
        }
        first = (i + 1) * RECORD;
    }
    found
}

/// Records whose places move by so much; a 0 for no data stays.
fn moved(records: &[u8], by: isize) -> Vec<u8> {
    let mut out = records.to_vec();
    for record in out.chunks_exact_mut(RECORD) {
        for at in [4, 12] {
            let place = offset(record, at);
            if at == 4 || record[0] != OPERATOR || place != 0 {
                record[at..at + 4].copy_from_slice(&((place as isize + by) as u32).to_le_bytes());
            }
        }
    }
    out
}

/// Bytes with other ones at two places; what stands before, between and behind these stays.
fn put(bytes: &[u8], places: [&Range<usize>; 2], others: [&[u8]; 2]) -> Vec<u8> {
    let [one, two] = places;
    [&bytes[..one.start], others[0], &bytes[one.end..two.start], others[1], &bytes[two.end..]].concat()
}

/// Exchanges two neighbouring sessions of a passed job, `which` of the pairs in turn; none where it has one session.
pub fn exchanged(job: &[u8], records: &[u8], which: usize) -> Option<Exchanged> {
    let all = sessions(records);
    let pairs = all.len().checked_sub(1).filter(|n| *n > 0)?;
    let (one, two) = (&all[which % pairs], &all[which % pairs + 1]);
    let earlier = one.bytes.start as isize - two.bytes.start as isize;
    let later = two.bytes.end as isize - one.bytes.end as isize;
    let (first, second) = (&records[one.records.clone()], &records[two.records.clone()]);
    Some(Exchanged {
        job: put(job, [&one.bytes, &two.bytes], [&job[two.bytes.clone()], &job[one.bytes.clone()]]),
        records: put(records, [&one.records, &two.records], [&moved(second, earlier), &moved(first, later)]),
    })
}

#[cfg(test)]
mod tests {
    use super::*;
    use crate::generate::case;
    use crate::plain;

    /// The verdict and the records of a job, with room for all.
    fn listed(job: &[u8]) -> (plain::Verdict, Vec<u8>) {
        let mut list = vec![0; RECORD * (job.len() + 1)];
        let verdict = plain::check(job, &mut vec![0; plain::STORE], &mut list, 0);
        list.truncate(verdict.records as usize * RECORD);
        (verdict, list)
    }

    #[test]
    fn two_sessions_change_places_and_the_gap_stays() {
        // J of 01 and a second session of another measure, with a blank before, two between and one behind.
        let head = b") HP-PCL XL;1;1\n";
        let one = [0xc0, 0, 0xf8, 0x86, 0xd1, 0x58, 2, 0x58, 2, 0xf8, 0x89, 0x41, 0x42];
        let two = [0xc0, 1, 0xf8, 0x86, 0xd1, 10, 0, 10, 0, 0xf8, 0x89, 0xc0, 3, 0xf8, 0x8f, 0x41, 0x42];
        let job = [&head[..], b" ", &one, b"\t\n", &two, b" "].concat();
        let twin = [&head[..], b" ", &two, b"\t\n", &one, b" "].concat();
        let (verdict, records) = listed(&job);
        assert_eq!(verdict.code, 0);
        let made = exchanged(&job, &records, 0).unwrap();
        assert_eq!(made.job, twin);
        assert_eq!((verdict, made.records), listed(&twin));
    }

    #[test]
    fn generated_jobs_pass_either_way() {
        let mut seen = 0;
        for index in 0..1_500 {
            let lent = case(14, index);
            if lent.rgb != 0 {
                continue;
            }
            let (verdict, records) = listed(&lent.job);
            if verdict.code != 0 {
                continue;
            }
            if let Some(made) = exchanged(&lent.job, &records, index as usize) {
                assert_eq!((verdict, made.records), listed(&made.job), "case {index}");
                seen += usize::from(made.job != lent.job);
            }
        }
        assert!(seen > 5, "{seen} jobs with two sessions");
    }
}
