//! Holds the linked checker against the plain one: `compare N S` judges N generated cases from seed S by both.
//!
//! Verdict, every byte of both buffers and guard bytes around them must agree; the vectors come first. Of a passed job with several
//! sessions two are exchanged, and both checkers must answer as request 14 says.

use outside::coverage::Coverage;
use outside::exchange::exchanged;
use outside::generate::{case, Case};
use outside::plain::{self, Verdict};
use outside::{ffi, text, vectors};
use std::path::Path;
use std::process::ExitCode;

const GUARD: usize = 64;

/// A buffer with guard bytes on both sides.
struct Guarded(Vec<u8>);

impl Guarded {
    fn new(inside: &[u8]) -> Guarded {
        let guard = |n: usize| (0..GUARD).map(move |i| (i * 37 + n) as u8 ^ 0xa5);
        Guarded(guard(1).chain(inside.iter().copied()).chain(guard(2)).collect())
    }

    fn inside(&mut self) -> &mut [u8] {
        let end = self.0.len() - GUARD;
        &mut self.0[GUARD..end]
    }

    fn guards_kept(&self) -> bool {
        let fresh = Guarded::new(&[]).0;
        self.0[..GUARD] == fresh[..GUARD] && self.0[self.0.len() - GUARD..] == fresh[GUARD..]
    }
}

/// Judges a case by the linked checker and names what differs from the plain answer, if anything.
fn differs(case: &Case, want: Verdict, work: &[u8], list: &[u8]) -> Option<(String, Verdict)> {
    let mut job = Guarded::new(&case.job);
    let mut own_work = Guarded::new(&case.work);
    let mut own_list = Guarded::new(&case.list);
    let got = ffi::check(job.inside(), own_work.inside(), own_list.inside(), case.rgb);
    let first = |a: &[u8], b: &[u8]| a.iter().zip(b).position(|(x, y)| x != y);
    let what = if got != want {
        "verdict".into()
    } else if let Some(at) = first(own_work.inside(), work) {
        format!("work buffer at {at}")
    } else if let Some(at) = first(own_list.inside(), list) {
        format!("list buffer at {at}")
    } else if !own_work.guards_kept() {
        "bytes beside the work buffer".into()
    } else if !own_list.guards_kept() {
        "bytes beside the list buffer".into()
    } else if !job.guards_kept() || *job.inside() != case.job[..] {
        "the job itself".into()
    } else {
        return None;
    };
    Some((what, got))
}

fn numbers(v: &Verdict) -> String {
    format!("{} {} {} {} {}", v.code, v.position, v.inner, v.records, v.performed)
}

/// A passed case with two sessions exchanged, and the records that its list must have.
fn twin_of(case: &Case, passed: &Verdict, list: &[u8], which: u64) -> Option<(Case, Vec<u8>)> {
    if passed.code != 0 {
        return None;
    }
    let twin = exchanged(&case.job, &list[..16 * passed.records as usize], which as usize)?;
    Some((Case { job: twin.job, ..case.clone() }, twin.records))
}

fn report(what: &str, case: &Case, want: &Verdict, got: &Verdict) {
    let start = if case.rgb == 0 { "gray" } else { "RGB" };
    println!("{what} ({})", case.kind);
    println!(
        "work {} bytes, list {} bytes, job {} bytes, start in {start}",
        case.work.len(),
        case.list.len(),
        case.job.len()
    );
    println!("due {}", numbers(want));
    println!("got {}", numbers(got));
    println!("job {}", text::hex(&case.job));
    println!("{}", text::list(&case.job));
}

fn main() -> ExitCode {
    let mut args = std::env::args().skip(1).map(|a| a.parse::<u64>());
    let (n, seed) = match (args.next(), args.next()) {
        (Some(Ok(n)), Some(Ok(seed))) => (n, seed),
        (Some(Ok(n)), None) => (n, 1),
        (None, _) => (100_000, 1),
        _ => {
            eprintln!("compare N S: N cases from seed S");
            return ExitCode::FAILURE;
        }
    };

    match vectors::read_folder(&Path::new(env!("CARGO_MANIFEST_DIR")).join("vectors")) {
        Ok(all) => {
            let faults: Vec<String> = all.iter().filter_map(|v| vectors::hold(v, ffi::check).err()).collect();
            println!("vectors: {} of {} hold", all.len() - faults.len(), all.len());
            if !faults.is_empty() {
                faults.iter().for_each(|f| println!("{f}"));
                return ExitCode::FAILURE;
            }
        }
        Err(e) => {
            eprintln!("{e}");
            return ExitCode::FAILURE;
        }
    }

    let mut coverage = Coverage::default();
    let mut twins = 0;
    for index in 0..n {
        let lent = case(seed, index);
        let mut work = lent.work.clone();
        let mut list = lent.list.clone();
        let want = plain::check(&lent.job, &mut work, &mut list, lent.rgb);
        coverage.add(lent.kind, &lent.job, lent.rgb, &want);
        if let Some((what, got)) = differs(&lent, want, &work, &list) {
            report(&format!("difference in the {what}: seed {seed}, case {index}"), &lent, &want, &got);
            return ExitCode::FAILURE;
        }
        if let Some((twin, records)) = twin_of(&lent, &want, &list, index) {
            list[..records.len()].copy_from_slice(&records);
            let (mut own_work, mut own_list) = (twin.work.clone(), twin.list.clone());
            let plain = plain::check(&twin.job, &mut own_work, &mut own_list, twin.rgb);
            if (plain, &own_work, &own_list) != (want, &work, &list) {
                report(
                    &format!("two sessions exchanged, second checker: seed {seed}, case {index}"),
                    &twin,
                    &want,
                    &plain,
                );
                return ExitCode::FAILURE;
            }
            if let Some((what, got)) = differs(&twin, want, &work, &list) {
                report(&format!("two sessions exchanged, {what}: seed {seed}, case {index}"), &twin, &want, &got);
                return ExitCode::FAILURE;
            }
            twins += 1;
        }
    }
    print!("{}", coverage.table());
    println!("not reached: {:?}", coverage.gaps());
    println!("{twins} of them passed with several sessions, and with two of these exchanged as request 14 says");
    println!("{n} cases from seed {seed}: no difference");
    ExitCode::SUCCESS
}
