//! Speed of the linked checker beside the plain one and a bare loop in C, best of many runs.
//! `bench WORD` runs only the kinds whose name has the word.

use outside::plain::{self, Verdict};
use outside::text::assemble;
use outside::{ffi, plain::JOB_MAX};
use std::hint::black_box;
use std::time::{Duration, Instant};

const LONG: usize = JOB_MAX;
const SHORT: usize = JOB_MAX / 10;
/// What is asked for the start.
const GRAY: u32 = 0;

/// One kind of work: its name and its jobs, all bytes together about `length`.
fn kinds(length: usize) -> Vec<(&'static str, Vec<Vec<u8>>)> {
    let session = "BeginSession Measure=0 UnitsPerMeasure=(600,600)";
    let page =
        format!("header low; {session}; OpenDataSource SourceType=0 DataOrg=1; BeginPage Orientation=0 MediaSize=0");
    let cursor = format!("{page}; SetCursor Point=(1,1)");
    let motif = "motif \"a\" { header low; SetCursor Point=(1,1); repeat 9 { LinePath EndPoint=(1,1) }; PushGS; NewPath; PopGS }";
    let called = page.replace("; BeginPage", &format!("; {motif}; BeginPage"));
    let header = "header low".to_string();
    let ended = "EndPage; CloseDataSource; EndSession";
    let points = "LinePath NumberOfPoints=100 PointType=2 data=00*400";
    let attributes = "EndPage PageCopies=1; BeginPage Orientation=0 MediaSize=0 MediaSource=0";
    let saves = "repeat 24 { PushGS }; repeat 24 { PopGS }";
    let both = format!("{session}; EndSession");
    let open = format!("{session}; OpenDataSource SourceType=0 DataOrg=1");
    let new_page = "BeginPage Orientation=0 MediaSize=0";
    let drawn = "SetCursor Point=(1,1); repeat 10 { LinePath EndPoint=(-1,300) }";
    // 30 motifs in each session of a long job, 3 in those of a short one.
    let (defined, called_once) =
        each(1..=length / 2048, |k| (format!("motif [{k}] {{ header low; {drawn} }}"), exec(k)));
    let sheet = format!("{open}; {defined} {new_page}; {called_once} {ended}");
    // In rows of eight each motif calls the one before.
    let (among, all_called) = each(1..=64, |k| {
        let calls = if k % 8 == 1 { String::new() } else { exec(k - 1) };
        (format!("motif [{k}] {{ header low; PaintPath; {calls}; PaintPath }}"), exec(k))
    });
    let wing = format!("motif [1] {{ header low; {drawn} }}");
    let (bird, _) = each(2..=8, |k| (format!("motif [{k}] {{ header low; {} {} }}", exec(1), exec(k - 1)), exec(k)));
    let corrected = format!("{wing}; {new_page}; {}; EndPage", exec(8));
    let hatch = |number: usize, persistence: usize| {
        format!(
            "BeginRastPattern ColorMapping=0 ColorDepth=0 SourceWidth=32 SourceHeight=2 DestinationSize=(1,1) \
             PatternDefineID={number}:sint16 PatternPersistence={persistence}; \
             ReadRastPattern StartLine=0 BlockHeight=2 CompressMode=0 data=00*8; EndRastPattern; "
        )
    };
    let select = |number: usize| format!("SetBrushSource PatternSelectID={number}:sint16; ");
    let hatcher = format!("motif \"a\" {{ header low; {} PaintPath }}", select(1));
    let hatched =
        format!("{}{}{} ExecStream StreamName=\"a\"; EndPage; {new_page}", hatch(1, 1), hatch(2, 2), select(2));
    // As "many calls", but each motif selects four numbers of the 32 that are defined.
    let (selecting, all_hatched) = each(1..=64, |k| {
        let calls = if k % 8 == 1 { String::new() } else { exec(k - 1) };
        let selects: String = (0..4).map(|i| select((k + 8 * i) % 32 + 1)).collect();
        (format!("motif [{k}] {{ header low; {selects} {calls} }}"), exec(k))
    });
    let all_numbers: String = (1..=32).map(|n| hatch(n, 1)).collect();
    let small = assemble(&format!("header low; {session}; EndSession")).expect("a job");
    vec![
        ("one-byte operators", vec![filled(length, &page, "PaintPath", ended)]),
        ("lines by end point", vec![filled(length, &cursor, "LinePath EndPoint=(-1,300)", ended)]),
        ("lines by real end point", vec![filled(length, &cursor, "LinePath EndPoint=(-1.5,300.25)", ended)]),
        ("lines apart", vec![filled(length, &cursor, "LinePath EndPoint=(-1,300); hex 20", ended)]),
        ("lines with point data", vec![filled(length, &cursor, points, ended)]),
        ("white space", vec![filled(length, &page, "hex 20", ended)]),
        ("zero bytes", vec![filled(length, &page, "hex 00", ended)]),
        ("lines padded with zeros", vec![filled(length, &cursor, "LinePath EndPoint=(-1,300); hex 00", ended)]),
        ("attributes", vec![filled(length, &page, attributes, ended)]),
        ("saves", vec![filled(length, &page, saves, ended)]),
        ("motif calls", vec![filled(length, &called, "ExecStream StreamName=\"a\"", ended)]),
        ("motifs of lines", vec![filled(length, &header, &sheet, &both)]),
        ("many calls", vec![filled(length, &format!("header low; {open}; {among} {new_page}"), &all_called, ended)]),
        (
            "corrected motifs",
            vec![filled(
                length,
                &format!("header low; {open}; {wing}; {bird}"),
                &corrected,
                "CloseDataSource; EndSession",
            )],
        ),
        ("patterns", vec![filled(length, &format!("header low; {open}; {hatcher}; {new_page}"), &hatched, ended)]),
        (
            "calls that select",
            vec![filled(
                length.max(12_288),
                &format!("header low; {open}; {selecting} {new_page}; {all_numbers}"),
                &all_hatched,
                ended,
            )],
        ),
        ("many sessions", vec![filled(length, &header, &both, &both)]),
        ("many small jobs", vec![small.clone(); length / small.len()]),
    ]
}

/// A call of the motif of this number.
fn exec(k: usize) -> String {
    format!("ExecStream StreamName=[{k}]; ")
}

/// Two texts of each number, each of the two joined.
fn each(numbers: std::ops::RangeInclusive<usize>, of: impl Fn(usize) -> (String, String)) -> (String, String) {
    numbers.map(of).fold(Default::default(), |(a, b), (c, d)| (a + &c + "; ", b + &d + "; "))
}

/// A job of exactly `length` bytes: a start, as many rounds as fit, white space, an end.
fn filled(length: usize, start: &str, round: &str, end: &str) -> Vec<u8> {
    let mut job = assemble(start).expect("a start");
    let round = assemble(round).expect("a round");
    let end = assemble(end).expect("an end");
    let left = length - job.len() - end.len();
    for _ in 0..left / round.len() {
        job.extend(&round);
    }
    job.extend(std::iter::repeat_n(0x20, left % round.len()));
    job.extend(end);
    assert_eq!(job.len(), length);
    job
}

/// The shortest of many runs.
fn best(mut run: impl FnMut()) -> Duration {
    let begun = Instant::now();
    let mut best = Duration::MAX;
    let mut runs = 0;
    while runs < 3 || runs < 20 && begun.elapsed().as_secs() < 3 || runs < 2000 && begun.elapsed().as_millis() < 300 {
        let start = Instant::now();
        run();
        best = best.min(start.elapsed());
        runs += 1;
    }
    best
}

fn judged(
    jobs: &[Vec<u8>],
    work: &mut [u8],
    list: &mut [u8],
    check: fn(&[u8], &mut [u8], &mut [u8], u32) -> Verdict,
) -> Duration {
    best(|| {
        for job in jobs {
            black_box(check(black_box(job), work, list, GRAY));
        }
    })
}

/// 32 motifs, each of four calls of the one before: 4 to the 32nd, 2 to the 64th operators.
fn tower() -> Vec<u8> {
    let mut text = String::from(
        "header low; BeginSession Measure=0 UnitsPerMeasure=(600,600); OpenDataSource SourceType=0 DataOrg=1\n",
    );
    text.push_str("motif [1] { header low; repeat 4 { PaintPath } }\n");
    for k in 2..=32 {
        text.push_str(&format!("motif [{k}] {{ header low; repeat 4 {{ ExecStream StreamName=[{}] }} }}\n", k - 1));
    }
    text.push_str(
        "BeginPage Orientation=0 MediaSize=0; ExecStream StreamName=[32]; EndPage; CloseDataSource; EndSession\n",
    );
    assemble(&text).expect("a tower")
}

/// As much work at EndStream as a job of 61,440 bytes can ask for: the store is full of 64 motifs of many calls, the first 32 of
/// them nest 32 deep, and the one that all call is replaced again and again, longer and shorter by turns.
fn worst() -> Vec<u8> {
    let mut start = String::from("header low; BeginSession Measure=0 UnitsPerMeasure=(600,600)");
    start.push_str("; OpenDataSource SourceType=0 DataOrg=1; motif [1] { header low; PaintPath }");
    for k in 2..=64 {
        let before = exec(if k <= 32 { k - 1 } else { 31 });
        start.push_str(&format!("; motif [{k}] {{ header low; {before} repeat 33 {{ {} }} }}", exec(1)));
    }
    let round = "motif [1] { header low }; motif [1] { header low; PaintPath }";
    let end = format!("BeginPage Orientation=0 MediaSize=0; {} EndPage; CloseDataSource; EndSession", exec(64));
    filled(LONG, &start, round, &end)
}

/// Judges jobs on a stack of 64 KiB; past its end the system kills the program.
fn on_a_small_stack(jobs: Vec<Vec<u8>>) -> usize {
    let judge = move || {
        let (mut work, mut list) = (vec![0u8; plain::STORE], vec![0u8; 16 * (LONG + 1)]);
        jobs.iter().map(|job| black_box(ffi::check(job, &mut work, &mut list, GRAY))).count()
    };
    let thread = std::thread::Builder::new().stack_size(64 * 1024).spawn(judge);
    thread.expect("a thread").join().expect("the thread ends")
}

fn micros(d: Duration) -> f64 {
    d.as_secs_f64() * 1e6
}

fn main() {
    let mut work = vec![0u8; plain::STORE];
    let mut list = vec![0u8; 16 * (LONG + 1)];
    println!(
        "{:<24} {:>10} {:>10} {:>10} {:>9} {:>9} {:>9}",
        "kind (61,440 bytes)", "linked us", "plain us", "bare us", "/ plain", "/ bare", "growth"
    );
    let mut faulty = false;
    let word = std::env::args().nth(1).unwrap_or_default();
    for ((name, long), (_, short)) in kinds(LONG).into_iter().zip(kinds(SHORT)) {
        if !name.contains(&word) {
            continue;
        }
        for job in long.iter().take(1).chain(short.iter().take(1)) {
            let want = plain::check(job, &mut work, &mut list, GRAY);
            let got = ffi::check(job, &mut work, &mut list, GRAY);
            if want.code != 0 || got != want {
                println!("{name}: plain {want:?}, linked {got:?}");
                faulty = true;
            }
        }
        let linked = judged(&long, &mut work, &mut list, ffi::check);
        let own = judged(&long, &mut work, &mut list, plain::check);
        let bare = best(|| {
            for job in &long {
                black_box(ffi::bare(black_box(job), &mut list));
            }
        });
        let small = judged(&short, &mut work, &mut list, ffi::check);
        let ratio = |a: Duration, b: Duration| micros(a) / micros(b).max(1e-3);
        println!(
            "{name:<24} {:>10.1} {:>10.1} {:>10.1} {:>9.2} {:>9.2} {:>9.2}",
            micros(linked),
            micros(own),
            micros(bare),
            ratio(linked, own),
            ratio(linked, bare),
            ratio(linked, small)
        );
    }
    println!("growth is the time for 61,440 bytes by that for 6,144; 10 is in proportion");

    let towers = [("tower of 2^64 operators", 26, tower()), ("worst, motifs replaced again and again", 0, worst())];
    for (name, code, job) in &towers {
        let want = plain::check(job, &mut work, &mut list, GRAY);
        let got = ffi::check(job, &mut work, &mut list, GRAY);
        if want.code != *code || got != want {
            println!("{name}: plain {want:?}, linked {got:?}");
            faulty = true;
        }
        let jobs = [job.clone()];
        let linked = judged(&jobs, &mut work, &mut list, ffi::check);
        let own = judged(&jobs, &mut work, &mut list, plain::check);
        println!("{name}: code {}, linked {:.3} ms, plain {:.3} ms", got.code, micros(linked) / 1e3, micros(own) / 1e3);
    }
    let towers = towers.into_iter().map(|(_, _, job)| job);
    let jobs = kinds(LONG).into_iter().filter_map(|(_, jobs)| jobs.into_iter().next()).chain(towers).collect();
    println!("on a stack of 64 KiB: {} jobs judged", on_a_small_stack(jobs));
    if faulty {
        std::process::exit(1);
    }
}
