//! Makes what the gate's programs are run with anew: the input and the expected output of `vectors` (`crates/vectors/stdin` and
//! `stdout`), and the files and arguments of `explain` (`crates/explain/data` and `args`) from the texts of `examples`.
//! `gate --check` writes nothing and names what is not as it would be made, with status 1.
//!
//! The five numbers of a line are those of the vector's file; the bytes of the buffers, of which a line has two checksums,
//! are those of the plain checker, which must hold against the vector. Behind the vectors comes every start of a job that has
//! every operator, with the plain checker's numbers.

use outside::generate::{valid, write, Rng, Setting, TAGS};
use outside::plain::{self, Profile};
use outside::text::assemble;
use outside::vectors;
use std::path::{Path, PathBuf};
use std::process::ExitCode;

/// What the program's buffers have in each byte before a job, and how many bytes they and its job buffer have.
const BEFORE: u8 = 0xee;
const BUFFER: usize = 65_536;
const LONGEST: usize = 131_072;

/// A file to be made: its path from the root of the project, and its bytes.
type Made = (PathBuf, Vec<u8>);

fn root() -> PathBuf {
    Path::new(env!("CARGO_MANIFEST_DIR")).join("..")
}

fn checksum(bytes: &[u8]) -> u32 {
    bytes.iter().fold(0u32, |sum, &b| sum.wrapping_mul(16_777_619).wrapping_add(u32::from(b)))
}

/// What the program reads for a job: three lengths and the start, then the job.
fn asked(job: &[u8], work: usize, list: usize, rgb: u32) -> Vec<u8> {
    let numbers = [job.len() as u32, work as u32, list as u32, rgb];
    numbers.iter().flat_map(|n| n.to_le_bytes()).chain(job.iter().copied()).collect()
}

/// The line that the program must print of a job, and its five numbers.
fn told(job: &[u8], work: usize, list: usize, rgb: u32) -> (plain::Verdict, String) {
    let (mut all_work, mut all_list) = (vec![BEFORE; BUFFER], vec![BEFORE; BUFFER]);
    let v = plain::check(job, &mut all_work[..work], &mut all_list[..list], rgb);
    let (work, list) = (checksum(&all_work), checksum(&all_list));
    (v, format!("{} {} {} {} {} {work} {list}\n", v.code, v.position, v.inner, v.records, v.performed))
}

/// A job of class 2;1 that passes in gray and has every operator in its list, the first such one that is short.
fn everything() -> Vec<u8> {
    (0..)
        .map(|index| write(&valid(&mut Rng::new(2, index), Setting { gray: true, profile: Profile::Two })))
        .find(|job| {
            let mut list = vec![0; BUFFER];
            let v = plain::check(job, &mut vec![0; plain::STORE], &mut list, 0);
            let listed = |tag: u8| list.chunks(16).take(v.records as usize).any(|r| r[0] == 2 && r[1] == tag);
            v.code == 0 && job.len() < 1_600 && TAGS.iter().all(|&tag| listed(tag))
        })
        .expect("there is one")
}

/// Input and output of the program `vectors`.
fn of_vectors() -> Result<Vec<Made>, String> {
    let (mut input, mut output) = (Vec::new(), String::new());
    for v in &vectors::read_folder(&root().join("outside/vectors"))? {
        vectors::hold(v, plain::check)?;
        if v.job.len() > LONGEST || v.work > BUFFER || v.list > BUFFER {
            return Err(format!("{}: more bytes than the program has", v.place));
        }
        output.push_str(&told(&v.job, v.work, v.list, v.rgb).1);
        input.extend(asked(&v.job, v.work, v.list, v.rgb));
    }
    let whole = everything();
    for end in 0..=whole.len() {
        output.push_str(&told(&whole[..end], plain::STORE, BUFFER, 0).1);
        input.extend(asked(&whole[..end], plain::STORE, BUFFER, 0));
    }
    Ok(vec![("crates/vectors/stdin".into(), input), ("crates/vectors/stdout".into(), output.into_bytes())])
}

/// The texts of a folder of `examples` as jobs, in the order of their names.
fn assembled(folder: &str) -> Result<Vec<(String, Vec<u8>)>, String> {
    let mut all = Vec::new();
    for path in files(&root().join("examples").join(folder))? {
        let name = path.file_stem().expect("a file").to_string_lossy().into_owned();
        let text = std::fs::read_to_string(&path).map_err(|e| e.to_string())?;
        all.push((name.clone(), assemble(&text).map_err(|e| format!("{name}.txt:{e}"))?));
    }
    Ok(all)
}

/// Files and arguments of the program `explain`; a refused job has, in gray, the code that its name starts with.
fn of_examples() -> Result<Vec<Made>, String> {
    let (refused, jobs) = (assembled("refused")?, assembled("jobs")?);
    let mut args = String::new();
    for (name, job) in &refused {
        let code = told(job, plain::STORE, BUFFER, 0).0.code;
        if !name.starts_with(&format!("{code:02}-")) {
            return Err(format!("{name}: code {code}"));
        }
        args.push_str(&format!("{name}.pxl\n"));
    }
    args.push_str("empty.pxl\ngone.pxl\nlist\n");
    jobs.iter().for_each(|(name, _)| args.push_str(&format!("{name}.pxl\n")));
    let empty = [("empty".to_string(), Vec::new())];
    let data = refused.into_iter().chain(jobs).chain(empty);
    let mut made: Vec<Made> = data.map(|(name, job)| (format!("crates/explain/data/{name}.pxl").into(), job)).collect();
    made.push(("crates/explain/args".into(), args.into_bytes()));
    Ok(made)
}

/// The files of a folder by name.
fn files(folder: &Path) -> Result<Vec<PathBuf>, String> {
    let all = std::fs::read_dir(folder).map_err(|e| format!("{}: {e}", folder.display()))?;
    let mut all: Vec<PathBuf> = all.filter_map(|f| f.ok().map(|f| f.path())).collect();
    all.sort();
    Ok(all)
}

/// Files of `explain` that are no longer made.
fn left_over(made: &[Made]) -> Result<Vec<PathBuf>, String> {
    let there = files(&root().join("crates/explain/data"))?;
    Ok(there.into_iter().filter(|path| made.iter().all(|(m, _)| *path != root().join(m))).collect())
}

/// Names what is not as it would be made.
fn check(made: &[Made]) -> Result<(), String> {
    let other = |(path, bytes): &&Made| std::fs::read(root().join(path)).ok().as_ref() != Some(bytes);
    let mut wrong: Vec<String> = made.iter().filter(other).map(|(path, _)| path.display().to_string()).collect();
    wrong.extend(left_over(made)?.iter().filter_map(|p| p.file_name()).map(|n| n.to_string_lossy().into_owned()));
    if wrong.is_empty() {
        Ok(())
    } else {
        Err(format!("not as it is made anew: {}", wrong.join(", ")))
    }
}

fn write_all(made: &[Made]) -> Result<(), String> {
    for path in left_over(made)? {
        std::fs::remove_file(&path).map_err(|e| format!("{}: {e}", path.display()))?;
    }
    for (path, bytes) in made {
        std::fs::write(root().join(path), bytes).map_err(|e| format!("{}: {e}", path.display()))?;
    }
    Ok(())
}

fn run() -> Result<String, String> {
    let mut made = of_vectors()?;
    made.extend(of_examples()?);
    match std::env::args().nth(1).as_deref() {
        None => write_all(&made).map(|()| format!("{} files made", made.len())),
        Some("--check") => check(&made).map(|()| format!("{} files are as they are made anew", made.len())),
        Some(word) => Err(format!("gate or gate --check, not {word}")),
    }
}

fn main() -> ExitCode {
    match run() {
        Ok(said) => {
            println!("{said}");
            ExitCode::SUCCESS
        }
        Err(e) => {
            eprintln!("{e}");
            ExitCode::FAILURE
        }
    }
}
