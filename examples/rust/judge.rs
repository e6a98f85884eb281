//! Judges the job on standard input and prints the verdict. Pages start in gray, with the word --rgb in RGB.
//!
//!   examples/library
//!   rustc examples/rust/judge.rs -L native=target/staticlib -l static=dieuvakhop -o judge-rust
//!   ./judge-rust < job.pxl
//!   ./judge-rust --rgb < job.pxl
//!
//! Status 0: the job passes; 1: it is refused; 2: it could not be read, or a word was not understood.

use std::io::Read;

/// The five numbers of a verdict, as C has them.
#[repr(C)]
#[derive(Clone, Copy, Debug, PartialEq, Eq)]
struct Verdict {
    code: u32,
    position: u32,
    inner: u32,
    records: u32,
    performed: u32,
}

extern "C" {
    fn dieuvakhop_check(
        job: *const u8,
        job_len: usize,
        work: *mut u8,
        work_len: usize,
        list: *mut u8,
        list_len: usize,
        rgb: u32,
    ) -> Verdict;
}

/// Judges a job whose pages start in gray, or in RGB. `list` gets the records.
fn check(job: &[u8], work: &mut [u8], list: &mut [u8], rgb: bool) -> Verdict {
    // Each pointer comes with the length of its slice, and the borrow rules keep the three apart.
    unsafe {
        dieuvakhop_check(
            job.as_ptr(),
            job.len(),
            work.as_mut_ptr(),
            work.len(),
            list.as_mut_ptr(),
            list.len(),
            u32::from(rgb),
        )
    }
}

fn main() {
    let words: Vec<String> = std::env::args().skip(1).collect();
    if words.iter().any(|word| word != "--rgb") {
        eprintln!("there is no word but --rgb");
        std::process::exit(2);
    }
    let mut job = Vec::new();
    // One byte more than the longest job, so that a longer one still gets code 1.
    if std::io::stdin().take(61_441).read_to_end(&mut job).is_err() {
        eprintln!("cannot read standard input");
        std::process::exit(2);
    }
    let mut work = vec![0; 16_384];
    // 16 bytes for each byte of the job always suffice, and one that is too long has no records.
    let mut list = vec![0; 16 * job.len()];
    let v = check(&job, &mut work, &mut list, !words.is_empty());
    println!("{} {} {} {} {}", v.code, v.position, v.inner, v.records, v.performed);
    std::process::exit(if v.code == 0 { 0 } else { 1 });
}
