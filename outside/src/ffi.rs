//! The linked checker behind a safe face, and the bare loop the speed is held against.

use crate::plain::Verdict;

extern "C" {
    fn dieuvakhop_check(
        job: *const u8,
        job_len: usize,
        work: *mut u8,
        work_len: usize,
        list: *mut u8,
        list_len: usize,
        rgb: u32,
    ) -> Verdict;
    fn bare_loop(job: *const u8, job_len: usize, list: *mut u8, list_len: usize) -> usize;
}

/// Judges a job by the linked checker; a page starts in gray if `rgb` is 0, else in RGB.
pub fn check(job: &[u8], work: &mut [u8], list: &mut [u8], rgb: u32) -> Verdict {
    // Each pointer and length is of one lent slice; the two lent for writing are apart by the borrow rules.
    unsafe {
        dieuvakhop_check(job.as_ptr(), job.len(), work.as_mut_ptr(), work.len(), list.as_mut_ptr(), list.len(), rgb)
    }
}

/// Classifies each byte and writes a record for each that could be an operator; the number of records.
pub fn bare(job: &[u8], list: &mut [u8]) -> usize {
    // As above; the loop stops before the end of the list.
    unsafe { bare_loop(job.as_ptr(), job.len(), list.as_mut_ptr(), list.len()) }
}

#[cfg(test)]
mod tests {
    use crate::vectors;
    use std::path::Path;

    #[test]
    fn linked_checker_holds() {
        let all = vectors::read_folder(&Path::new(env!("CARGO_MANIFEST_DIR")).join("vectors")).unwrap();
        let faults: Vec<String> = all.iter().filter_map(|v| vectors::hold(v, super::check).err()).collect();
        assert!(faults.is_empty(), "{} of {}:\n{}", faults.len(), all.len(), faults.join("\n"));
    }

    #[test]
    fn bare_loop_counts_operators_and_keeps_to_the_list() {
        let mut list = [0; 40];
        assert_eq!(super::bare(&[0x41, 0x20, 0x42], &mut list), 2);
        assert_eq!(list[..8], [2, 0x41, 0, 0, 0, 0, 0, 0]);
        assert_eq!(super::bare(&[0x41; 9], &mut list), 2);
    }
}
