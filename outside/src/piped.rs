//! The checker behind the pipes of bridge.c, with the same face as the linked one.

use crate::plain::Verdict;
use std::io::{Read, Write};
use std::process::{Child, ChildStdin, ChildStdout, Command, Stdio};
use std::sync::{Mutex, OnceLock};

struct Bridge {
    _child: Child,
    to: ChildStdin,
    from: ChildStdout,
}

/// The bridge, started once, by the words of DIEUVAKHOP_BRIDGE.
fn bridge() -> &'static Mutex<Bridge> {
    static BRIDGE: OnceLock<Mutex<Bridge>> = OnceLock::new();
    BRIDGE.get_or_init(|| {
        let words = std::env::var("DIEUVAKHOP_BRIDGE").expect("DIEUVAKHOP_BRIDGE: the command that runs the bridge");
        let mut words = words.split_whitespace();
        let mut child = Command::new(words.next().expect("a command"))
            .args(words)
            .stdin(Stdio::piped())
            .stdout(Stdio::piped())
            .spawn()
            .expect("the bridge starts");
        let to = child.stdin.take().expect("piped");
        let from = child.stdout.take().expect("piped");
        Mutex::new(Bridge { _child: child, to, from })
    })
}

/// Judges a job by the checker behind the bridge; a page starts in gray if `rgb` is 0, else in RGB.
pub fn check(job: &[u8], work: &mut [u8], list: &mut [u8], rgb: u32) -> Verdict {
    let mut b = bridge().lock().expect("one at a time");
    let mut asked = Vec::with_capacity(16 + job.len() + work.len() + list.len());
    for n in [job.len() as u32, work.len() as u32, list.len() as u32, rgb] {
        asked.extend(n.to_le_bytes());
    }
    asked.extend_from_slice(job);
    asked.extend_from_slice(work);
    asked.extend_from_slice(list);
    b.to.write_all(&asked).expect("the bridge listens");
    let mut numbers = [0u8; 20];
    b.from.read_exact(&mut numbers).expect("the bridge answers");
    b.from.read_exact(work).expect("the bridge answers");
    b.from.read_exact(list).expect("the bridge answers");
    let mut fine = [0u8];
    b.from.read_exact(&mut fine).expect("the bridge answers");
    assert_eq!(fine[0], 1, "bytes beside the buffers were touched");
    let n = |i: usize| u32::from_le_bytes(numbers[i * 4..i * 4 + 4].try_into().expect("four bytes"));
    Verdict { code: n(0), position: n(1), inner: n(2), records: n(3), performed: n(4) }
}
