//! Vectors decided by hand: reading the folder `vectors/`, and holding a checker against it.
//!
//! A file has `let NAME = text` lines, `base text` lines (how every job that follows begins), `start gray` or `start rgb` lines
//! (what its pages start in; without one RGB is asked for, as before there was a choice) and vectors:
//! `text => code position inner records performed -- sentence`, the text over several lines if need be.
//! `-` is 4294967295, `^` the place marked in the text, `$` the length of the job. Indented lines below add `list N` and `work N`
//! (buffer lengths) and `record N bytes`.

use crate::plain::{Verdict, NO_INNER, STORE};
use crate::text::{assemble_with, Macros};
use std::path::Path;

/// One vector with everything worked out.
#[derive(Debug, Clone)]
pub struct Vector {
    /// File and line.
    pub place: String,
    pub job: Vec<u8>,
    pub work: usize,
    pub list: usize,
    /// 0 if pages start in gray.
    pub rgb: u32,
    pub want: Verdict,
    pub records: Vec<(usize, Vec<u8>)>,
    pub sentence: String,
}

/// All vectors of a folder, `prelude.txt` giving names to all files.
pub fn read_folder(folder: &Path) -> Result<Vec<Vector>, String> {
    let mut files: Vec<_> = std::fs::read_dir(folder)
        .map_err(|e| format!("{}: {e}", folder.display()))?
        .filter_map(|f| f.ok().map(|f| f.path()))
        .filter(|p| p.extension().is_some_and(|e| e == "txt"))
        .collect();
    files.sort();
    let mut names = Macros::new();
    let mut all = Vec::new();
    let read = |p: &Path| std::fs::read_to_string(p).map_err(|e| format!("{}: {e}", p.display()));
    let is_prelude = |p: &Path| p.file_name().is_some_and(|n| n == "prelude.txt");
    if let Some(p) = files.iter().find(|p| is_prelude(p)) {
        parse("prelude.txt", &read(p)?, &mut names)?;
    }
    for path in files.iter().filter(|p| !is_prelude(p)) {
        let file = path.file_name().map(|n| n.to_string_lossy().into_owned()).unwrap_or_default();
        all.extend(parse(&file, &read(path)?, &mut names.clone())?);
    }
    Ok(all)
}

/// The vectors of one file.
pub fn parse(file: &str, text: &str, names: &mut Macros) -> Result<Vec<Vector>, String> {
    let mut all: Vec<Vector> = Vec::new();
    let mut base = String::new();
    let mut rgb = 1;
    let mut job = String::new();
    for (index, line) in text.lines().enumerate() {
        let place = format!("{file}:{}", index + 1);
        let told = |e: String| format!("{place}: {e}");
        let begun = !job.trim().is_empty();
        if !begun && (line.trim().is_empty() || line.starts_with('#')) {
            continue;
        }
        if let Some(rest) = line.strip_prefix("let ").filter(|_| !begun) {
            let (name, value) = rest.split_once(" = ").ok_or_else(|| told("let what".into()))?;
            names.insert(name.trim().into(), value.into());
        } else if let Some(rest) = line.strip_prefix("base").filter(|_| !begun) {
            base = rest.trim().into();
        } else if let Some(rest) = line.strip_prefix("start ").filter(|_| !begun) {
            rgb = match rest.trim() {
                "gray" => 0,
                "rgb" => 1,
                other => return Err(told(format!("no start: {other}"))),
            };
        } else if let (Some(rest), Some(last)) = (line.strip_prefix("  ").filter(|_| !begun), all.last_mut()) {
            option(rest.trim(), last).map_err(told)?;
        } else if let Some((tail, rest)) = line.split_once("=> ") {
            job.push_str(tail);
            let (want, sentence) = rest.split_once(" -- ").ok_or_else(|| told("no sentence".into()))?;
            let whole = format!("{base}\n{job}");
            let a = assemble_with(&whole, names).map_err(told)?;
            let want = verdict(want, a.bytes.len(), &a.marks, &a.inner_marks).map_err(told)?;
            all.push(Vector {
                place,
                job: a.bytes,
                work: STORE + 64,
                list: 65_536,
                rgb,
                want,
                records: Vec::new(),
                sentence: sentence.trim().into(),
            });
            job.clear();
        } else {
            job.push_str(line);
            job.push('\n');
        }
    }
    if !job.trim().is_empty() {
        return Err(format!("{file}: a job without its answer: {job}"));
    }
    Ok(all)
}

fn option(text: &str, vector: &mut Vector) -> Result<(), String> {
    let words: Vec<&str> = text.split_whitespace().collect();
    let number = |i: usize| words.get(i).and_then(|w| w.parse::<usize>().ok()).ok_or(format!("no number: {text}"));
    match words.first() {
        Some(&"list") => vector.list = number(1)?,
        Some(&"work") => vector.work = number(1)?,
        Some(&"record") => {
            let bytes: Result<Vec<u8>, _> = words[2..].iter().map(|w| u8::from_str_radix(w, 16)).collect();
            let bytes = bytes.map_err(|_| format!("no bytes: {text}"))?;
            if bytes.len() != 16 {
                return Err(format!("a record has 16 bytes: {text}"));
            }
            vector.records.push((number(1)?, bytes));
        }
        _ => return Err(format!("no such line: {text}")),
    }
    Ok(())
}

/// The five numbers, `^` standing for the only mark of its kind.
fn verdict(text: &str, length: usize, marks: &[usize], inner_marks: &[usize]) -> Result<Verdict, String> {
    let words: Vec<&str> = text.split_whitespace().collect();
    let [code, position, inner, records, performed] = words[..] else {
        return Err(format!("five words: {text}"));
    };
    let number = |w: &str| w.parse::<u32>().map_err(|_| format!("no number: {w}"));
    let place = |w: &str, marks: &[usize]| match (w, marks) {
        ("$", _) => Ok(length as u32),
        ("^", [only]) => Ok(*only as u32),
        ("^", _) => Err(format!("{} marks", marks.len())),
        _ => number(w),
    };
    Ok(Verdict {
        code: number(code)?,
        position: place(position, marks)?,
        inner: if inner == "-" { NO_INNER } else { place(inner, inner_marks)? },
        records: number(records)?,
        performed: number(performed)?,
    })
}

/// Holds a checker against one vector: the verdict and every byte of both buffers that 01 fixes.
pub fn hold(v: &Vector, check: impl Fn(&[u8], &mut [u8], &mut [u8], u32) -> Verdict) -> Result<(), String> {
    let before_work: Vec<u8> = (0..v.work).map(|i| (i % 251) as u8 | 1).collect();
    let before_list: Vec<u8> = (0..v.list).map(|i| (i % 241) as u8 ^ 0x5a).collect();
    let mut work = before_work.clone();
    let mut list = before_list.clone();
    let got = check(&v.job, &mut work, &mut list, v.rgb);
    if got != v.want {
        return Err(format!("{}: {} -- wanted {:?}, got {:?}", v.place, v.sentence, v.want, got));
    }
    let zeroed = if matches!(got.code, 1 | 29) { 0 } else { STORE };
    if work[..zeroed].iter().any(|&b| b != 0) || work[zeroed..] != before_work[zeroed..] {
        return Err(format!("{}: work buffer", v.place));
    }
    let filled = got.records as usize * 16;
    if list[filled..] != before_list[filled..] {
        return Err(format!("{}: list buffer after the records", v.place));
    }
    for (n, bytes) in &v.records {
        if list.get(n * 16..n * 16 + 16) != Some(&bytes[..]) {
            let got = list.get(n * 16..n * 16 + 16).map(crate::text::hex);
            return Err(format!("{}: record {n} is {got:?}", v.place));
        }
    }
    Ok(())
}

#[cfg(test)]
mod tests {
    use super::*;
    use crate::{plain, text};

    fn all() -> Vec<Vector> {
        read_folder(&Path::new(env!("CARGO_MANIFEST_DIR")).join("vectors")).unwrap()
    }

    #[test]
    fn plain_checker_holds() {
        let faults: Vec<String> = all().iter().filter_map(|v| hold(v, plain::check).err()).collect();
        assert!(faults.is_empty(), "{} of {}:\n{}", faults.len(), all().len(), faults.join("\n"));
    }

    #[test]
    fn enough_and_every_code() {
        let all = all();
        assert!(all.len() >= 300, "{}", all.len());
        // 20 is retired.
        for code in (0..=29).filter(|&code| code != 20).chain(32..=34) {
            assert!(all.iter().any(|v| v.want.code == code), "no vector of code {code}");
        }
    }

    #[test]
    fn jobs_read_back() {
        for v in all() {
            assert_eq!(text::assemble(&text::list(&v.job)).unwrap(), v.job, "{}", v.place);
        }
    }

    #[test]
    fn wrong_files_are_told() {
        let mut names = Macros::new();
        for text in
            ["hex 00", "hex 00 => 2 0 - 0", "hex 00 => 2 ^ - 0 0 -- no mark", "hex 00 => 2 0 - 0 0", "start blue"]
        {
            assert!(parse("x", text, &mut names).is_err(), "{text}");
        }
    }
}
