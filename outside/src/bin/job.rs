//! Jobs by hand: text to bytes and back, and the second checker's answer.

use outside::plain::{self, Verdict, NO_INNER};
use outside::text::{self, Assembled};
use std::io::{IsTerminal, Read, Write};
use std::process::ExitCode;

const USAGE: &str = "\
job assemble [FILE]           prints the bytes of a text
job list [FILE]               prints the text of a job, with the place of each line's first byte and of its tag
job judge [--rgb] [FILE ..]   prints the five numbers of each job, and of a refused text the line
FILE may be left out or be - for standard input. A text is what does not begin as a job does, or is named .txt.
Pages start in gray, with --rgb in RGB.";

/// A file's name and its bytes.
struct Input {
    name: String,
    bytes: Vec<u8>,
}

fn read(name: &str) -> Result<Input, String> {
    if name != "-" {
        let bytes = std::fs::read(name).map_err(|e| format!("{name}: {e}"))?;
        return Ok(Input { name: name.into(), bytes });
    }
    if std::io::stdin().is_terminal() {
        eprintln!("job: reading standard input");
    }
    let mut bytes = Vec::new();
    std::io::stdin().read_to_end(&mut bytes).map_err(|e| format!("standard input: {e}"))?;
    Ok(Input { name: "standard input".into(), bytes })
}

impl Input {
    fn is_text(&self) -> bool {
        self.name.ends_with(".txt") || !matches!(self.bytes.first(), None | Some(0x27..=0x29))
    }

    /// The bytes that its text comes to.
    fn assembled(&self) -> Result<Assembled, String> {
        let text = std::str::from_utf8(&self.bytes)
            .map_err(|e| format!("{}: expected UTF-8, found other bytes at byte {}", self.name, e.valid_up_to()))?;
        text::assemble_job(text).map_err(|f| format!("{}:{f}", self.name))
    }

    /// The five numbers, and for a refused text the line.
    fn judged(&self, rgb: u32) -> Result<String, String> {
        if !self.is_text() {
            return Ok(numbers(&judge(&self.bytes, rgb)));
        }
        let made = self.assembled()?;
        let v = judge(&made.bytes, rgb);
        let mut said = numbers(&v);
        if v.code != 0 {
            said.push_str(&format!("\n{}", self.place(&made, &v)));
        }
        Ok(said)
    }

    /// Where in the text a refusal is.
    fn place(&self, made: &Assembled, v: &Verdict) -> String {
        let position = v.position as usize;
        let (spot, what) = if v.inner == NO_INNER {
            (made.spot(position), "")
        } else {
            (made.inner_spot(position, v.inner as usize), ", in this motif")
        };
        let ended = if position == made.bytes.len() { ", behind this" } else { "" };
        match spot {
            Some(spot) => format!("{}:{}:{}: code {}{what}{ended}", self.name, spot.line, spot.column, v.code),
            None => format!("{}: code {}", self.name, v.code),
        }
    }
}

fn judge(job: &[u8], rgb: u32) -> Verdict {
    plain::check(job, &mut vec![0; plain::STORE], &mut vec![0; 16 * (plain::JOB_MAX + 1)], rgb)
}

fn numbers(v: &Verdict) -> String {
    format!("{} {} {} {} {}", v.code, v.position, v.inner, v.records, v.performed)
}

/// What is to be printed.
fn run(words: &[String]) -> Result<Vec<u8>, String> {
    let (rgb, names): (Vec<&String>, Vec<&String>) = words.iter().skip(1).partition(|w| *w == "--rgb");
    let inputs = || -> Result<Vec<Input>, String> {
        if names.is_empty() {
            return Ok(vec![read("-")?]);
        }
        names.iter().map(|name| read(name)).collect()
    };
    let one = || match names.len() {
        0 => read("-"),
        1 => read(names[0]),
        _ => Err("one file at a time".into()),
    };
    match words.first().map(String::as_str) {
        Some("assemble") if rgb.is_empty() => Ok(one()?.assembled()?.bytes),
        Some("list") if rgb.is_empty() => Ok(text::list_with_places(&one()?.bytes).into_bytes()),
        Some("judge") => {
            let inputs = inputs()?;
            let mut out = String::new();
            for input in &inputs {
                let before = if inputs.len() > 1 { format!("{}: ", input.name) } else { String::new() };
                out.push_str(&format!("{before}{}\n", input.judged(u32::from(!rgb.is_empty()))?));
            }
            Ok(out.into_bytes())
        }
        Some("help" | "--help" | "-h") => Ok(format!("{USAGE}\n").into_bytes()),
        _ => Err(USAGE.into()),
    }
}

fn main() -> ExitCode {
    let words: Vec<String> = std::env::args().skip(1).collect();
    match run(&words) {
        Ok(out) => match std::io::stdout().write_all(&out) {
            Ok(()) => ExitCode::SUCCESS,
            Err(_) => ExitCode::FAILURE,
        },
        Err(said) => {
            eprintln!("{said}");
            ExitCode::from(2)
        }
    }
}
