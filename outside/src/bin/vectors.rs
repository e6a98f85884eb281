//! Prints every vector as one line: place, work length, list length, start (0 gray, 1 RGB), the five numbers, the job in hex.

use std::path::Path;

fn main() {
    let folder = std::env::args().nth(1).unwrap_or_else(|| concat!(env!("CARGO_MANIFEST_DIR"), "/vectors").into());
    match outside::vectors::read_folder(Path::new(&folder)) {
        Ok(all) => {
            for v in all {
                let hex: String = v.job.iter().map(|b| format!("{b:02x}")).collect();
                let hex = if hex.is_empty() { "-".into() } else { hex };
                let w = v.want;
                println!(
                    "{} {} {} {} {} {} {} {} {} {hex}",
                    v.place, v.work, v.list, v.rgb, w.code, w.position, w.inner, w.records, w.performed
                );
            }
        }
        Err(e) => {
            eprintln!("{e}");
            std::process::exit(1);
        }
    }
}
