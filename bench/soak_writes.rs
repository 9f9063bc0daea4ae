//! The plain program beside a large run: of the logs that such a run left in a folder it makes the same writes and syncs again, to
//! files of the same kind in another folder, and prints how many appends it made and how long that took.
//!
//! Usage: soak_writes FROM TO. A log is a list of gate, length and body, with a closed gate behind; an append writes length, body and
//! the next gate, closed; syncs; opens its own gate; syncs.
use std::env;
use std::fs::{self, File, OpenOptions};
use std::io;
use std::os::unix::fs::FileExt;
use std::path::Path;
use std::time::Instant;

const OPEN: u8 = 0xA5;
const CLOSED: u8 = 0;

/// What an append writes: the place of its gate, and length, body and the next gate.
struct Append {
    gate: u64,
    piece: Vec<u8>,
}

/// The appends of a log, in order.
fn appends(log: &[u8]) -> Vec<Append> {
    let mut found = Vec::new();
    let mut gate = 0;
    while log.get(gate) == Some(&OPEN) && gate + 5 <= log.len() {
        let length = u32::from_be_bytes([log[gate + 1], log[gate + 2], log[gate + 3], log[gate + 4]]) as usize;
        let next = gate + 5 + length;
        if next > log.len() {
            break;
        }
        let mut piece = log[gate + 1..next].to_vec();
        piece.push(CLOSED);
        found.push(Append { gate: gate as u64, piece });
        gate = next;
    }
    found
}

/// An empty log.
fn fresh(folder: &Path, name: &str) -> io::Result<File> {
    let file = OpenOptions::new().read(true).write(true).create(true).truncate(true).open(folder.join(name))?;
    File::open(folder)?.sync_all()?;
    file.write_all_at(&[CLOSED], 0)?;
    file.sync_all()?;
    Ok(file)
}

fn append(file: &File, append: &Append) -> io::Result<()> {
    file.write_all_at(&append.piece, append.gate + 1)?;
    file.sync_all()?;
    file.write_all_at(&[OPEN], append.gate)?;
    file.sync_all()
}

fn main() -> io::Result<()> {
    let words: Vec<String> = env::args().skip(1).collect();
    let [from, to] = words.as_slice() else {
        eprintln!("usage: soak_writes FROM TO");
        std::process::exit(1);
    };
    let mut logs = Vec::new();
    for entry in fs::read_dir(from)? {
        let entry = entry?;
        let name = entry.file_name().to_string_lossy().into_owned();
        if name.ends_with(".qlog") {
            logs.push((name, appends(&fs::read(entry.path())?)));
        }
    }
    logs.sort_by(|a, b| a.0.cmp(&b.0));
    let began = Instant::now();
    let mut files = Vec::new();
    for (name, _) in &logs {
        files.push(fresh(Path::new(to), name)?);
    }
    // round about, as the managers take turns
    let most = logs.iter().map(|(_, found)| found.len()).max().unwrap_or(0);
    let mut count = 0;
    for at in 0..most {
        for ((_, found), file) in logs.iter().zip(&files) {
            if let Some(next) = found.get(at) {
                append(file, next)?;
                count += 1;
            }
        }
    }
    let took = began.elapsed();
    println!("{count} {:.3}", took.as_secs_f64());
    Ok(())
}
