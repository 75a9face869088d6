//! The journal: a file of lines that tell what was accepted, each with a space before it.
//!
//! A line counts once it is whole, and so are all before it. A crash may leave a part of what was written behind the last sync.
//! So reading ends at the first line that isn't whole, and a server cuts the file there. No two servers may share a file.

use crate::item::{read_event, read_vehicle, Event, Key};
use crate::table::Table;
use serde_json::Value;
use std::fs::{File, OpenOptions};
use std::io::{self, BufRead, BufReader, Write};
use std::mem;
use std::path::Path;
use std::process;
use std::sync::atomic::{AtomicU64, Ordering};
use std::sync::{Condvar, Mutex, MutexGuard};

const FORM: &[u8] = b" {\"form\":\"mds_city\",\"version\":1}\n";

/// What a line tells.
pub enum Entry {
    Vehicle(Key),
    Event(Event),
}

fn entry(value: &Value, table: &Table) -> Option<Entry> {
    if value.get("event_id").is_some() {
        read_event(value, table).ok().map(Entry::Event)
    } else {
        read_vehicle(value).ok().map(Entry::Vehicle)
    }
}

/// The value of a line, if it is whole. Bytes of a file that were never written are zeros, which no JSON has.
fn whole(line: &[u8]) -> Option<Value> {
    serde_json::from_slice(line.strip_prefix(b" ")?.strip_suffix(b"\n")?).ok()
}

/// Reads a journal, and says how many of its bytes count. What each line tells is taken, or refused.
pub fn read(path: &str, file: &File, table: &Table, mut take: impl FnMut(Entry) -> bool) -> Result<u64, String> {
    let mut reader = BufReader::with_capacity(65536, file);
    let mut next = |line: &mut Vec<u8>| {
        line.clear();
        reader.read_until(b'\n', line).map_err(|_| format!("cannot read {path}"))
    };
    let mut line = Vec::new();
    let mut end = next(&mut line)? as u64;
    if line != FORM {
        return if FORM.starts_with(&line) { Ok(0) } else { Err("not a journal: form".to_string()) };
    }
    for number in 1.. {
        let count = next(&mut line)?;
        let Some(value) = whole(&line) else {
            break;
        };
        match entry(&value, table).map(&mut take) {
            Some(true) => end += count as u64,
            Some(false) => return Err(format!("not a journal: refused {number}")),
            None => return Err(format!("not a journal: bad_line {number}")),
        }
    }
    Ok(end)
}

/// What waits to be written.
struct Desk {
    lines: Vec<u8>,
    /// Where the last of these lines will end in the file.
    end: u64,
    is_writing: bool,
}

pub struct Journal {
    file: File,
    desk: Mutex<Desk>,
    /// A thread has written.
    written: Condvar,
    /// Up to where the file is on the disk.
    kept: AtomicU64,
}

impl Journal {
    /// Opens a journal, or makes it. What it tells is taken, or refused.
    pub fn open(path: &str, table: &Table, take: impl FnMut(Entry) -> bool) -> Result<Journal, String> {
        let opened = OpenOptions::new().read(true).append(true).create(true).open(path);
        let file = opened.map_err(|_| format!("cannot read {path}"))?;
        let end = read(path, &file, table, take)?;
        let end = begin(Path::new(path), &file, end).map_err(|_| "journal")?;
        let desk = Mutex::new(Desk { lines: Vec::new(), end, is_writing: false });
        Ok(Journal { file, desk, written: Condvar::new(), kept: AtomicU64::new(end) })
    }

    fn desk(&self) -> MutexGuard<'_, Desk> {
        self.desk.lock().expect("no thread panics")
    }

    fn is_kept(&self, place: u64) -> bool {
        self.kept.load(Ordering::Acquire) >= place
    }

    /// Adds a line, and says where it ends. Who calls it has locked the vehicle's shard. So the lines of a vehicle stand in the
    /// order in which they were accepted.
    pub fn add(&self, text: &str) -> u64 {
        let mut desk = self.desk();
        desk.lines.push(b' ');
        desk.lines.extend_from_slice(text.as_bytes());
        desk.lines.push(b'\n');
        desk.end += text.len() as u64 + 2;
        desk.end
    }

    /// Waits until the file up to this place is on the disk. One of those that wait writes all lines, with one sync.
    pub fn wait(&self, place: u64) {
        if self.is_kept(place) {
            return;
        }
        let mut desk = self.desk();
        while !self.is_kept(place) {
            if desk.is_writing {
                desk = self.written.wait(desk).expect("no thread panics");
                continue;
            }
            let (lines, end) = (mem::take(&mut desk.lines), desk.end);
            desk.is_writing = true;
            drop(desk);
            self.write(&lines);
            self.kept.store(end, Ordering::Release);
            desk = self.desk();
            desk.is_writing = false;
            self.written.notify_all();
        }
    }

    /// Writes lines to the disk. Where that fails nobody knows which of them stand there, so the process ends.
    fn write(&self, lines: &[u8]) {
        let written = (&self.file).write_all(lines).and_then(|()| self.file.sync_data());
        if written.is_err() {
            eprintln!("peer: journal");
            process::exit(3);
        }
    }
}

/// Cuts the file to what counts, and begins it where that is nothing. Says where it ends, all of it on the disk.
fn begin(path: &Path, mut file: &File, end: u64) -> io::Result<u64> {
    file.set_len(end)?;
    if end > 0 {
        file.sync_all()?;
        return Ok(end);
    }
    file.write_all(FORM)?;
    file.sync_all()?;
    let whole = path.canonicalize()?;
    File::open(whole.parent().unwrap_or(&whole))?.sync_all()?;
    Ok(FORM.len() as u64)
}
