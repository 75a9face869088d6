//! Listing the vehicles of a journal.

use crate::fleet::Fleet;
use crate::item::Key;
use crate::journal::{self, Entry};
use crate::replay::print_vehicles;
use crate::table::Table;
use std::fs::File;
use std::io::{self, BufWriter, Write};
use std::process::ExitCode;

fn print(fleet: &Fleet, keys: &[Key]) -> io::Result<()> {
    let mut out = BufWriter::with_capacity(65536, io::stdout().lock());
    print_vehicles(fleet, keys, &mut out)?;
    writeln!(out, "registrations {} events {}", keys.len(), fleet.accepted() - keys.len())?;
    out.flush()
}

pub fn vehicles(path: &str) -> Result<ExitCode, String> {
    let file = File::open(path).map_err(|_| format!("cannot read {path}"))?;
    let (table, mut fleet, mut keys) = (Table::profile(), Fleet::default(), Vec::new());
    let end = journal::read(path, &file, &table, |entry| match entry {
        Entry::Vehicle(key) => {
            keys.push(key);
            fleet.register(key).1
        }
        Entry::Event(event) => fleet.vehicle_mut(&event.key).is_some_and(|it| it.take(&table, &event).is_ok()),
    })?;
    if end == 0 {
        return Err("not a journal: form".to_string());
    }
    print(&fleet, &keys).map_err(|_| "output")?;
    Ok(ExitCode::SUCCESS)
}
