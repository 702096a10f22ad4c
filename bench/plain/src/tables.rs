//! `works` and `parties`: tables of works and of payees to begin with, from what the records of the
//! registrations in force say.

use crate::cwr::{name, trim};
use crate::rows::quoted;
use crate::submitters::{Submitter, Submitters};
use std::collections::{BTreeSet, HashMap, HashSet};
use std::process::ExitCode;

/// What stands in a line from one position to another, counted from 1, up to the line's end, and
/// without spaces at both ends.
fn field(line: &[u8], first: usize, last: usize) -> &[u8] {
    let end = last.min(line.len());
    trim(line.get(first - 1..end).unwrap_or_default())
}

/// Whether a field is so many digits that are not all 0.
fn is_number(field: &[u8], digits: usize) -> bool {
    field.len() == digits
        && field.iter().all(u8::is_ascii_digit)
        && field.iter().any(|&b| b != b'0')
}

/// The lines of a text, without their ends.
fn lines(text: &[u8]) -> impl Iterator<Item = &[u8]> {
    let lines = text.split(|&b| b == b'\n');
    lines.map(|line| line.strip_suffix(b"\r").unwrap_or(line))
}

/// A registration as it stands in a file.
struct Registration<'a> {
    number: &'a [u8],
    /// Its lines, from the NWR or REV on.
    text: &'a [u8],
}

impl<'a> Registration<'a> {
    fn lines(&self) -> impl Iterator<Item = &'a [u8]> + use<'a> {
        lines(self.text)
    }

    /// What stands in the NWR or REV from one position to another.
    fn field(&self, first: usize, last: usize) -> &'a [u8] {
        let record = self.lines().next().unwrap_or_default();
        field(record, first, last)
    }
}

/// The registrations in force of a file that has no fault, in their order.
fn in_force(text: &[u8]) -> impl Iterator<Item = Registration<'_>> {
    let (mut all, mut last) = (Vec::new(), HashMap::new());
    let (mut start, mut is_open) = (0, false);
    for line in text.split_inclusive(|&b| b == b'\n') {
        let end = start + line.len();
        match line.get(..3) {
            Some(b"NWR" | b"REV") => {
                let record = lines(line).next().unwrap_or_default();
                let number = field(record, 82, 95);
                last.insert(number, all.len());
                all.push((number, start..end));
                is_open = true;
            }
            Some(b"HDR" | b"GRH" | b"GRT" | b"TRL" | b"AGR" | b"ACK" | b"ISW" | b"EXC") => {
                is_open = false;
            }
            _ => {}
        }
        if let (true, Some((_, range))) = (is_open, all.last_mut()) {
            range.end = end;
        }
        start = end;
    }
    all.into_iter()
        .enumerate()
        .filter(move |(place, (number, _))| last[number] == *place)
        .map(|(_, (number, range))| Registration {
            number,
            text: &text[range],
        })
}

/// Adds a row to a table.
fn add_row(table: &mut Vec<u8>, fields: [&[u8]; 4]) {
    table.extend(fields.map(quoted).join(&b","[..]));
    table.push(b'\n');
}

/// What is a submitter's own: its NAME:NUMBER for a work, or its NAME:PARTY for an account.
fn own(submitter: &Submitter, number: &[u8]) -> Vec<u8> {
    [submitter.name.as_bytes(), b":", number].concat()
}

/// Whether a field is an ISWC.
fn is_iswc(field: &[u8]) -> bool {
    matches!(field, [b'T', digits @ ..] if is_number(digits, 10))
}

/// Adds a row for each registration in force of a submitter's file.
fn add_works(table: &mut Vec<u8>, submitter: &Submitter, text: &[u8]) {
    let mut named = HashSet::new();
    for registration in in_force(text) {
        let (number, iswc) = (registration.number, registration.field(96, 106));
        let work = match is_iswc(iswc) && named.insert(iswc) {
            true => iswc.to_vec(),
            false => own(submitter, number),
        };
        let (name, title) = (submitter.name.as_bytes(), registration.field(20, 79));
        add_row(table, [&work, name, number, title]);
    }
}

/// What the records of a party say last, where they say it.
#[derive(Default)]
struct Person<'a> {
    name: Vec<u8>,
    /// The IPI name number.
    ipi: &'a [u8],
}

/// The persons and firms of a file's registrations in force, by their numbers, and the parties of
/// the share lines.
#[derive(Default)]
struct Persons<'a> {
    by_number: HashMap<&'a [u8], Person<'a>>,
    parties: BTreeSet<&'a [u8]>,
}

impl<'a> Persons<'a> {
    fn of(text: &'a [u8]) -> Persons<'a> {
        let mut persons = Persons::default();
        for line in in_force(text).flat_map(|registration| registration.lines()) {
            match line.get(..3) {
                Some(b"SPU") => {
                    let name = field(line, 31, 75).to_vec();
                    persons.add(field(line, 22, 30), name, field(line, 88, 98));
                }
                Some(b"SWR") => {
                    let names = [field(line, 74, 103), field(line, 29, 73)];
                    let names = names.into_iter().filter(|name| !name.is_empty());
                    let name = names.collect::<Vec<_>>().join(&b' ');
                    persons.add(field(line, 20, 28), name, field(line, 116, 126));
                }
                Some(b"SPT" | b"SWT") => persons.parties.extend(name(&line[19..28])),
                _ => {}
            }
        }
        persons
    }

    fn add(&mut self, number: &'a [u8], name: Vec<u8>, ipi: &'a [u8]) {
        let person = self.by_number.entry(number).or_default();
        if !name.is_empty() {
            person.name = name;
        }
        if is_number(ipi, 11) {
            person.ipi = ipi;
        }
    }
}

/// Adds a row for each party of a submitter's file.
fn add_parties(table: &mut Vec<u8>, submitter: &Submitter, text: &[u8]) {
    let persons = Persons::of(text);
    let nobody = Person::default();
    for party in persons.parties {
        let person = persons.by_number.get(party).unwrap_or(&nobody);
        let payee = match person.ipi {
            [] => own(submitter, party),
            ipi => ipi.to_vec(),
        };
        let name = submitter.name.as_bytes();
        add_row(table, [name, party, &payee, &person.name]);
    }
}

/// A table with rows from each file in turn.
fn table(
    header: &str,
    submitters: &Submitters,
    add: fn(&mut Vec<u8>, &Submitter, &[u8]),
) -> Result<Vec<u8>, ExitCode> {
    let mut table = format!("{header}\n").into_bytes();
    for submitter in submitters.iter() {
        let (text, _) = submitter.read()?;
        add(&mut table, submitter, &text);
    }
    Ok(table)
}

/// The table of works that `works` prints.
pub fn works(submitters: &Submitters) -> Result<Vec<u8>, ExitCode> {
    table("work,submitter,number,title", submitters, add_works)
}

/// The table of payees that `parties` prints.
pub fn parties(submitters: &Submitters) -> Result<Vec<u8>, ExitCode> {
    table("submitter,party,payee,name", submitters, add_parties)
}
