//! The form of a CWR file, in remarks that `check` makes whether the file has faults or not: line
//! ends, record types, bytes beyond ASCII, the counts of trailers, and a missing trailer.

use crate::check::{NAMED, Sheet, listed, places_of, shown};
use std::collections::HashMap;
use std::ops::Range;

/// The record types that CWR 2.2 has.
const TYPES: [&[u8]; 42] = [
    b"HDR", b"GRH", b"GRT", b"TRL", b"AGR", b"TER", b"IPA", b"NPA", b"NWR", b"REV", b"ISW", b"EXC",
    b"ACK", b"SPU", b"NPN", b"SPT", b"OPU", b"OPT", b"SWR", b"NWN", b"SWT", b"PWR", b"OWR", b"NOW",
    b"OWT", b"ALT", b"NAT", b"EWT", b"NET", b"VER", b"NVT", b"COM", b"NCT", b"PER", b"NPR", b"REC",
    b"ORN", b"INS", b"IND", b"ARI", b"XRF", b"MSG",
];

/// Where the groups of a trailer of a file are counted, and the transactions and the records of
/// any trailer.
const GROUPS: Range<usize> = 3..8;
const TRANSACTIONS: Range<usize> = 8..16;
const RECORDS: Range<usize> = 16..24;

/// A line that is not empty.
struct Record<'a> {
    /// Its line, counted from 1.
    line: usize,
    bytes: &'a [u8],
}

impl<'a> Record<'a> {
    /// Its first three bytes, or fewer if it is shorter.
    fn kind(&self) -> &'a [u8] {
        &self.bytes[..self.bytes.len().min(3)]
    }

    /// How many bytes it has before the last field that is read of it.
    fn before_last_field(&self) -> usize {
        match self.kind() {
            b"NWR" | b"REV" => 81,
            b"SPT" => 50,
            b"SWT" => 44,
            _ => 0,
        }
    }

    /// Whether one of these is beyond ASCII.
    fn is_shifted(&self) -> bool {
        let mut before = self.bytes.iter().take(self.before_last_field());
        before.any(|byte| !byte.is_ascii())
    }

    /// The number in a field, as far as the record goes, if digits fill it.
    fn number(&self, field: &Range<usize>) -> Option<u64> {
        let end = field.end.min(self.bytes.len());
        let digits = self.bytes.get(field.start..end)?;
        let is_number = !digits.is_empty() && digits.iter().all(u8::is_ascii_digit);
        is_number.then(|| {
            let digit = |byte: &u8| u64::from(byte - b'0');
            digits.iter().fold(0, |n, byte| 10 * n + digit(byte))
        })
    }
}

/// The lines that are not empty, in their order.
fn records_of(bytes: &[u8]) -> Vec<Record<'_>> {
    let lines = bytes.split(|&byte| byte == b'\n').enumerate();
    let lines = lines.map(|(n, line)| Record {
        line: n + 1,
        bytes: line.strip_suffix(b"\r").unwrap_or(line),
    });
    lines.filter(|record| !record.bytes.is_empty()).collect()
}

/// The types that CWR 2.2 does not have, in the order in which they first come, and how many
/// records each has.
fn unknown_types<'a>(records: &[Record<'a>]) -> Vec<(&'a [u8], usize)> {
    let mut found: Vec<(&[u8], usize)> = Vec::new();
    let mut places = HashMap::new();
    for kind in records.iter().map(Record::kind) {
        if !TYPES.contains(&kind) {
            let place = *places.entry(kind).or_insert(found.len());
            if place == found.len() {
                found.push((kind, 0));
            }
            found[place].1 += 1;
        }
    }
    found
}

/// What the records of a group, or of a file, come to.
#[derive(Default)]
struct Counts {
    groups: u64,
    transactions: u64,
    records: u64,
}

impl Counts {
    fn add(&mut self, kind: &[u8]) {
        self.records += 1;
        match kind {
            b"GRH" => self.groups += 1,
            b"AGR" | b"NWR" | b"REV" | b"ISW" | b"EXC" | b"ACK" => self.transactions += 1,
            _ => {}
        }
    }
}

/// What a trailer says of what was counted, where that is not so. It has a name, and is one of a
/// group or of the file.
fn differences(
    trailer: &Record,
    [name, of]: [&str; 2],
    counts: &[(&str, Range<usize>, u64)],
) -> Vec<String> {
    let mut told = Vec::new();
    for (what, field, count) in counts {
        let said = match trailer.number(field) {
            Some(number) if number == *count => continue,
            Some(number) => format!("{number} {what}"),
            None => format!("no number of {what}"),
        };
        let line = trailer.line;
        told.push(format!("line {line}: {name} says {said}, and {of} has {count}"));
    }
    told
}

/// What the trailer of a group says that is not so.
fn of_group(trailer: &Record, counted: &Counts) -> Vec<String> {
    let counts = [
        ("transactions", TRANSACTIONS, counted.transactions),
        ("records", RECORDS, counted.records),
    ];
    differences(trailer, ["GRT", "its group"], &counts)
}

/// What the trailer of a file says that is not so.
fn of_file(trailer: &Record, counted: &Counts) -> Vec<String> {
    let counts = [
        ("groups", GROUPS, counted.groups),
        ("transactions", TRANSACTIONS, counted.transactions),
        ("records", RECORDS, counted.records),
    ];
    differences(trailer, ["TRL", "the file"], &counts)
}

/// What all trailers say that is not so, in the order of the file. A group begins with the last
/// GRH, and a file with the last HDR, or with the first line where there is none.
fn control_counts(records: &[Record]) -> Vec<String> {
    let (mut group, mut file) = (Counts::default(), Counts::default());
    let mut told = Vec::new();
    for record in records {
        match record.kind() {
            b"GRH" => group = Counts::default(),
            b"HDR" => file = Counts::default(),
            _ => {}
        }
        group.add(record.kind());
        file.add(record.kind());
        match record.kind() {
            b"GRT" => told.extend(of_group(record, &group)),
            b"TRL" => told.extend(of_file(record, &file)),
            _ => {}
        }
    }
    told
}

/// Remarks on the record types that CWR 2.2 does not have.
fn tell_types(sheet: &mut Sheet, records: &[Record]) {
    let types = unknown_types(records).into_iter();
    let types: Vec<String> =
        types.map(|(kind, count)| format!("{} ({count})", shown(kind))).collect();
    if !types.is_empty() {
        let (count, types) = (types.len(), listed(&types));
        sheet.form(&format!("record types that CWR 2.2 does not have: {count}, {types}"));
    }
}

/// Remarks on bytes beyond ASCII that may have moved what stands behind them.
fn tell_bytes(sheet: &mut Sheet, records: &[Record]) {
    let shifted = records.iter().filter(|record| record.is_shifted());
    let what = "NWR, REV, SPT or SWT with a byte beyond ASCII before the last field that is read";
    if let Some(places) = places_of("line", shifted.map(|record| record.line)) {
        sheet.form(&format!("{what}: {places}"));
    }
}

/// Remarks on the counts of trailers, and on one that is not there.
fn tell_trailers(sheet: &mut Sheet, records: &[Record]) {
    let differences = control_counts(records);
    for text in differences.iter().take(NAMED) {
        sheet.form(text);
    }
    sheet.further_form("control counts that differ", differences.len(), NAMED);
    if records.last().is_none_or(|record| record.kind() != b"TRL") {
        sheet.form("its last record is no TRL, so it may be cut off");
    }
}

/// Remarks on the form of a file.
pub fn tell(sheet: &mut Sheet, bytes: &[u8]) {
    if bytes.contains(&b'\r') && !bytes.contains(&b'\n') {
        sheet.form("line ends are CR alone, so that all of it is one line");
    }
    let records = records_of(bytes);
    tell_types(sheet, &records);
    tell_bytes(sheet, &records);
    tell_trailers(sheet, &records);
}
