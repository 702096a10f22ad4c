//! `check`, as one would write it by hand and slowly: every fault of every file in words, what is
//! in the files that have none, what is odd in the form of any, and what a run makes of the usage
//! lines where no file has a fault.
//! A row or a line that has a fault is left out, and the next one is looked at as if it were not there.

use crate::cwr::{Registry, name, share};
use crate::payees::{LONGEST, Payees};
use crate::rows::{Field, MOST, Rows, code};
use crate::split::{BLOCK, Input, LAND, OPEN, OVER, Scratch, WORK};
use crate::tis::{NONE, Tis};
use crate::usage::{Line, Usage, amount};
use crate::{ACCOUNTS, form};
use std::cmp::Reverse;
use std::collections::{BTreeMap, BTreeSet, HashSet};
use std::fmt;
use std::sync::atomic::{AtomicU8, Ordering::Relaxed};

/// How many faults of a file are told.
const TOLD: usize = 100;

/// How many works or territories of a kind are told, those with most money.
const GREATEST: usize = 10;

/// How many lines, rows or numbers of a kind are named.
pub const NAMED: usize = 10;

/// The number of the header, the first row, in remarks on open quotes and on repeated rows.
const HEADER: usize = 0;

/// How many bytes of a field are shown.
const SHOWN: usize = 64;

/// What is wrong: the number of the fault, and the message.
pub type Wrong = (u8, String);

/// What is told of a file.
pub struct Sheet<'a> {
    path: &'a str,
    /// What its places are called.
    unit: &'a str,
    faults: usize,
    told: String,
    /// What is said of a file that has no fault.
    facts: String,
    /// What is said of its form, whether or not it has faults.
    form: String,
}

impl<'a> Sheet<'a> {
    pub fn new(path: &'a str, unit: &'a str) -> Sheet<'a> {
        let (told, facts, form) = (String::new(), String::new(), String::new());
        Sheet { path, unit, faults: 0, told, facts, form }
    }

    pub fn fault(&mut self, place: Option<usize>, (number, message): Wrong) {
        self.faults += 1;
        if self.faults <= TOLD {
            let place = place.map(|n| format!("{} {n}: ", self.unit)).unwrap_or_default();
            self.told += &format!("{}: {place}{message} (fault {number})\n", self.path);
        }
    }

    pub fn fact(&mut self, label: &str, number: usize) {
        self.facts += &format!("{}: {label}: {number}\n", self.path);
    }

    pub fn remark(&mut self, text: &str) {
        self.facts += &format!("{}: remark: {text}\n", self.path);
    }

    /// A remark on its form.
    pub fn form(&mut self, text: &str) {
        self.form += &format!("{}: remark: {text}\n", self.path);
    }

    /// How many there are of something in its form beyond those that are told.
    pub fn further_form(&mut self, what: &str, count: usize, told: usize) {
        self.form += &further(self.path, what, count, told);
    }

    pub fn is_sound(&self) -> bool {
        self.faults == 0
    }
}

/// How many there are of something beyond those that are told, where there are more.
pub fn further(path: &str, what: &str, count: usize, told: usize) -> String {
    match count.saturating_sub(told) {
        0 => String::new(),
        more => format!("{path}: further {what}: {more}\n"),
    }
}

/// The first ten of a list, and how many more there are.
pub fn listed(items: &[String]) -> String {
    let named = items[..items.len().min(NAMED)].join(", ");
    match items.len().saturating_sub(NAMED) {
        0 => named,
        more => format!("{named} and {more} more"),
    }
}

/// A field between quotes, its first bytes as they stand where they are printable.
pub fn shown(field: &[u8]) -> String {
    let byte = |&b: &u8| match b {
        b' '..=b'~' => char::from(b).to_string(),
        _ => format!("\\x{b:02x}"),
    };
    let text: String = field.iter().take(SHOWN).map(byte).collect();
    let more = if field.len() > SHOWN { ".." } else { "" };
    format!("'{text}{more}'")
}

/// Reads a table, and answers how many rows are sound. `many` is what is wrong where there are more of them than `most`; `read`
/// takes a row with the right number of fields, or says what is wrong with it.
pub fn table(
    sheet: &mut Sheet,
    bytes: &[u8],
    header: &[&str],
    most: usize,
    many: Wrong,
    mut read: impl FnMut(&[&[u8]]) -> Result<(), Wrong>,
) -> usize {
    // The reader takes quotes out in place.
    let mut text = bytes.to_vec();
    let mut rows = Rows::new(&mut text);
    if !rows.header(header) {
        sheet.fault(Some(0), (1, format!("the first row is not {}", header.join(","))));
    }
    let mut f = [Field::default(); MOST];
    let (mut number, mut sound) = (0, 0);
    while let Some(count) = rows.next(&mut f) {
        number += 1;
        if sound == most {
            sheet.fault(None, many);
            break;
        }
        let fields: Vec<&[u8]> = f.iter().take(count).map(|&f| rows.get(f)).collect();
        let done = if count == header.len() {
            read(&fields)
        } else {
            let (wanted, first) = (header.len(), shown(fields[0]));
            Err((1, format!("the number of fields is {count}, not {wanted}; the first is {first}")))
        };
        match done {
            Ok(()) => sound += 1,
            Err(wrong) => sheet.fault(Some(number), wrong),
        }
    }
    if let Some(row) = open_row(bytes) {
        sheet.form(&format!("row {row}: a quote opens in it that does not end"));
    }
    sound
}

/// The row in which a quote opens that does not end, which is the last.
fn open_row(bytes: &[u8]) -> Option<usize> {
    let mut bytes = bytes.to_vec();
    let mut rows = Rows::new(&mut bytes);
    let mut f = [Field::default(); MOST];
    let mut row = HEADER;
    while rows.next(&mut f).is_some() && !rows.is_open {
        row += 1;
    }
    rows.is_open.then_some(row)
}

/// The codes of the sound rows.
pub fn territories(sheet: &mut Sheet, bytes: &[u8]) -> HashSet<u16> {
    let mut known = HashSet::new();
    let many = (5, "there are more than 2048 rows".into());
    let count = table(sheet, bytes, &["code", "groups"], 2048, many, |row| {
        let Some(c) = code(row[0]) else {
            return Err((2, format!("code {} is not one to four digits, or is 0", shown(row[0]))));
        };
        if known.contains(&c) {
            return Err((3, format!("code {} has an earlier row", shown(row[0]))));
        }
        let mut words = row[1].split(|&b| b == b' ').filter(|word| !word.is_empty());
        if !words.all(|word| code(word).is_some_and(|group| known.contains(&group))) {
            return Err((4, format!("groups {} are not all codes of earlier rows", shown(row[1]))));
        }
        known.insert(c);
        Ok(())
    });
    sheet.fact("territories", count);
    known
}

/// A party and its payee, from the fields of a row.
pub fn party_and_payee<'a>(party: &'a [u8], payee: &'a [u8]) -> Result<(&'a [u8], &'a [u8]), Wrong> {
    let of = |field| name(field).filter(|text: &&[u8]| text.len() <= LONGEST);
    of(party).zip(of(payee)).ok_or_else(|| {
        let (party, payee) = (shown(party), shown(payee));
        let text = "are not both 1 to 64 printable ASCII characters that are not all spaces";
        (2, format!("party {party} and payee {payee} {text}"))
    })
}

/// The payees of the sound rows, and the parties in the order of these rows.
fn payees(sheet: &mut Sheet, bytes: &[u8]) -> (Payees, Vec<Vec<u8>>) {
    let (mut payees, mut parties) = (Payees::new(), Vec::new());
    let many = (4, "there are more than 65536 rows".into());
    let count = table(sheet, bytes, &["party", "payee"], 65_536, many, |row| {
        let (party, payee) = party_and_payee(row[0], row[1])?;
        if payees.contains_key(party) {
            return Err((3, format!("party {} has an earlier row", shown(row[0]))));
        }
        payees.insert(party.to_vec(), payee.to_vec());
        parties.push(party.to_vec());
        Ok(())
    });
    sheet.fact("parties with a payee", count);
    (payees, parties)
}

/// The party of a share line whose shares begin at a place, after so many others of its registration.
fn party_of(line: &[u8], shares: usize, earlier: usize) -> Result<&[u8], Wrong> {
    if line.len() < shares + 20 {
        return Err(short(line));
    }
    let field = &line[19..28];
    let text = "is blank or not printable ASCII";
    let party = name(field).ok_or_else(|| (5, format!("interested party number {} {text}", shown(field))))?;
    let fields = [0, 5, 10].map(|n| &line[shares + n..shares + n + 5]);
    if fields.iter().any(|field| share(field).is_none()) {
        let [pr, mr, sr] = fields.map(shown);
        let text = "are not each five digits up to 10000, or five spaces";
        return Err((2, format!("PR, MR and SR shares {pr}, {mr} and {sr} {text}")));
    }
    let field = &line[shares + 15..shares + 16];
    if !matches!(field, b"I" | b"E" | b" ") {
        return Err((3, format!("indicator {} is not I, E or a space", shown(field))));
    }
    let field = &line[shares + 16..shares + 20];
    if code(field).is_none() {
        return Err((4, format!("territory {} is not four digits from 0001 on", shown(field))));
    }
    if earlier >= 256 {
        return Err((7, "the registration has 256 share lines before this one".into()));
    }
    Ok(party)
}

/// The work that a registration begins with.
fn work_of(line: &[u8]) -> Result<&[u8], Wrong> {
    if line.len() < 82 {
        return Err(short(line));
    }
    let field = &line[81..line.len().min(95)];
    let text = "is blank or not printable ASCII";
    name(field).ok_or_else(|| (6, format!("submitter work number {} {text}", shown(field))))
}

fn short(line: &[u8]) -> Wrong {
    let text = "ends before its last field: NWR and REV take 82 bytes, SPT 54, SWT 48";
    (1, format!("record {} {text}", shown(&line[..3])))
}

/// The last registration of a number, without the lines that have a fault.
pub struct Filed<'a> {
    /// The number of its first line.
    line: usize,
    /// The parties of its share lines.
    pub parties: Vec<&'a [u8]>,
}

/// What the sound lines of a CWR file have.
#[derive(Default)]
pub struct Found<'a> {
    /// The territory of each share line of a registration, with the number of the line.
    territories: Vec<(usize, u16)>,
    /// How many registrations there are, those that were replaced too.
    registrations: usize,
    /// The registrations in force, by their numbers.
    in_force: BTreeMap<&'a [u8], Filed<'a>>,
}

impl<'a> Found<'a> {
    pub fn in_force(&self) -> &BTreeMap<&'a [u8], Filed<'a>> {
        &self.in_force
    }

    /// The numbers of the registrations in force, in the order of their first lines.
    pub fn numbers(&self) -> Vec<&'a [u8]> {
        let mut numbers: Vec<&[u8]> = self.in_force.keys().copied().collect();
        numbers.sort_by_key(|number| self.in_force[number].line);
        numbers
    }

    /// How many registrations were replaced by later ones.
    pub fn replaced(&self) -> usize {
        self.registrations - self.in_force.len()
    }

    /// The share lines whose territory is not known.
    pub fn unknown(&self, known: &HashSet<u16>) -> Vec<usize> {
        let lines = self.territories.iter();
        lines.filter(|(_, land)| !known.contains(land)).map(|line| line.0).collect()
    }

    /// The remark where there is no registration.
    pub fn remark(&self, sheet: &mut Sheet) {
        if self.registrations == 0 {
            sheet.remark("no line is an NWR or REV");
        }
    }
}

/// What is in a CWR file, with the faults of its lines.
pub fn registrations<'a>(sheet: &mut Sheet, bytes: &'a [u8]) -> Found<'a> {
    let mut found = Found::default();
    let mut open: Option<&[u8]> = None;
    for (n, line) in bytes.split(|&b| b == b'\n').enumerate() {
        let line = line.strip_suffix(b"\r").unwrap_or(line);
        let done = match line.get(..3) {
            Some(b"NWR" | b"REV") => work_of(line).map(|work| {
                found.registrations += 1;
                found.in_force.insert(work, Filed { line: n + 1, parties: Vec::new() });
                open = Some(work);
            }),
            Some(kind @ (b"SPT" | b"SWT")) => match open {
                Some(work) => {
                    let parties = &mut found.in_force.get_mut(work).unwrap().parties;
                    let shares = if kind == b"SPT" { 34 } else { 28 };
                    party_of(line, shares, parties.len()).map(|party| {
                        parties.push(party);
                        let land = code(&line[shares + 16..shares + 20]).unwrap();
                        found.territories.push((n + 1, land));
                    })
                }
                None => Ok(()),
            },
            Some(b"HDR" | b"GRH" | b"GRT" | b"TRL" | b"AGR" | b"ACK" | b"ISW" | b"EXC") => {
                open = None;
                Ok(())
            }
            _ => Ok(()),
        };
        if let Err(wrong) = done {
            sheet.fault(Some(n + 1), wrong);
        }
    }
    found
}

/// What is told of the file's registrations, whose parties are answered. `payees` are those of the sound rows; the accounts are
/// told where all rows are sound.
fn parties<'a>(sheet: &mut Sheet, found: &Found<'a>, payees: &Payees, all: bool) -> BTreeSet<&'a [u8]> {
    let parties: BTreeSet<&[u8]> = found.in_force.values().flat_map(|filed| &filed.parties).copied().collect();
    let accounts: BTreeSet<&[u8]> =
        parties.iter().map(|&party| payees.get(party).map_or(party, |payee| payee)).collect();
    if accounts.len() > 16_383 {
        sheet.fault(None, (8, "the parties in force have more than 16383 payees".into()));
    }
    sheet.fact("works with a registration in force", found.in_force.len());
    sheet.fact("registrations replaced by later ones", found.replaced());
    sheet.fact("parties in force", parties.len());
    if all {
        sheet.fact("accounts, the residue's included", accounts.len() + 1);
    }
    found.remark(sheet);
    parties
}

/// How many lines or rows of a kind there are, and where the first ten stand, if there are any.
pub fn places_of(kind: &str, numbers: impl Iterator<Item = usize>) -> Option<String> {
    let numbers: Vec<String> = numbers.map(|number| number.to_string()).collect();
    let text = || format!("{}, in {kind} {}", numbers.len(), listed(&numbers));
    (!numbers.is_empty()).then(text)
}

/// A remark on lines or rows of a kind, by their numbers, where there are any.
pub fn remark_on(
    path: &str,
    what: &str,
    kind: &str,
    numbers: impl Iterator<Item = usize>,
) -> String {
    let remark = |places| format!("{path}: remark: {what}: {places}\n");
    places_of(kind, numbers).map(remark).unwrap_or_default()
}

/// A usage line: its usage, its work, its territory, its right and its amount.
type UsageLine = (Vec<u8>, Vec<u8>, u16, u8, i64);

/// What a row of the usage list has, or what is wrong with it.
fn usage_line(row: &[&[u8]]) -> Result<UsageLine, Wrong> {
    let text = |field: &[u8]| {
        (1..=64).contains(&field.len()) && field.iter().all(|b| (b' '..=b'~').contains(b))
    };
    if !text(row[0]) || !text(row[1]) {
        let (usage, work) = (shown(row[0]), shown(row[1]));
        let text = "are not both 1 to 64 printable ASCII characters";
        return Err((2, format!("usage {usage} and work {work} {text}")));
    }
    let Some(territory) = code(row[2]) else {
        let field = shown(row[2]);
        return Err((3, format!("territory {field} is not one to four digits, or is 0")));
    };
    let &[right @ (b'P' | b'M' | b'S')] = row[3] else {
        return Err((4, format!("right {} is not P, M or S", shown(row[3]))));
    };
    let Some(amount) = amount(row[4]) else {
        let text = "is not a whole number from -1000000000000 to 1000000000000";
        return Err((5, format!("amount {} {text}", shown(row[4]))));
    };
    Ok((row[0].to_vec(), row[1].to_vec(), territory, right, amount))
}

pub fn usage(sheet: &mut Sheet, bytes: &[u8]) {
    let header = ["usage", "work", "territory", "right", "amount"];
    let many = (6, "there are more than 1000000 usage lines".into());
    let (mut seen, mut repeated) = (HashSet::new(), Vec::new());
    // Repeated rows are told of a list without a fault, so that all rows are counted.
    let mut number = HEADER;
    let count = table(sheet, bytes, &header, 1_000_000, many, |row| {
        let line = usage_line(row)?;
        number += 1;
        if !seen.insert(line) {
            repeated.push(number);
        }
        Ok(())
    });
    sheet.fact("usage lines", count);
    if count == 0 {
        sheet.remark("there are no usage lines");
    }
    if let Some(places) = places_of("row", repeated.into_iter()) {
        sheet.remark(&format!("rows that are the same as an earlier one: {places}"));
    }
}

/// How many usage lines there are of a kind, and what their amounts come to.
#[derive(Clone, Copy, Default)]
pub struct Tally {
    lines: usize,
    amount: i64,
}

impl Tally {
    pub fn add(&mut self, amount: i64) {
        self.lines += 1;
        self.amount += amount;
    }
}

impl fmt::Display for Tally {
    fn fmt(&self, f: &mut fmt::Formatter) -> fmt::Result {
        write!(f, "lines {}, amount {}", self.lines, self.amount)
    }
}

/// The tally of each key, over pairs of a key and an amount.
pub fn tallied<K: Ord>(amounts: impl Iterator<Item = (K, i64)>) -> BTreeMap<K, Tally> {
    let mut tallies: BTreeMap<K, Tally> = BTreeMap::new();
    for (key, amount) in amounts {
        tallies.entry(key).or_default().add(amount);
    }
    tallies
}

/// Those whose amounts come to most, either way; of as much, first the lowest.
fn greatest<K: Ord>(tallies: BTreeMap<K, Tally>) -> Vec<(K, Tally)> {
    let mut list: Vec<(K, Tally)> = tallies.into_iter().collect();
    // Those of the same size stay in order.
    list.sort_by_key(|(_, tally)| Reverse(tally.amount.abs()));
    list.truncate(GREATEST);
    list
}

/// A line for each of those whose amounts come to most, and how many more there are of these.
pub fn ranking<K: Ord>(
    path: &str,
    what: &str,
    tallies: BTreeMap<K, Tally>,
    line: impl Fn(K, Tally) -> String,
) -> String {
    let count = tallies.len();
    let told = greatest(tallies).into_iter();
    let text: String = told.map(|(key, tally)| format!("{path}: {}\n", line(key, tally))).collect();
    text + &further(path, what, count, GREATEST)
}

/// What a run makes of each usage line.
pub struct Divided {
    reasons: Vec<u8>,
    /// What goes to the residue of each.
    residue: Vec<i64>,
}

impl Divided {
    pub fn of(input: &Input) -> Divided {
        let lines = input.usage.lines.len();
        let reasons: Vec<AtomicU8> = (0..lines).map(|_| AtomicU8::new(WORK)).collect();
        let mut residue = vec![0; lines];
        let mut scratch = Scratch::new();
        for block in 0..lines.div_ceil(BLOCK) {
            input.block(block, &reasons, &mut scratch, |account, line, portion| {
                if account == 0 {
                    residue[line as usize] = portion;
                }
            });
        }
        let reasons = reasons.iter().map(|reason| reason.load(Relaxed)).collect();
        Divided { reasons, residue }
    }

    /// The lines of a reason, each with its place and what goes to the residue of it.
    pub fn lines_of<'a>(
        &'a self,
        usage: &'a Usage,
        reason: u8,
    ) -> impl Iterator<Item = (usize, &'a Line, i64)> {
        let lines = usage.lines.iter().zip(&self.residue).enumerate();
        let lines = lines.filter(move |(place, _)| self.reasons[*place] == reason);
        lines.map(|(place, (line, &portion))| (place, line, portion))
    }

    /// How many lines there are of a reason, and what they come to.
    fn tally_of(&self, usage: &Usage, reason: u8) -> Tally {
        let mut tally = Tally::default();
        self.lines_of(usage, reason).for_each(|(_, line, _)| tally.add(line.amount));
        tally
    }

    /// The lines of a reason, by their works.
    pub fn works_of<'a>(&self, usage: &'a Usage, reason: u8) -> BTreeMap<&'a [u8], Tally> {
        let lines = self.lines_of(usage, reason);
        tallied(lines.map(|(_, line, _)| (usage.work(line), line.amount)))
    }

    /// Of the lines that are divided, what they leave to the residue, by their works.
    fn left_open<'a>(&self, usage: &'a Usage) -> BTreeMap<&'a [u8], Tally> {
        let lines = self.lines_of(usage, OPEN).filter(|(_, _, portion)| *portion != 0);
        tallied(lines.map(|(_, line, portion)| (usage.work(line), portion)))
    }
}

/// How many usage lines there are of each reason.
fn reasons(path: &str, usage: &Usage, run: &Divided) -> String {
    let of = |reason| run.tally_of(usage, reason);
    let to_the_residue: i64 = run.lines_of(usage, OPEN).map(|(_, _, portion)| portion).sum();
    let told = [
        format!("divided: {}, to the residue {to_the_residue}", of(OPEN)),
        format!("WORK, not registered: {}", of(WORK)),
        format!("LAND, territory not in the table: {}", of(LAND)),
        format!("OVER, claims over 100.06 per cent: {}", of(OVER)),
    ];
    told.iter().map(|line| format!("{path}: {line}\n")).collect()
}

/// The works and the territories with most money that nobody gets, or not all of it.
fn most_money(path: &str, usage: &Usage, run: &Divided) -> String {
    let unregistered = run.works_of(usage, WORK);
    let mut text = ranking(path, "works that are not registered", unregistered, |work, tally| {
        format!("work {} is not registered: {tally}", shown(work))
    });
    let lands = run.lines_of(usage, LAND).map(|(_, line, _)| (line.territory, line.amount));
    let what = "territories that are not in the table";
    text += &ranking(path, what, tallied(lands), |land, tally| {
        format!("territory {land} is not in the table: {tally}")
    });
    let what = "works that are not claimed in full";
    text + &ranking(path, what, run.left_open(usage), |work, Tally { lines, amount }| {
        let work = shown(work);
        format!("work {work} is not claimed in full: lines {lines}, to the residue {amount}")
    })
}

/// What a run makes of the usage lines of files that have no fault. The paths are those of the territories, of what says which
/// works there are, and of the usage list.
pub fn summary(
    [tis_path, works_path, usage_path]: [&str; 3],
    input: &Input,
    run: &Divided,
) -> String {
    let (tis, usage) = (input.tis, input.usage);
    let lines = &usage.lines;
    let mut text = reasons(usage_path, usage, run) + &most_money(usage_path, usage, run);
    if !lines.is_empty() && run.reasons.iter().all(|&reason| reason == WORK) {
        text += &format!("{works_path}: remark: it has the work of no usage line\n");
    }
    if !lines.is_empty() && lines.iter().all(|line| tis.row(line.territory) == NONE) {
        text += &format!("{tis_path}: remark: it has the territory of no usage line\n");
    }
    text
}

/// What works are called in the report that are claimed over 100.06 per cent.
pub const OVERCLAIMED: &str = "works that are claimed over 100.06 per cent";

/// The beginning of the line of such a work.
pub fn overclaimed_line(work: &[u8], tally: Tally) -> String {
    format!("work {} is claimed over 100.06 per cent: {tally}", shown(work))
}

/// A file: its path and its bytes.
pub type File<'a> = (&'a str, &'a [u8]);

/// The faults of files, what is in those that have none, and what is odd in the form of any; and
/// whether none has a fault.
pub fn told(sheets: &[Sheet]) -> (String, bool) {
    let mut text = String::new();
    for sheet in sheets {
        text += &sheet.told;
        text += &further(sheet.path, "faults", sheet.faults, TOLD);
    }
    for sheet in sheets {
        if sheet.is_sound() {
            text += &sheet.facts;
        }
        text += &sheet.form;
    }
    (text, sheets.iter().all(Sheet::is_sound))
}

/// The remark on share lines whose territory is not in the table.
pub fn unknown_territories(path: &str, lines: Vec<usize>) -> String {
    let what = "share lines whose territory is not in the table";
    remark_on(path, what, "line", lines.into_iter())
}

/// The report, and whether no file has a fault.
pub fn check(tis: File, payees_file: Option<File>, cwr: File, usage_file: File) -> (String, bool) {
    let mut sheets = vec![Sheet::new(tis.0, "row")];
    let known = territories(&mut sheets[0], tis.1);
    let (mut table, mut paid, mut all) = (Payees::new(), Vec::new(), true);
    if let Some((path, bytes)) = payees_file {
        let mut sheet = Sheet::new(path, "row");
        (table, paid) = payees(&mut sheet, bytes);
        all = sheet.is_sound();
        sheets.push(sheet);
    }
    let mut sheet = Sheet::new(cwr.0, "line");
    let found = registrations(&mut sheet, cwr.1);
    form::tell(&mut sheet, cwr.1);
    let in_force = parties(&mut sheet, &found, &table, all);
    let registered = sheet.is_sound();
    sheets.push(sheet);
    let mut sheet = Sheet::new(usage_file.0, "row");
    usage(&mut sheet, usage_file.1);
    sheets.push(sheet);

    let (mut text, sound) = told(&sheets);
    if registered && sheets[0].is_sound() {
        text += &unknown_territories(cwr.0, found.unknown(&known));
    }
    if let (Some((path, _)), true) = (payees_file, registered && all) {
        let unused = paid.iter().enumerate().filter(|(_, party)| !in_force.contains(&party[..]));
        let numbers = unused.map(|(n, _)| n + 1);
        text += &remark_on(path, "rows whose party no registration in force has", "row", numbers);
    }
    if sound {
        let tis_table = Tis::read(&mut tis.1.to_vec()).unwrap();
        let registry = Registry::read(cwr.1, &tis_table, &table, ACCOUNTS).unwrap();
        let usage = Usage::read(usage_file.1.to_vec(), crate::LARGEST_LIST.lines).unwrap();
        let input = Input { tis: &tis_table, registry: &registry, usage: &usage };
        let run = Divided::of(&input);
        text += &summary([tis.0, cwr.0, usage_file.0], &input, &run);
        text += &ranking(usage_file.0, OVERCLAIMED, run.works_of(&usage, OVER), overclaimed_line);
    }
    (text, sound)
}
