//! Statement texts merged into one, as one would write it by hand: each is read whole and told apart by payee.

use crate::rows::{Fault, quoted};
use std::collections::BTreeMap;
use std::io::Write;

/// The largest amount of a row, either way.
pub const MOST_AMOUNT: u64 = 1_000_000_000_000;

const MOST_LINES: u64 = 1_000_000_000_000_000_000;

/// The faults of a text, by what cannot stand in a row.
const ROW: u8 = 1;
const KIND: u8 = 2;
const WHOSE: u8 = 3;
const THIRD: u8 = 4;
const FOURTH: u8 = 5;
const END: u8 = 6;

/// The reasons why nobody gets an amount.
pub const REASONS: [&[u8]; 4] = [b"WORK", b"LAND", b"OVER", b"OPEN"];

/// Portions as they stand, how many they are and what they come to.
#[derive(Default)]
pub struct Portions {
    rows: Vec<u8>,
    pub count: u64,
    sum: i128,
}

impl Portions {
    pub fn add(&mut self, line: &[u8], amount: i64) {
        self.rows.extend_from_slice(line);
        self.count += 1;
        self.sum += i128::from(amount);
    }

    fn join(&mut self, mut others: Portions) {
        self.rows.append(&mut others.rows);
        self.count += others.count;
        self.sum += others.sum;
    }

    /// Of each row whose it is, its use and its amount.
    pub fn iter(&self) -> impl Iterator<Item = (Vec<u8>, Vec<u8>, i64)> {
        self.rows.split_inclusive(|&byte| byte == b'\n').map(|line| {
            let [_, whose, usage, field] = fields(line).expect("a row that was read");
            let amount = portion(&usage, &field).expect("an amount that was read");
            (whose, usage, amount)
        })
    }
}

/// What texts say together.
#[derive(Default)]
pub struct Statements {
    pub payees: BTreeMap<Vec<u8>, Portions>,
    pub rests: Portions,
    pub lines: u64,
    pub total: i128,
}

/// Which rows come next.
enum Next {
    Payee,
    Portion(Vec<u8>, Portions),
    Rest,
    Run,
    Nothing,
}

impl Statements {
    /// What a text says, or its first fault.
    pub fn read(text: &[u8]) -> Result<Statements, Fault> {
        let mut all = Statements::default();
        let mut next = Next::Payee;
        let mut row = 0;
        for line in text.split_inclusive(|&byte| byte == b'\n') {
            row += 1;
            next = all.follow(next, line).map_err(|fault| Fault(fault, Some(row)))?;
        }
        match next {
            Next::Nothing => Ok(all),
            _ => Err(Fault(END, Some(row + 1))),
        }
    }

    fn follow(&mut self, next: Next, line: &[u8]) -> Result<Next, u8> {
        let [kind, whose, third, fourth] = fields(line).ok_or(ROW)?;
        let sums = |portions: &Portions| {
            check(third == portions.count.to_string().as_bytes(), THIRD)?;
            check(fourth == portions.sum.to_string().as_bytes(), FOURTH)
        };
        match (next, kind.as_slice()) {
            (Next::Payee, b"L") => {
                let last = self.payees.last_key_value().map(|(payee, _)| payee);
                check(is_name(&whose) && last.is_none_or(|last| *last < whose), WHOSE)?;
                let mut portions = Portions::default();
                portions.add(line, portion(&third, &fourth)?);
                Ok(Next::Portion(whose, portions))
            }
            (Next::Portion(payee, mut portions), b"L") => {
                check(whose == payee, WHOSE)?;
                portions.add(line, portion(&third, &fourth)?);
                Ok(Next::Portion(payee, portions))
            }
            (Next::Portion(payee, portions), b"S") => {
                check(whose == payee, WHOSE)?;
                sums(&portions)?;
                self.total += portions.sum;
                self.payees.insert(payee, portions);
                Ok(Next::Payee)
            }
            (Next::Payee | Next::Rest, b"M") => {
                check(REASONS.contains(&&whose[..]), WHOSE)?;
                self.rests.add(line, portion(&third, &fourth)?);
                Ok(Next::Rest)
            }
            (Next::Payee | Next::Rest, b"T") => {
                check(whose.is_empty(), WHOSE)?;
                sums(&self.rests)?;
                self.total += self.rests.sum;
                Ok(Next::Run)
            }
            (Next::Run, b"R") => {
                check(whose.is_empty(), WHOSE)?;
                let lines = std::str::from_utf8(&third).ok().and_then(|text| text.parse().ok());
                self.lines = lines.filter(|n: &u64| third == n.to_string().as_bytes() && *n <= MOST_LINES).ok_or(THIRD)?;
                check(fourth == self.total.to_string().as_bytes(), FOURTH)?;
                Ok(Next::Nothing)
            }
            _ => Err(KIND),
        }
    }

    /// How many rows its text has.
    pub fn rows(&self) -> u64 {
        let payees: u64 = self.payees.values().map(|portions| portions.count + 1).sum();
        payees + self.rests.count + 2
    }

    /// What another text says is added behind it.
    pub fn join(&mut self, others: Statements) {
        for (payee, portions) in others.payees {
            self.payees.entry(payee).or_default().join(portions);
        }
        self.rests.join(others.rests);
        self.lines += others.lines;
        self.total += others.total;
    }

    /// The text of them all.
    pub fn write(&self, to: &mut impl Write) -> std::io::Result<()> {
        for (payee, portions) in &self.payees {
            to.write_all(&portions.rows)?;
            to.write_all(b"S,")?;
            to.write_all(&quoted(payee))?;
            writeln!(to, ",{},{}", portions.count, portions.sum)?;
        }
        to.write_all(&self.rests.rows)?;
        writeln!(to, "T,,{},{}", self.rests.count, self.rests.sum)?;
        writeln!(to, "R,,{},{}", self.lines, self.total)
    }
}

/// Whether all is well, or else the number of the fault.
fn check(well: bool, fault: u8) -> Result<(), u8> {
    if well { Ok(()) } else { Err(fault) }
}

/// The amount of a portion.
fn portion(usage: &[u8], field: &[u8]) -> Result<i64, u8> {
    check(is_name(usage), THIRD)?;
    let amount = std::str::from_utf8(field).ok().and_then(|text| text.parse().ok());
    amount
        .filter(|n: &i64| field == n.to_string().as_bytes() && (1..=MOST_AMOUNT).contains(&n.unsigned_abs()))
        .ok_or(FOURTH)
}

/// Whether bytes are the name of a payee or of a use.
fn is_name(field: &[u8]) -> bool {
    (1..=64).contains(&field.len()) && field.iter().all(|byte| (32..127).contains(byte))
}

/// The four fields of a line, if it stands just as they are written.
fn fields(line: &[u8]) -> Option<[Vec<u8>; 4]> {
    let mut all = vec![Vec::new()];
    let mut quote = false;
    let text = line.strip_suffix(b"\n").filter(|text| text.len() < 32_768)?;
    for (place, &byte) in text.iter().enumerate() {
        match byte {
            // the second of two quotes stands for one
            b'"' if quote || all.last()?.is_empty() || text[place - 1] == b'"' => {
                if !quote && place > 0 && text[place - 1] == b'"' {
                    all.last_mut()?.push(b'"');
                }
                quote = !quote;
            }
            b',' if !quote => all.push(Vec::new()),
            _ => all.last_mut()?.push(byte),
        }
    }
    let written: Vec<_> = all.iter().map(|field| quoted(field)).collect();
    if written.join(&b","[..]) != text {
        return None;
    }
    all.try_into().ok()
}
