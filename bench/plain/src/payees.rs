//! The table of payees: who is paid what a party claims.

use crate::cwr::name;
use crate::rows::{Fault, Field, MOST, Rows};
use crate::submitters::{MOST_ROWS, Submitters};
use std::collections::HashMap;

/// The payee of each party that has a row.
pub type Payees = HashMap<Vec<u8>, Vec<u8>>;

/// The longest name.
pub const LONGEST: usize = 64;

pub fn read(bytes: &mut [u8]) -> Result<Payees, Fault> {
    let mut rows = Rows::new(bytes);
    if !rows.header(&["party", "payee"]) {
        return Err(Fault(1, Some(0)));
    }
    let mut payees = Payees::new();
    let mut f = [Field::default(); MOST];
    while let Some(count) = rows.next(&mut f) {
        let row = payees.len() as u64 + 1;
        let at = |n| Fault(n, Some(row));
        if row > 65_536 {
            return Err(Fault(4, None));
        }
        if count != 2 {
            return Err(at(1));
        }
        let field = |f| name(rows.get(f)).filter(|t| t.len() <= LONGEST);
        let (party, payee) = (field(f[0]).ok_or(at(2))?, field(f[1]).ok_or(at(2))?);
        if payees.contains_key(party) {
            return Err(at(3));
        }
        payees.insert(party.to_vec(), payee.to_vec());
    }
    Ok(payees)
}

/// The payees of the parties of each submitter.
pub fn read_of(bytes: &mut [u8], submitters: &Submitters) -> Result<Vec<Payees>, Fault> {
    let mut rows = Rows::new(bytes);
    if !rows.header(&["submitter", "party", "payee", "name"]) {
        return Err(Fault(1, Some(0)));
    }
    let mut payees: Vec<Payees> = submitters.iter().map(|_| Payees::new()).collect();
    let mut f = [Field::default(); MOST];
    let mut row = 0;
    while let Some(count) = rows.next(&mut f) {
        row += 1;
        let at = |n| Fault(n, Some(row));
        if row > MOST_ROWS {
            return Err(Fault(4, None));
        }
        if count != 4 {
            return Err(at(1));
        }
        let field = |f| name(rows.get(f)).filter(|t| t.len() <= LONGEST);
        let (party, payee) = (field(f[1]).ok_or(at(2))?, field(f[2]).ok_or(at(2))?);
        let submitter = submitters.place(rows.get(f[0])).ok_or(at(5))?;
        let before = payees[submitter].insert(party.to_vec(), payee.to_vec());
        if before.is_some() {
            return Err(at(3));
        }
    }
    Ok(payees)
}
