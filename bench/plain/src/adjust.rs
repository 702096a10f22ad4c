//! The difference between the statements that were paid and those that are right, as one would write it by hand: both
//! texts are held whole, and a map has what each payee, and each reason, has of each use.

use crate::merge::{MOST_AMOUNT, Portions, REASONS, Statements};
use crate::rows::{Fault, quoted};
use std::collections::BTreeMap;

/// The fault of the right text where it is of another number of usage lines than the paid one.
const LINES: u8 = 7;

/// Amounts by use.
type Uses = BTreeMap<Vec<u8>, i128>;

/// What is right less what was paid, by payee or by reason.
#[derive(Default)]
struct Differences(BTreeMap<Vec<u8>, Uses>);

impl Differences {
    fn add(&mut self, portions: &Portions, sign: i128) {
        for (whose, usage, amount) in portions.iter() {
            *self.0.entry(whose).or_default().entry(usage).or_default() += sign * i128::from(amount);
        }
    }
}

/// What has to be merged with the statements that were paid so that they come to those that are right. A text of
/// another number of usage lines is refused at its last row.
pub fn difference(paid: &Statements, right: &Statements) -> Result<Statements, Fault> {
    if paid.lines != right.lines {
        return Err(Fault(LINES, Some(right.rows())));
    }
    let (mut of_payees, mut of_reasons) = (Differences::default(), Differences::default());
    for (sign, text) in [(-1, paid), (1, right)] {
        text.payees.values().for_each(|portions| of_payees.add(portions, sign));
        of_reasons.add(&text.rests, sign);
    }
    let mut all = Statements { total: right.total - paid.total, ..Statements::default() };
    for (payee, uses) in of_payees.0 {
        let mut portions = Portions::default();
        add_rows(&mut portions, b"L", &payee, &uses);
        if portions.count > 0 {
            all.payees.insert(payee, portions);
        }
    }
    for reason in REASONS {
        if let Some(uses) = of_reasons.0.get(reason) {
            add_rows(&mut all.rests, b"M", reason, uses);
        }
    }
    Ok(all)
}

/// The rows of each use: full ones, and one of what is left.
fn add_rows(portions: &mut Portions, kind: &[u8], whose: &[u8], uses: &Uses) {
    let most = i128::from(MOST_AMOUNT);
    for (usage, &difference) in uses {
        let mut left = difference;
        while left != 0 {
            let amount = left.clamp(-most, most);
            let mut row = [kind, &quoted(whose), &quoted(usage), amount.to_string().as_bytes()].join(&b","[..]);
            row.push(b'\n');
            portions.add(&row, amount as i64);
            left -= amount;
        }
    }
}
