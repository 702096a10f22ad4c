//! `explain`, as one would write it by hand and slowly: from the lines of the files, each looked at by itself.

use crate::cwr::{Registry, name};
use crate::payees::Payees;
use crate::rows::{Field, MOST, Rows, code};
use crate::submitters::Submitters;
use crate::usage::{Line, TEXT, Usage};
use crate::works::Works;
use std::collections::{BTreeMap, HashMap, HashSet};

/// A share line of the registration in force.
struct Share {
    line: usize,
    interest: usize,
    party: Vec<u8>,
    payee: Vec<u8>,
    share: u64,
    includes: bool,
    code: u16,
}

/// Which territory contains which, by the groups of each row.
pub struct Groups(HashMap<u16, Vec<u16>>);

impl Groups {
    /// Of a table that has no fault.
    pub fn read(bytes: &mut [u8]) -> Groups {
        let mut rows = Rows::new(bytes);
        let mut f = [Field::default(); MOST];
        rows.next(&mut f);
        let mut groups = HashMap::new();
        while rows.next(&mut f).is_some() {
            let words = rows.get(f[1]).split(|&b| b == b' ').filter_map(code).collect();
            groups.insert(code(rows.get(f[0])).unwrap(), words);
        }
        Groups(groups)
    }

    fn contains(&self, group: u16, land: u16) -> bool {
        self.0.contains_key(&group)
            && self.0.get(&land).is_some_and(|above| {
                group == land || above.iter().any(|&between| self.contains(group, between))
            })
    }
}

fn digits(t: &[u8]) -> u64 {
    t.iter().fold(0, |n, b| if b.is_ascii_digit() { n * 10 + (b - b'0') as u64 } else { n })
}

/// A registration in force: the number of its first line, and its share lines.
struct Filed {
    line: usize,
    shares: Vec<Share>,
}

/// The last registration of each number that is asked for, with the shares for a right.
fn in_force(
    cwr: &[u8],
    right: usize,
    is_asked: impl Fn(&[u8]) -> bool,
    payee: impl Fn(&[u8]) -> Vec<u8>,
) -> HashMap<&[u8], Filed> {
    let (mut found, mut open, mut interest) = (HashMap::new(), None, 0);
    for (n, line) in cwr.split(|&b| b == b'\n').enumerate() {
        let line = line.strip_suffix(b"\r").unwrap_or(line);
        match (line.get(..3), open) {
            (Some(b"NWR" | b"REV"), _) => {
                open = name(&line[81..line.len().min(95)]).filter(|number| is_asked(number));
                interest = 0;
                if let Some(number) = open {
                    found.insert(number, Filed { line: n + 1, shares: Vec::new() });
                }
            }
            (Some(b"HDR" | b"GRH" | b"GRT" | b"TRL" | b"AGR" | b"ACK" | b"ISW" | b"EXC"), _) => open = None,
            (Some(b"SPU" | b"SWR"), _) => interest += 1,
            (Some(kind @ (b"SPT" | b"SWT")), Some(number)) => {
                let f = &line[if kind == b"SPT" { 34 } else { 28 }..];
                let party = name(&line[19..28]).unwrap();
                found.get_mut(number).unwrap().shares.push(Share {
                    line: n + 1,
                    interest,
                    party: party.to_vec(),
                    payee: payee(party),
                    share: digits(&f[5 * right..5 * right + 5]),
                    includes: f[15] != b'E',
                    code: digits(&f[16..20]) as u16,
                });
            }
            _ => {}
        }
    }
    found
}

fn row(out: &mut Vec<u8>, fields: &[Vec<u8>]) {
    for (n, f) in fields.iter().enumerate() {
        if n > 0 {
            out.push(b',');
        }
        if f.contains(&b',') || f.contains(&b'"') {
            out.push(b'"');
            for &b in f {
                if b == b'"' {
                    out.push(b'"');
                }
                out.push(b);
            }
            out.push(b'"');
        } else {
            out.extend_from_slice(f);
        }
    }
    out.push(b'\n');
}

macro_rules! fields {
    ($($f:expr),*) => { &[$(Text::text(&$f)),*] };
}

trait Text {
    fn text(&self) -> Vec<u8>;
}

macro_rules! shown {
    ($($t:ty)*) => { $(impl Text for $t { fn text(&self) -> Vec<u8> { self.to_string().into_bytes() } })* };
}

shown!(usize u16 u64 i64 &str);

impl Text for Vec<u8> {
    fn text(&self) -> Vec<u8> {
        self.clone()
    }
}

impl Text for bool {
    fn text(&self) -> Vec<u8> {
        (if *self { "yes" } else { "no" }).into()
    }
}

/// A usage line that is explained.
struct Explained<'a> {
    line: &'a Line,
    work: &'a [u8],
    groups: &'a Groups,
    registry: &'a Registry,
    /// What the accounts of the share lines that decide claim.
    claims: BTreeMap<Vec<u8>, u64>,
}

impl Explained<'_> {
    fn right(&self) -> usize {
        self.line.right as usize
    }

    /// The row of the usage line.
    fn usage(&self, out: &mut Vec<u8>, usage: &Usage, number: usize) {
        let (line, work) = (self.line, self.work.to_vec());
        let called = usage.padded(line)[..usage.usage_len(line).min(TEXT)].to_vec();
        let right = ["P", "M", "S"][self.right()];
        row(out, fields!["U", number, called, work, line.territory, right, line.amount]);
    }

    /// The rows of the share lines of a registration, each behind these fields; and adds up the claims.
    fn shares(&mut self, out: &mut Vec<u8>, first: &[Vec<u8>], shares: &[Share]) {
        let land = self.line.territory;
        let covers: Vec<bool> = shares.iter().map(|s| self.groups.contains(s.code, land)).collect();
        for (n, s) in shares.iter().enumerate() {
            let alike = |m: usize| shares[m].interest == s.interest && shares[m].party == s.party;
            let decides = covers[n] && !(n + 1..shares.len()).any(|m| alike(m) && covers[m]);
            if decides && s.includes && s.share > 0 {
                *self.claims.entry(s.payee.clone()).or_default() += s.share;
            }
            let mark = if s.includes { "I" } else { "E" };
            let fields = fields![s.line, s.interest, s.party, s.payee, s.share, mark, s.code, covers[n], decides];
            row(out, &[first, fields].concat());
        }
    }

    /// Why no claim counts, or nothing.
    fn reason(&self, is_registered: bool) -> &'static str {
        let land = self.line.territory;
        match is_registered {
            false => "WORK",
            true if !self.groups.contains(land, land) => "LAND",
            true if self.claims.values().sum::<u64>() > 10_006 => "OVER",
            true => "",
        }
    }

    /// The rows of the accounts that claim and of the participants. `counts` says whether claims do.
    fn division(&self, out: &mut Vec<u8>, counts: bool) {
        let account = |payee| self.registry.parties[1..].iter().position(|p| p == payee).unwrap() + 1;
        let mut participants: Vec<(usize, Vec<u8>, u64)> = Vec::new();
        for (payee, &claim) in &self.claims {
            let account = account(payee);
            row(out, fields!["A", account, payee.clone(), claim]);
            if counts {
                participants.push((account, payee.clone(), claim));
            }
        }
        let counted: u64 = participants.iter().map(|p| p.2).sum();
        let base = counted.max(10_000);
        participants.push((0, Vec::new(), base - counted));
        let size = self.line.amount.unsigned_abs();
        let quota = |p: &(usize, Vec<u8>, u64)| size * p.2 / base;
        let rest = |p: &(usize, Vec<u8>, u64)| size * p.2 % base;
        let left = size - participants.iter().map(quota).sum::<u64>();
        row(out, fields!["B", base, base - counted, left]);
        let mut ranked: Vec<usize> = (0..participants.len()).collect();
        ranked.sort_by_key(|&n| std::cmp::Reverse(rest(&participants[n])));
        for (n, p) in participants.iter().enumerate() {
            let rank = ranked.iter().position(|&m| m == n).unwrap();
            let portion = (quota(p) + u64::from((rank as u64) < left)) as i64 * self.line.amount.signum();
            row(out, fields!["P", p.0, p.1, p.2, quota(p), rest(p), rank + 1, portion]);
        }
    }
}

/// The line in a row, from 1, before its claims are added up; none where there is no such row.
fn explained<'a>(
    groups: &'a Groups,
    registry: &'a Registry,
    usage: &'a Usage,
    number: usize,
) -> Option<Explained<'a>> {
    let line = usage.lines.get(number.checked_sub(1)?)?;
    let work = usage.work(line);
    Some(Explained { line, work, groups, registry, claims: BTreeMap::new() })
}

/// The explanation of the line in a row, from 1; none where there is no such row.
pub fn explain(
    groups: &Groups,
    payees: &Payees,
    cwr: &[u8],
    registry: &Registry,
    usage: &Usage,
    number: usize,
) -> Option<Vec<u8>> {
    let mut it = explained(groups, registry, usage, number)?;
    let mut out = Vec::new();
    it.usage(&mut out, usage, number);
    let payee = |party: &[u8]| payees.get(party).map_or(party, |payee| payee).to_vec();
    let found = in_force(cwr, it.right(), |number| number == it.work, payee).remove(it.work);
    let (first, shares) = found.map_or_else(Default::default, |filed| (filed.line.text(), filed.shares));
    let mut lines = Vec::new();
    it.shares(&mut lines, fields!["C"], &shares);
    let reason = it.reason(!first.is_empty());
    row(&mut out, fields!["N", first, reason]);
    out.append(&mut lines);
    it.division(&mut out, reason.is_empty());
    Some(out)
}

/// The same over the files of several submitters. `payees` and `texts` are those of each of them.
pub fn explain_submitted(
    groups: &Groups,
    (submitters, payees, texts): (&Submitters, &[Payees], &[Vec<u8>]),
    works: &Works,
    registry: &Registry,
    usage: &Usage,
    number: usize,
) -> Option<Vec<u8>> {
    let mut it = explained(groups, registry, usage, number)?;
    let mut out = Vec::new();
    it.usage(&mut out, usage, number);

    let all = works.registrations();
    let rows: Vec<_> = works.rows_of(it.work).into_iter().map(|row| &all[row]).collect();
    let mut asked: BTreeMap<usize, HashSet<&[u8]>> = BTreeMap::new();
    for (place, number) in &rows {
        asked.entry(*place).or_default().insert(number);
    }
    let right = it.right();
    let filed: HashMap<usize, HashMap<&[u8], Filed>> = asked
        .iter()
        .map(|(&place, numbers)| {
            let payee = |party: &[u8]| submitters.at(place).payee(party.to_vec(), &payees[place]);
            (place, in_force(&texts[place], right, |number| numbers.contains(number), payee))
        })
        .collect();

    let (mut lines, mut is_registered) = (Vec::new(), false);
    for (place, number) in rows {
        let name = submitters.at(*place).name.clone().into_bytes();
        let found = filed[place].get(&number[..]);
        let first = found.map_or(Vec::new(), |filed| filed.line.text());
        row(&mut lines, fields!["W", name, *number, first]);
        if let Some(filed) = found {
            is_registered = true;
            it.shares(&mut lines, fields!["C", name], &filed.shares);
        }
    }
    let reason = it.reason(is_registered);
    row(&mut out, fields!["R", reason]);
    out.append(&mut lines);
    it.division(&mut out, reason.is_empty());
    Some(out)
}
