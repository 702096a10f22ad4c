//! The CWR files of several submitters, and the registrations in force that a table of works links.

use crate::cwr::{Compiler, Filing, Places, Raw, Registry, UNKNOWN, ranked, text_of};
use crate::payees::Payees;
use crate::rows::Fault;
use crate::tis::Tis;
use crate::works::Works;
use crate::{ACCOUNTS, LARGEST_FILE, fail, load, refused};
use std::collections::HashMap;
use std::ops::Range;
use std::process::ExitCode;

/// How many files there are at most.
const MOST_FILES: usize = 256;

/// The longest name of a submitter.
const LONGEST: usize = 16;

/// How many rows a table of works has at most, and one of payees by submitter.
pub const MOST_ROWS: u64 = 1_048_576;

/// How many payees the parties of a work have at most.
const MOST_PAYEES: usize = 256;

/// A CWR file under the name that the command line gives to it.
pub struct Submitter {
    pub name: String,
    pub path: String,
}

impl Submitter {
    /// Of a value NAME=F.
    fn of(value: &str) -> Option<Submitter> {
        let (name, path) = value.split_once('=')?;
        let is_part = |b: u8| b.is_ascii_alphanumeric() || b == b'_' || b == b'-';
        let is_name = (1..=LONGEST).contains(&name.len())
            && name.bytes().all(is_part)
            && !name.starts_with('-');
        (is_name && !path.is_empty()).then(|| Submitter {
            name: name.into(),
            path: path.into(),
        })
    }

    /// The file with what it registers, or why there is no answer.
    pub fn read(&self) -> Result<(Vec<u8>, Filing), ExitCode> {
        let path = &self.path;
        let bytes = load(path, LARGEST_FILE)?;
        match Filing::read(&bytes) {
            Ok(filing) => Ok((bytes, filing)),
            Err(Fault(number, line)) => {
                let line = line.unwrap_or(0);
                let text = format!("cwr fault {number} at line {line} of {path}");
                Err(fail(1, text))
            }
        }
    }

    /// Who is paid what a party claims: one without a row of its own has the account NAME:PARTY.
    pub fn payee(&self, party: Vec<u8>, payees: &Payees) -> Vec<u8> {
        match payees.get(&party) {
            Some(payee) => payee.clone(),
            None => [self.name.as_bytes(), b":", &party].concat(),
        }
    }
}

/// All submitters, in the order of the command line.
pub struct Submitters {
    list: Vec<Submitter>,
    places: HashMap<Vec<u8>, usize>,
}

impl Submitters {
    /// Of the values of `--cwr`, if they are as they have to be.
    pub fn of(values: &[String]) -> Option<Submitters> {
        if !(1..=MOST_FILES).contains(&values.len()) {
            return None;
        }
        let list = values.iter().map(|value| Submitter::of(value));
        let list: Vec<Submitter> = list.collect::<Option<_>>()?;
        let names = list.iter().map(|submitter| submitter.name.clone().into());
        let places: HashMap<Vec<u8>, usize> = names.zip(0..).collect();
        (places.len() == list.len()).then_some(Submitters { list, places })
    }

    pub fn iter(&self) -> impl Iterator<Item = &Submitter> {
        self.list.iter()
    }

    /// The submitter in a place.
    pub fn at(&self, place: usize) -> &Submitter {
        &self.list[place]
    }

    /// Where the submitter of a name stands.
    pub fn place(&self, name: &[u8]) -> Option<usize> {
        self.places.get(name).copied()
    }
}

/// What the registrations have that are in force and linked.
pub struct Linked<'a> {
    works: &'a Works,
    /// The share lines of all files, with parties and interests of all of them.
    lines: Vec<Raw>,
    /// Of each row of the table of works, its lines; none where its registration is not in force.
    ranges: Vec<Option<Range<u32>>>,
    /// The payee of each party.
    payees: Vec<(Vec<u8>, u32)>,
    interests: u32,
}

/// The accounts of linked registrations.
pub struct Accounts {
    /// The payees in rising order, behind an empty one for the residue.
    pub payees: Vec<Vec<u8>>,
    /// Where the payee of each party stands among these.
    of: Vec<u32>,
    /// The rows of the table of works, those of a work one after the other.
    rows: Vec<u32>,
}

impl<'a> Linked<'a> {
    pub fn new(works: &'a Works) -> Linked<'a> {
        Linked {
            works,
            lines: Vec::new(),
            ranges: vec![None; works.rows.len()],
            payees: Vec::new(),
            interests: 0,
        }
    }

    /// Takes in what the file of the submitter in a place registers, so far as it is linked.
    pub fn add(&mut self, place: usize, submitter: &Submitter, filing: &Filing, payees: &Payees) {
        let numbers = &self.works.numbers[place];
        let mut parties = vec![UNKNOWN; filing.parties.len()];
        for (number, lines) in filing.in_force() {
            let Some(&row) = numbers.get(&number) else {
                continue;
            };
            let start = self.lines.len() as u32;
            let mut last = None;
            for line in lines {
                let party = &mut parties[line.party as usize];
                if *party == UNKNOWN {
                    *party = self.payees.len() as u32;
                    let name = text_of(filing.parties[line.party as usize]);
                    self.payees.push((submitter.payee(name, payees), *party));
                }
                // Interests of two registrations are never the same.
                if last != Some(line.interest) {
                    last = Some(line.interest);
                    self.interests += 1;
                }
                let (party, interest) = (*party, self.interests);
                self.lines.push(Raw {
                    party,
                    interest,
                    ..*line
                });
            }
            self.ranges[row as usize] = Some(start..self.lines.len() as u32);
        }
    }

    /// The first row of the table with which the parties of its work have more payees than they
    /// may. `payees` are the payees of the parties, by their numbers, of which there are `count`.
    fn first_of_many(&self, rows: &[u32], payees: &[u32], count: usize) -> Option<u32> {
        let works = &self.works.rows;
        let mut seen = vec![UNKNOWN; count];
        let mut first: Option<u32> = None;
        for rows in rows.chunk_by(|&a, &b| works[a as usize] == works[b as usize]) {
            let mut found = 0;
            let many = rows.iter().copied().find(|&row| {
                let range = self.ranges[row as usize].clone().unwrap_or_default();
                for line in &self.lines[range.start as usize..range.end as usize] {
                    let payee = payees[line.party as usize] as usize;
                    found += usize::from(seen[payee] != works[row as usize]);
                    seen[payee] = works[row as usize];
                }
                found > MOST_PAYEES
            });
            first = first.into_iter().chain(many).min();
        }
        first
    }

    /// How many parties the share lines have.
    pub fn parties(&self) -> usize {
        self.payees.len()
    }

    /// The share lines of a row's registration, where it is in force.
    pub fn lines_of(&self, row: usize) -> Option<&[Raw]> {
        let range = self.ranges[row].clone()?;
        Some(&self.lines[range.start as usize..range.end as usize])
    }

    /// The accounts, or the fault that there are too many. The payees of parties are gone then.
    pub fn accounts(&mut self) -> Result<Accounts, Fault> {
        let count = self.payees.len();
        let (payees, of) = ranked(std::mem::take(&mut self.payees), count);
        let rows = self.works.by_work();
        if let Some(row) = self.first_of_many(&rows, &of, payees.len()) {
            return Err(Fault(7, Some(u64::from(row) + 1)));
        }
        if payees.len() > ACCOUNTS {
            return Err(Fault(8, None));
        }
        Ok(Accounts { payees, of, rows })
    }

    /// The registry of the works that have a registration in force.
    pub fn registry(&self, accounts: Accounts, tis: &Tis) -> Registry {
        let mut compiler = Compiler::new(tis, &accounts.of, &self.lines);
        let (mut works, mut ranges) = (Places::default(), Vec::new());
        let names = self.works.names();
        let work = |row: u32| self.works.rows[row as usize];
        for rows in accounts.rows.chunk_by(|&a, &b| work(a) == work(b)) {
            let linked = || {
                rows.iter()
                    .filter_map(|&row| self.ranges[row as usize].clone())
            };
            if linked().next().is_some() {
                works.insert(names[work(rows[0]) as usize].to_vec(), ranges.len() as u32);
                ranges.push(compiler.work(linked()));
            }
        }
        let shares = compiler.shares;
        Registry {
            parties: accounts.payees,
            works,
            ranges,
            shares,
        }
    }
}

/// The registrations of all files, each of the works that its row of the table says. One file is
/// read and parsed after the other, and `keep` is given its text.
pub fn registry(
    submitters: &Submitters,
    tis: &Tis,
    payees: &[Payees],
    works: &Works,
    mut keep: impl FnMut(Vec<u8>),
) -> Result<Registry, ExitCode> {
    let mut linked = Linked::new(works);
    for (place, submitter) in submitters.iter().enumerate() {
        let (text, filing) = submitter.read()?;
        keep(text);
        linked.add(place, submitter, &filing, &payees[place]);
    }
    let accounts = linked.accounts();
    let accounts = accounts.map_err(|fault| refused("works", fault))?;
    Ok(linked.registry(accounts, tis))
}
