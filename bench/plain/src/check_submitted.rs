//! `check` over the files of several submitters: the same of each file, what their links come to,
//! and what each submitter claims of the works that are claimed over 100.06 per cent.

use crate::check::{
    Divided, Found, OVERCLAIMED, Sheet, listed, overclaimed_line, party_and_payee, ranking,
    registrations, remark_on, shown, summary, table, territories, told, unknown_territories, usage,
};
use crate::cwr::{Filing, Raw, SHORT, name};
use crate::payees::{self, Payees};
use crate::rows::Fault;
use crate::split::{Input, OVER};
use crate::submitters::{Accounts, Linked, MOST_ROWS, Submitter, Submitters};
use crate::tis::{NONE, Tis};
use crate::usage::{Line, Usage};
use crate::works::{Works, is_work};
use crate::{LARGEST_FILE, LARGEST_LIST, Several, Tables, form, load};
use std::collections::{BTreeMap, HashSet};
use std::process::ExitCode;

/// The parties of the rows of a table of payees, each with the place of its submitter.
type Parties = Vec<(usize, Vec<u8>)>;

/// How many rows a table has at most.
const MOST: usize = MOST_ROWS as usize;

/// What is wrong where a table has more rows than it may.
fn many_rows(number: u8) -> (u8, String) {
    (number, format!("there are more than {MOST_ROWS} rows"))
}

/// The place of the submitter of a row.
fn submitter_of(submitters: &Submitters, field: &[u8], fault: u8) -> Result<usize, (u8, String)> {
    let text = || format!("submitter {} is the name of no file", shown(field));
    submitters.place(field).ok_or_else(|| (fault, text()))
}

/// The parties of the sound rows of a table of payees.
fn payees_of(sheet: &mut Sheet, submitters: &Submitters, bytes: &[u8]) -> Parties {
    let header = ["submitter", "party", "payee", "name"];
    let (mut parties, mut seen) = (Vec::new(), HashSet::new());
    let count = table(sheet, bytes, &header, MOST, many_rows(4), |row| {
        let (party, _) = party_and_payee(row[1], row[2])?;
        let submitter = submitter_of(submitters, row[0], 5)?;
        if !seen.insert((submitter, party.to_vec())) {
            let (party, submitter) = (shown(row[1]), shown(row[0]));
            let text = format!("party {party} of submitter {submitter} has an earlier row");
            return Err((3, text));
        }
        parties.push((submitter, party.to_vec()));
        Ok(())
    });
    sheet.fact("parties with a payee", count);
    parties
}

/// Looks through a table of works.
fn works_of(sheet: &mut Sheet, submitters: &Submitters, bytes: &[u8]) {
    let header = ["work", "submitter", "number", "title"];
    let mut seen = HashSet::new();
    let count = table(sheet, bytes, &header, MOST, many_rows(6), |row| {
        if !is_work(row[0]) {
            let (work, text) = (shown(row[0]), "is not 1 to 64 printable ASCII characters");
            return Err((2, format!("work {work} {text}")));
        }
        let submitter = submitter_of(submitters, row[1], 3)?;
        let shown_number = shown(row[2]);
        let Some(number) = name(row[2]).filter(|number| number.len() <= SHORT) else {
            let text = "is not 1 to 14 printable ASCII characters, spaces at its ends not counted";
            return Err((4, format!("number {shown_number} {text}")));
        };
        if !seen.insert((submitter, number.to_vec())) {
            let submitter = shown(row[1]);
            let text = format!("number {shown_number} of submitter {submitter} has an earlier row");
            return Err((5, text));
        }
        Ok(())
    });
    sheet.fact("registrations linked", count);
}

/// What the links come to, as far as the files were read.
struct Links<'a> {
    linked: Linked<'a>,
    payees: &'a [Payees],
    /// The submitter and the number of each row of the table of works.
    rows: Vec<(usize, Vec<u8>)>,
    /// The parties of linked registrations, each with the place of its submitter.
    parties: HashSet<(usize, Vec<u8>)>,
    /// Of each file, the numbers of the registrations in force that no row links.
    unlinked: Vec<Vec<Vec<u8>>>,
}

impl<'a> Links<'a> {
    fn new(works: &'a Works, payees: &'a [Payees]) -> Links<'a> {
        Links {
            linked: Linked::new(works),
            payees,
            rows: works.registrations(),
            parties: HashSet::new(),
            unlinked: Vec::new(),
        }
    }

    /// Takes in a file that has no fault.
    fn add(&mut self, place: usize, submitter: &Submitter, bytes: &[u8], found: &Found) {
        let filing = Filing::read(bytes).unwrap();
        self.linked
            .add(place, submitter, &filing, &self.payees[place]);
        let rows = self.rows.iter().filter(|(of, _)| *of == place);
        let numbers: HashSet<&[u8]> = rows.map(|(_, number)| &number[..]).collect();
        let mut unlinked = Vec::new();
        for number in found.numbers() {
            if numbers.contains(number) {
                let parties = found.in_force()[number].parties.iter();
                self.parties
                    .extend(parties.map(|party| (place, party.to_vec())));
            } else {
                unlinked.push(number.to_vec());
            }
        }
        self.unlinked.push(unlinked);
    }

    /// What is told of all files together, and the accounts, if there are not too many.
    fn tell(&mut self, sheet: &mut Sheet, works: &Works) -> Option<Accounts> {
        let (parties, names) = (self.linked.parties(), works.names());
        match self.linked.accounts() {
            Ok(accounts) => {
                let rows = 0..works.rows.len();
                let in_force = rows.filter(|&row| self.linked.lines_of(row).is_some());
                let linked: HashSet<u32> = in_force.map(|row| works.rows[row]).collect();
                sheet.fact("works with a registration in force", linked.len());
                sheet.fact("parties in force", parties);
                sheet.fact("accounts, the residue's included", accounts.payees.len());
                Some(accounts)
            }
            Err(Fault(7, Some(row))) => {
                let row = row as usize;
                let work = shown(names[works.rows[row - 1] as usize]);
                let parties = format!("the parties of work {work} have more than 256 payees");
                sheet.fault(Some(row), (7, format!("with this row {parties}")));
                None
            }
            Err(Fault(number, _)) => {
                let parties = "the parties of all registrations that are linked";
                sheet.fault(
                    None,
                    (number, format!("{parties} have more than 16383 payees")),
                );
                None
            }
        }
    }

    /// The remark on rows of the table of works that have no part in a run.
    fn not_in_force(&self, path: &str) -> String {
        let rows = 0..self.rows.len();
        let numbers = rows.filter(|&row| self.linked.lines_of(row).is_none());
        let what = "rows whose registration is not in force";
        remark_on(path, what, "row", numbers.map(|row| row + 1))
    }

    /// The remarks on registrations of each file that have no part in a run.
    fn not_linked(&self, submitters: &Submitters) -> String {
        let files = submitters.iter().zip(&self.unlinked);
        let some = files.filter(|(_, numbers)| !numbers.is_empty());
        let text = some.map(|(submitter, numbers)| {
            let named: Vec<String> = numbers.iter().map(|it| shown(it)).collect();
            let what = "remark: registrations in force that no row links";
            let (path, named) = (&submitter.path, listed(&named));
            format!("{path}: {what}: {}, {named}\n", numbers.len())
        });
        text.collect()
    }

    /// What each submitter that has a registration of a work in force claims on a usage line.
    fn claims(&self, works: &Works, work: &[u8], line: &Line, tis: &Tis) -> BTreeMap<usize, u64> {
        let mut claims = BTreeMap::new();
        for row in works.rows_of(work) {
            if let Some(lines) = self.linked.lines_of(row) {
                let claim = claim_of(lines, line, tis);
                *claims.entry(self.rows[row].0).or_default() += claim;
            }
        }
        claims
    }
}

/// What the share lines of a registration claim on a usage line: those that decide, which are the
/// last of their interest and party whose territory contains the land.
fn claim_of(lines: &[Raw], line: &Line, tis: &Tis) -> u64 {
    let above = tis.above(tis.row(line.territory));
    let covers = |share: &Raw| match tis.row(share.code) {
        NONE => false,
        row => above[row as usize / 64] >> (row % 64) & 1 == 1,
    };
    let decides = |(n, share): &(usize, &Raw)| {
        let of = (share.interest, share.party);
        let later = &lines[n + 1..];
        covers(share)
            && !later
                .iter()
                .any(|it| (it.interest, it.party) == of && covers(it))
    };
    let deciding = lines.iter().enumerate().filter(decides);
    deciding
        .map(|(_, share)| u64::from(share.share[line.right as usize]))
        .sum()
}

/// The works that are claimed over 100.06 per cent, and what each submitter claims on the first
/// line of each.
fn overclaimed(
    path: &str,
    usage: &Usage,
    run: &Divided,
    submitters: &Submitters,
    claims: impl Fn(&[u8], &Line) -> BTreeMap<usize, u64>,
) -> String {
    let mut first: BTreeMap<&[u8], usize> = BTreeMap::new();
    for (place, line, _) in run.lines_of(usage, OVER) {
        first.entry(usage.work(line)).or_insert(place);
    }
    ranking(path, OVERCLAIMED, run.works_of(usage, OVER), |work, tally| {
        let place = first[work];
        let claims = claims(work, &usage.lines[place]).into_iter();
        let claims = claims.map(|(submitter, claim)| {
            let name = &submitters.at(submitter).name;
            format!("{name} claims {claim} of 10000")
        });
        let (row, claims) = (place + 1, claims.collect::<Vec<_>>().join(", "));
        let line = overclaimed_line(work, tally);
        format!("{line}; in row {row}: {claims}")
    })
}

/// A report, as far as it goes.
struct Report<'a> {
    files: &'a Several,
    tables: &'a Tables,
    /// Of the territories, the payees, the works, each file, what the links come to, and the usage
    /// list.
    sheets: Vec<Sheet<'a>>,
    remarks: String,
}

impl<'a> Report<'a> {
    /// Looks through the tables, and answers the territories, and the parties with a payee.
    fn tables(&mut self) -> (HashSet<u16>, Parties) {
        let (files, tables) = (self.files, self.tables);
        let mut sheet = Sheet::new(&files.tis, "row");
        let known = territories(&mut sheet, &tables.tis);
        self.sheets.push(sheet);
        let mut parties = Vec::new();
        if let Some((path, bytes)) = files.payees.as_ref().zip(tables.payees.as_ref()) {
            let mut sheet = Sheet::new(path, "row");
            parties = payees_of(&mut sheet, &files.submitters, bytes);
            self.sheets.push(sheet);
        }
        let mut sheet = Sheet::new(&files.works, "row");
        works_of(&mut sheet, &files.submitters, &tables.works);
        self.sheets.push(sheet);
        (known, parties)
    }

    /// The works and the payees of tables that have no fault.
    fn linked(&self) -> Option<(Works, Vec<Payees>)> {
        let (submitters, tables) = (&self.files.submitters, self.tables);
        let is_sound = self.sheets[1..].iter().all(Sheet::is_sound);
        is_sound.then(|| {
            let works = Works::read(&mut tables.works.clone(), submitters).unwrap();
            let payees = match &tables.payees {
                Some(bytes) => payees::read_of(&mut bytes.clone(), submitters).unwrap(),
                None => submitters.iter().map(|_| Payees::new()).collect(),
            };
            (works, payees)
        })
    }

    /// Looks through the files, one after the other. Of the links nothing is answered where one of
    /// the files has a fault.
    fn files<'b>(
        &mut self,
        known: &HashSet<u16>,
        mut links: Option<Links<'b>>,
    ) -> Result<Option<Links<'b>>, ExitCode> {
        for (place, submitter) in self.files.submitters.iter().enumerate() {
            let bytes = load(&submitter.path, LARGEST_FILE)?;
            let mut sheet = Sheet::new(&submitter.path, "line");
            let found = registrations(&mut sheet, &bytes);
            sheet.fact("registrations in force", found.in_force().len());
            sheet.fact("registrations replaced by later ones", found.replaced());
            found.remark(&mut sheet);
            form::tell(&mut sheet, &bytes);
            if !sheet.is_sound() {
                links = None;
            } else if self.sheets[0].is_sound() {
                self.remarks += &unknown_territories(&submitter.path, found.unknown(known));
            }
            if let Some(links) = &mut links {
                links.add(place, submitter, &bytes, &found);
            }
            self.sheets.push(sheet);
        }
        Ok(links)
    }

    /// Tells what the links come to, and answers the accounts, if there are not too many.
    fn links(&mut self, links: &mut Links, works: &Works, paid: &Parties) -> Option<Accounts> {
        let mut sheet = Sheet::new(&self.files.works, "row");
        let accounts = links.tell(&mut sheet, works);
        self.sheets.push(sheet);
        if let (Some(path), true) = (&self.files.payees, accounts.is_some()) {
            let rows = paid.iter().enumerate();
            let unused = rows.filter(|(_, party)| !links.parties.contains(party));
            let what = "rows whose party no registration that is linked has";
            self.remarks += &remark_on(path, what, "row", unused.map(|(n, _)| n + 1));
        }
        self.remarks += &links.not_in_force(&self.files.works);
        self.remarks += &links.not_linked(&self.files.submitters);
        accounts
    }

    /// Looks through the usage list.
    fn usage(&mut self) {
        let mut sheet = Sheet::new(&self.files.usage, "row");
        usage(&mut sheet, &self.tables.usage);
        self.sheets.push(sheet);
    }

    /// What a run makes of the usage lines, where no file has a fault.
    fn run(&self, links: &Links, works: &Works, accounts: Accounts) -> String {
        let (files, tables) = (self.files, self.tables);
        let tis = Tis::read(&mut tables.tis.clone()).unwrap();
        let registry = links.linked.registry(accounts, &tis);
        let usage = Usage::read(tables.usage.clone(), LARGEST_LIST.lines).unwrap();
        let input = Input {
            tis: &tis,
            registry: &registry,
            usage: &usage,
        };
        let run = Divided::of(&input);
        let claims = |work: &[u8], line: &Line| links.claims(works, work, line, &tis);
        summary([&files.tis, &files.works, &files.usage], &input, &run)
            + &overclaimed(&files.usage, &usage, &run, &files.submitters, claims)
    }
}

/// The report, and whether no file has a fault; or why there is none.
pub fn check(files: &Several, tables: &Tables) -> Result<(String, bool), ExitCode> {
    let (sheets, remarks) = (Vec::new(), String::new());
    let mut report = Report {
        files,
        tables,
        sheets,
        remarks,
    };
    let (known, paid) = report.tables();
    let linked = report.linked();
    let links = linked.as_ref();
    let links = links.map(|(works, payees)| Links::new(works, payees));
    let links = report.files(&known, links)?;
    let mut linked = linked.as_ref().map(|(works, _)| works).zip(links);
    let accounts = match &mut linked {
        Some((works, links)) => report.links(links, works, &paid),
        None => None,
    };
    report.usage();

    let (mut text, sound) = told(&report.sheets);
    text += &report.remarks;
    if let (true, Some(accounts), Some((works, links))) = (sound, accounts, &linked) {
        text += &report.run(links, works, accounts);
    }
    Ok((text, sound))
}
