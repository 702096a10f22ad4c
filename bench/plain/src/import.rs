//! `import`: the rows of a sales report made into usage lines, as one would write it by hand. The
//! report and its tables are read whole, and each row is looked at by itself.

use crate::arguments::Options;
use crate::rows::{Fault, Field, MOST, Rows, code, quoted};
use crate::{LARGEST_FILE, fail, load};
use std::collections::HashMap;
use std::fs::File;
use std::io::{Read, Write};
use std::os::unix::fs::MetadataExt;
use std::path::{Path, PathBuf};
use std::process::ExitCode;

/// How many rows a table of values has at most.
const MOST_ROWS: u64 = 4_194_304;

/// The last field that a word `#n` may name.
const LAST_FIELD: usize = 65_536;

/// The longest text of an amount.
const LONGEST_AMOUNT: usize = 38;

const MOST_AMOUNT: i128 = 1_000_000_000_000;

/// Why a row is rejected, by its place in the summary.
const REASONS: [&str; 13] = [
    "a field of it has a line break",
    "it does not have the fields that it should have",
    "what its use is called is not 1 to 64 printable bytes",
    "its work has no row in the table of works",
    "its work is not 1 to 64 printable bytes",
    "its territory has no row in the table of territories",
    "its territory is no TIS numeric code",
    "its right has no row in the table of rights",
    "its right is not P or M or S",
    "its amount has more than 38 bytes",
    "its amount is no decimal number",
    "its amount has more decimal places than are kept",
    "its amount is more than 1000000000000 units",
];

/// Places in `REASONS`. Behind that of a table's missing row stands that of a wrong value.
const BREAK: usize = 0;
const FIELDS: usize = 1;
const USE: usize = 2;
const WORK: usize = 3;
const TERRITORY: usize = 5;
const RIGHT: usize = 7;
const LONG: usize = 9;
const NO_NUMBER: usize = 10;
const PLACES: usize = 11;
const LARGE: usize = 12;

/// What the words of an import say.
struct Words {
    export: String,
    usage: Vec<String>,
    work: String,
    territory: String,
    right: String,
    amount: String,
    /// Columns with the texts that they have to have.
    conditions: Vec<(String, String)>,
    /// The paths of the tables of works, territories and rights.
    tables: [Option<String>; 3],
    output: String,
    rejects: String,
    form: Form,
    delimiter: u8,
    has_header: bool,
}

impl Words {
    fn read() -> Option<Words> {
        let names = [
            "usage",
            "work",
            "territory",
            "right",
            "amount",
            "where",
            "works",
            "territories",
            "rights",
            "output",
            "rejects",
            "decimals",
            "delimiter",
        ];
        let flags = ["no-header", "decimal-comma"];
        let (options, mut paths) = Options::and_paths(std::env::args().skip(2), &names, &flags)?;
        let export = paths.pop().filter(|_| paths.is_empty())?;
        let usage = options.all("usage");
        let is_flag = |name| options.at_most_one(name).map(|flag| flag.is_some());
        let decimals = options.at_most_one("decimals")?.unwrap_or("2".into());
        let (mark, parting) = if is_flag("decimal-comma")? {
            (b',', b'.')
        } else {
            (b'.', b',')
        };
        let delimiter = match options.at_most_one("delimiter")?.as_deref() {
            None | Some("comma") => b',',
            Some("semicolon") => b';',
            Some("tab") => b'\t',
            Some("pipe") => b'|',
            _ => return None,
        };
        Some(Words {
            export,
            usage: Some(usage).filter(|usage| !usage.is_empty())?,
            work: options.one("work")?,
            territory: options.one("territory")?,
            right: options.one("right")?,
            amount: options.one("amount")?,
            conditions: options
                .all("where")
                .iter()
                .map(|value| condition(value))
                .collect::<Option<_>>()?,
            tables: [
                options.at_most_one("works")?,
                options.at_most_one("territories")?,
                options.at_most_one("rights")?,
            ],
            output: options.one("output")?,
            rejects: options.one("rejects")?,
            form: Form {
                decimals: match decimals.as_bytes() {
                    [digit @ b'0'..=b'9'] => usize::from(digit - b'0'),
                    _ => return None,
                },
                mark,
                parting,
            },
            delimiter,
            has_header: !is_flag("no-header")?,
        })
    }

    /// Refuses outputs that are an input, or one file.
    fn look_at_paths(&self) -> Result<(), ExitCode> {
        for output in [&self.output, &self.rejects] {
            let mut inputs = [&self.export]
                .into_iter()
                .chain(self.tables.iter().flatten());
            if inputs.any(|input| are_one(input, output)) {
                return Err(fail(
                    2,
                    format!("{output} is an input, which the output would replace"),
                ));
            }
        }
        let (output, rejects) = (&self.output, &self.rejects);
        if are_one(output, rejects) || place(output).is_some_and(|it| place(rejects) == Some(it)) {
            return Err(fail(2, format!("{rejects} is named for both tables")));
        }
        Ok(())
    }
}

/// A column and its text, of a value COLUMN=TEXT.
fn condition(value: &str) -> Option<(String, String)> {
    let (column, text) = value.split_once('=')?;
    (!column.is_empty()).then(|| (column.into(), text.into()))
}

/// Whether two paths are the same, or lead to one file.
fn are_one(one: &str, other: &str) -> bool {
    let file = |path| std::fs::metadata(path).ok().map(|it| (it.dev(), it.ino()));
    one == other || file(one).is_some_and(|it| file(other) == Some(it))
}

/// Where a file of a path lies, or will lie.
fn place(path: &str) -> Option<PathBuf> {
    let folder = Path::new(path).parent()?;
    let folder = if folder.as_os_str().is_empty() {
        Path::new(".")
    } else {
        folder
    };
    Some(
        folder
            .canonicalize()
            .ok()?
            .join(Path::new(path).file_name()?),
    )
}

type Row = Vec<Vec<u8>>;

/// The rows of a text, as the crate `csv` reads them with a delimiter.
fn rows_of(text: &[u8], delimiter: u8) -> Vec<Row> {
    let text = text.strip_prefix(b"\xef\xbb\xbf").unwrap_or(text);
    let (mut rows, mut at) = (Vec::new(), 0);
    while at < text.len() {
        if b"\r\n".contains(&text[at]) {
            at += 1;
            continue;
        }
        let mut row = Vec::new();
        loop {
            let (field, end) = field(text, at, delimiter);
            row.push(field);
            at = end + 1;
            if text.get(end) != Some(&delimiter) {
                break;
            }
        }
        rows.push(row);
    }
    rows
}

/// The field that begins at a place, and the place behind it.
fn field(text: &[u8], mut at: usize, delimiter: u8) -> (Vec<u8>, usize) {
    let mut field = Vec::new();
    if text.get(at) == Some(&b'"') {
        at += 1;
        loop {
            match &text[at..] {
                [b'"', b'"', ..] => {
                    field.push(b'"');
                    at += 2;
                }
                [b'"', ..] => {
                    at += 1;
                    break;
                }
                [byte, ..] => {
                    field.push(*byte);
                    at += 1;
                }
                [] => break,
            }
        }
    }
    let rest = &text[at..];
    let end = rest
        .iter()
        .position(|&b| b == delimiter || b == b'\r' || b == b'\n')
        .unwrap_or(rest.len());
    field.extend_from_slice(&rest[..end]);
    (field, at + end)
}

/// Adds a row to a table that is written.
fn add_row(table: &mut Vec<u8>, fields: &[Vec<u8>]) {
    let fields: Vec<_> = fields.iter().map(|field| quoted(field)).collect();
    table.extend(fields.join(&b','));
    table.push(b'\n');
}

/// Whether a text is 1 to 64 printable bytes.
fn is_name(text: &[u8]) -> bool {
    (1..=64).contains(&text.len()) && text.iter().all(|byte| (0x20..=0x7e).contains(byte))
}

fn is_code(text: &[u8]) -> bool {
    code(text).is_some()
}

fn is_right(text: &[u8]) -> bool {
    [b"P", b"M", b"S"].iter().any(|right| text == *right)
}

/// What values become.
type Table = HashMap<Vec<u8>, Vec<u8>>;

/// Reads a table of values. `wrong` is the fault of a row that leads to a wrong one.
fn table(bytes: &mut [u8], is_value: fn(&[u8]) -> bool, wrong: u8) -> Result<Table, Fault> {
    let mut rows = Rows::new(bytes);
    if !rows.header(&["from", "to"]) {
        return Err(Fault(1, Some(0)));
    }
    let (mut table, mut row) = (Table::new(), 0);
    let mut f = [Field::default(); MOST];
    while let Some(count) = rows.next(&mut f) {
        row += 1;
        if row > MOST_ROWS {
            return Err(Fault(6, None));
        }
        if count != 2 {
            return Err(Fault(1, Some(row)));
        }
        let (from, to) = (rows.get(f[0]), rows.get(f[1]));
        if !is_value(to) {
            return Err(Fault(wrong, Some(row)));
        }
        if table.insert(from.to_vec(), to.to_vec()).is_some() {
            return Err(Fault(5, Some(row)));
        }
    }
    Ok(table)
}

/// Reads and checks a table of values, where there is one.
fn table_at(
    path: &Option<String>,
    is_value: fn(&[u8]) -> bool,
    wrong: u8,
) -> Result<Option<Table>, ExitCode> {
    let Some(path) = path else {
        return Ok(None);
    };
    let table = table(&mut load(path, LARGEST_FILE)?, is_value, wrong);
    table.map(Some).map_err(|Fault(number, row)| {
        let row = row.map(|row| format!(" at row {row}")).unwrap_or_default();
        fail(1, format!("map fault {number}{row} of {path}"))
    })
}

/// How amounts are written.
struct Form {
    decimals: usize,
    /// What stands before decimals.
    mark: u8,
    /// What parts groups of digits.
    parting: u8,
}

impl Form {
    /// The units of an amount, or why it is none.
    fn units(&self, text: &[u8]) -> Result<i128, usize> {
        if text.len() > LONGEST_AMOUNT {
            return Err(LONG);
        }
        let (digits, decimals) = self
            .digits(text.strip_prefix(b"-").unwrap_or(text))
            .ok_or(NO_NUMBER)?;
        let (kept, cut) = decimals.split_at(self.decimals.min(decimals.len()));
        if cut.iter().any(|&digit| digit != b'0') {
            return Err(PLACES);
        }
        let zeros = vec![b'0'; self.decimals - kept.len()];
        let units = [digits, kept.to_vec(), zeros].concat();
        let first = units
            .iter()
            .position(|&digit| digit != b'0')
            .unwrap_or(units.len());
        let units = units[first..].iter().try_fold(0, |sum, &digit| {
            let sum = 10 * sum + i128::from(digit - b'0');
            (sum <= MOST_AMOUNT).then_some(sum)
        });
        let units = units.ok_or(LARGE)?;
        Ok(if text.starts_with(b"-") {
            -units
        } else {
            units
        })
    }

    /// The digits before the mark and behind it, of an amount without its sign.
    fn digits(&self, text: &[u8]) -> Option<(Vec<u8>, Vec<u8>)> {
        let are_digits = |text: &[u8]| text.iter().all(u8::is_ascii_digit);
        let Some(mark) = text.iter().position(|&byte| byte == self.mark) else {
            return (!text.is_empty() && are_digits(text)).then(|| (text.to_vec(), Vec::new()));
        };
        let (whole, decimals) = (&text[..mark], &text[mark + 1..]);
        let groups: Vec<_> = whole.split(|&byte| byte == self.parting).collect();
        let are_groups =
            (1..=3).contains(&groups[0].len()) && groups[1..].iter().all(|group| group.len() == 3);
        let digits = groups.concat();
        let is_number = are_digits(&digits) && are_digits(decimals) && !decimals.is_empty();
        (is_number && (groups.len() == 1 || are_groups)).then(|| (digits, decimals.to_vec()))
    }
}

/// Where the value of a row stands.
enum Place {
    Field(usize),
    Text(Vec<u8>),
}

impl Place {
    /// What a word says, with the header of an export, if it has one.
    fn of(word: &str, header: Option<&Row>, export: &str) -> Result<Place, ExitCode> {
        if let Some(text) = word.strip_prefix('=') {
            return Ok(Place::Text(text.into()));
        }
        let number = number_of(word);
        let Some(header) = header else {
            return number.map(|it| Place::Field(it - 1)).ok_or_else(|| {
                fail(
                    2,
                    format!("there is no header to find the column '{word}' in"),
                )
            });
        };
        let places: Vec<_> = (0..header.len())
            .filter(|&it| match number {
                Some(number) => it == number - 1,
                None => header[it] == word.as_bytes(),
            })
            .collect();
        match places[..] {
            [place] => Ok(Place::Field(place)),
            [] => Err(fail(1, format!("{export} has no column '{word}'"))),
            _ => Err(fail(
                1,
                format!("{export} has more than one column '{word}'"),
            )),
        }
    }

    /// What stands there in a row, if it is that long.
    fn value<'a>(&'a self, row: &'a Row) -> Option<&'a [u8]> {
        match self {
            Place::Field(place) => row.get(*place).map(|field| &field[..]),
            Place::Text(text) => Some(text),
        }
    }
}

/// The number of a word `#n`.
fn number_of(word: &str) -> Option<usize> {
    let digits = word
        .strip_prefix('#')
        .filter(|digits| digits.bytes().all(|b| b.is_ascii_digit()))?;
    let number = digits.trim_start_matches('0').parse().ok();
    number.filter(|number| (1..=LAST_FIELD).contains(number))
}

/// A value of a row that a table may lead to.
struct Value {
    place: Place,
    table: Option<Table>,
    is_value: fn(&[u8]) -> bool,
    /// Why a row is rejected that the table does not have.
    reason: usize,
}

impl Value {
    fn of<'a>(&'a self, row: &'a Row) -> Result<&'a [u8], usize> {
        let value = self.place.value(row).ok_or(FIELDS)?;
        let value = match &self.table {
            Some(table) => table.get(value).ok_or(self.reason)?,
            None => value,
        };
        if (self.is_value)(value) {
            Ok(value)
        } else {
            Err(self.reason + 1)
        }
    }
}

/// Whether a field of a row has a line break.
fn has_break(row: &Row) -> bool {
    row.iter()
        .flatten()
        .any(|&byte| byte == b'\n' || byte == b'\r')
}

/// What becomes of a row.
enum Fate {
    /// A usage line with these fields.
    Line([Vec<u8>; 5]),
    /// A rejected row, for a reason.
    Rejected(usize),
    Passed,
}

/// What is done with the rows of an export.
struct Import {
    /// How many fields each row has to have, where there is a header.
    width: Option<usize>,
    usage: Vec<Place>,
    /// Work, territory and right.
    values: [Value; 3],
    amount: Place,
    conditions: Vec<(Place, Vec<u8>)>,
    form: Form,
}

impl Import {
    fn of(
        words: &Words,
        header: Option<&Row>,
        [works, territories, rights]: [Option<Table>; 3],
    ) -> Result<Import, ExitCode> {
        let place = |word: &str| Place::of(word, header, &words.export);
        let condition = |(column, text): &(String, String)| {
            let place = place(column)?;
            Ok::<_, ExitCode>((place, text.clone().into()))
        };
        Ok(Import {
            width: header.map(Vec::len),
            usage: words
                .usage
                .iter()
                .map(|word| place(word))
                .collect::<Result<_, _>>()?,
            values: [
                Value {
                    place: place(&words.work)?,
                    table: works,
                    is_value: is_name,
                    reason: WORK,
                },
                Value {
                    place: place(&words.territory)?,
                    table: territories,
                    is_value: is_code,
                    reason: TERRITORY,
                },
                Value {
                    place: place(&words.right)?,
                    table: rights,
                    is_value: is_right,
                    reason: RIGHT,
                },
            ],
            amount: place(&words.amount)?,
            conditions: words
                .conditions
                .iter()
                .map(condition)
                .collect::<Result<_, _>>()?,
            form: Form { ..words.form },
        })
    }

    /// What becomes of a row. Conditions are looked at once a row has no line break, and has as
    /// many fields as the header.
    fn fate(&self, row: &Row) -> Fate {
        if row.iter().all(|field| field.is_empty()) {
            return Fate::Passed;
        }
        if has_break(row) {
            return Fate::Rejected(BREAK);
        }
        if !self.is_wide(row) {
            return Fate::Rejected(FIELDS);
        }
        // No condition holds of a field that the row does not have.
        let holds = |(place, text): &(Place, Vec<u8>)| place.value(row) == Some(text);
        if !self.conditions.iter().all(holds) {
            return Fate::Passed;
        }
        match self.line(row) {
            Ok(line) => Fate::Line(line),
            Err(reason) => Fate::Rejected(reason),
        }
    }

    /// Whether a row has as many fields as the header, if there is one.
    fn is_wide(&self, row: &Row) -> bool {
        self.width.is_none_or(|width| width == row.len())
    }

    /// The units of a row's amount, or why it is none.
    fn units(&self, row: &Row) -> Result<i128, usize> {
        self.form.units(self.amount.value(row).unwrap_or_default())
    }

    /// What a row counts with in the summary, if it has an amount.
    fn counted(&self, row: &Row) -> Option<i128> {
        if has_break(row) || !self.is_wide(row) {
            return None;
        }
        self.units(row).ok()
    }

    /// The usage line of a row that meets the conditions, or why there is none.
    fn line(&self, row: &Row) -> Result<[Vec<u8>; 5], usize> {
        let values = self.values.iter().map(|value| &value.place);
        let lacks_one = self
            .usage
            .iter()
            .chain(values)
            .chain([&self.amount])
            .any(|place| place.value(row).is_none());
        if lacks_one {
            return Err(FIELDS);
        }
        let usage: Vec<_> = self
            .usage
            .iter()
            .filter_map(|place| place.value(row))
            .collect();
        let usage = usage.join(&b'-');
        if !is_name(&usage) {
            return Err(USE);
        }
        let [work, territory, right] = &self.values;
        let (work, territory, right) = (work.of(row)?, territory.of(row)?, right.of(row)?);
        let amount = self.units(row)?.to_string();
        Ok([
            usage,
            work.to_vec(),
            territory.to_vec(),
            right.to_vec(),
            amount.into(),
        ])
    }
}

/// How many rows there are of a kind, what their amounts come to, and how many have none.
#[derive(Clone, Copy, Default)]
struct Tally {
    rows: u64,
    amount: i128,
    without: u64,
}

impl Tally {
    fn add(&mut self, amount: Option<i128>) {
        self.rows += 1;
        self.amount += amount.unwrap_or(0);
        self.without += u64::from(amount.is_none());
    }
}

/// What becomes of the rows of an export.
#[derive(Default)]
struct Done {
    output: Vec<u8>,
    rejects: Vec<u8>,
    all: Tally,
    lines: Tally,
    rejected: Tally,
    reasons: [Tally; REASONS.len()],
    passed: Tally,
}

impl Done {
    fn of(import: &Import, header: Option<&Row>, rows: &[Row]) -> Done {
        let mut done = Done {
            output: b"usage,work,territory,right,amount\n".to_vec(),
            ..Done::default()
        };
        if let Some(header) = header {
            done.reject("rejected_row", "rejected_since", header);
        }
        for (row, number) in rows.iter().zip(1..) {
            done.take(import, row, number);
        }
        done
    }

    fn reject(&mut self, number: &str, reason: &str, row: &Row) {
        add_row(
            &mut self.rejects,
            &[&[number.into(), reason.into()], &row[..]].concat(),
        );
    }

    fn take(&mut self, import: &Import, row: &Row, number: u64) {
        let amount = import.counted(row);
        self.all.add(amount);
        match import.fate(row) {
            Fate::Passed => self.passed.add(amount),
            Fate::Line(line) => {
                self.lines.add(amount);
                add_row(&mut self.output, &line);
            }
            Fate::Rejected(reason) => {
                self.rejected.add(amount);
                self.reasons[reason].add(amount);
                self.reject(&number.to_string(), REASONS[reason], row);
            }
        }
    }

    fn summary(&self, export: &str) -> String {
        let line = |what: &str, tally: Tally| {
            let without = match tally.without {
                0 => String::new(),
                rows => format!(", without the amounts of {rows}"),
            };
            let Tally { rows, amount, .. } = tally;
            format!("{export}: {what}: {rows}, amount {amount}{without}\n")
        };
        let mut text = line("rows", self.all)
            + &line("usage lines", self.lines)
            + &line("rejected rows", self.rejected);
        for (reason, tally) in REASONS
            .iter()
            .zip(self.reasons)
            .filter(|(_, tally)| tally.rows > 0)
        {
            text += &line(&format!("rejected since {reason}"), tally);
        }
        text + &line("rows passed over", self.passed)
    }
}

/// A new file beside a path, which takes its name at the end. It is removed if it does not.
struct Begun<'a> {
    path: &'a str,
    new: PathBuf,
    file: File,
}

impl Begun<'_> {
    /// Begins a file. At its path is nothing, or a file; an empty path is none.
    fn at(path: &str) -> Result<Begun<'_>, ExitCode> {
        let found = std::fs::symlink_metadata(path);
        if path.is_empty() || found.is_ok_and(|it| !it.is_file()) {
            return Err(unwritten(path));
        }
        let mut new = PathBuf::from(format!("{path}.new"));
        let mut number = 0;
        while std::fs::symlink_metadata(&new).is_ok() {
            number += 1;
            new = format!("{path}.new{number}").into();
        }
        let file = File::create_new(&new).map_err(|_| unwritten(path))?;
        Ok(Begun { path, new, file })
    }

    /// Gives the file its name.
    fn take_name(&self) -> Result<(), ExitCode> {
        std::fs::rename(&self.new, self.path).map_err(|_| unwritten(self.path))
    }
}

impl Drop for Begun<'_> {
    fn drop(&mut self) {
        // There is none that has taken the name of its path.
        let _ = std::fs::remove_file(&self.new);
    }
}

fn unwritten(path: &str) -> ExitCode {
    fail(4, format!("cannot write {path}"))
}

/// Writes both tables, each into the file begun for it, or neither.
fn write(mut files: [Begun; 2], done: &Done) -> Result<(), ExitCode> {
    for (begun, text) in files.iter_mut().zip([&done.output, &done.rejects]) {
        begun
            .file
            .write_all(text)
            .map_err(|_| unwritten(begun.path))?;
    }
    let [output, rejects] = &files;
    let before = std::fs::read(output.path).ok();
    output.take_name()?;
    rejects.take_name().inspect_err(|_| {
        // The first path gets back what it had.
        let _ = match before {
            Some(text) => std::fs::write(output.path, text),
            None => std::fs::remove_file(output.path),
        };
    })
}

/// Makes usage lines of an export, and prints a summary.
pub fn main() -> Result<ExitCode, ExitCode> {
    let Some(words) = Words::read() else {
        let words = "import EXPORT --usage COL.. --work COL --territory COL --right COL \
                     --amount COL --output F --rejects F [--where COL=TEXT..] [--works F] \
                     [--territories F] [--rights F] [--decimals N] [--decimal-comma] \
                     [--delimiter comma|semicolon|tab|pipe] [--no-header]";
        return Err(fail(2, words.into()));
    };
    words.look_at_paths()?;
    let [works, territories, rights] = &words.tables;
    let tables = [
        table_at(works, is_name, 2)?,
        table_at(territories, is_code, 3)?,
        table_at(rights, is_right, 4)?,
    ];
    let export = &words.export;
    let unread = |_| fail(4, format!("cannot read {export}"));
    let mut file = File::open(export).map_err(unread)?;
    // Both tables are begun before anything of the export is read.
    let files = [Begun::at(&words.output)?, Begun::at(&words.rejects)?];
    let mut text = Vec::new();
    file.read_to_end(&mut text).map_err(unread)?;
    let rows = rows_of(&text, words.delimiter);
    let (header, rows) = match rows.split_first() {
        Some((header, rows)) if words.has_header => (Some(header), rows),
        None if words.has_header => return Err(fail(1, format!("{export} has no header"))),
        _ => (None, &rows[..]),
    };
    let import = Import::of(&words, header, tables)?;
    let done = Done::of(&import, header, rows);
    write(files, &done)?;
    match std::io::stdout().write_all(done.summary(export).as_bytes()) {
        Ok(()) => Ok(ExitCode::from((done.rejected.rows > 0) as u8)),
        Err(_) => Err(fail(4, "cannot write".into())),
    }
}
