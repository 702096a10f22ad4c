//! `royalty_run run`, `explain` and `check` once more, as one would write them by hand in Rust, with no proofs. The
//! words and the text that comes out are the same. And `merge`, with the paths of statement texts behind it, merges
//! them, as `merge_statements` does; `adjust PAID RIGHT` prints the difference between two such texts. With `--works`
//! the three are over the files of several submitters, for which `works` and `parties` print tables to begin with.
//! `import` makes usage lines of a sales report. `--mode` says how the book is filled: one (where there is no such
//! word), threads, channels, batches, linked, pool, rings or parked. With `--times` it says how long each phase took.
//! With `--whole` the usage list may have any number of lines, and 4,294,967,295 bytes.

mod adjust;
mod arguments;
mod book;
mod check;
mod check_submitted;
mod cwr;
mod explain;
mod form;
mod import;
mod linked;
mod merge;
mod payees;
mod pool;
mod rows;
mod signals;
mod split;
mod submitters;
mod tables;
mod text;
mod tis;
mod usage;
mod works;

use arguments::Options;
use book::{Job, Mode, Plan};
use std::fs::File;
use std::io::Write;
use std::os::fd::AsFd;
use std::process::ExitCode;
use std::sync::atomic::AtomicU8;
use std::time::{Duration, Instant};
use submitters::Submitters;

const ACCOUNTS: usize = 16_384;

const LARGEST_FILE: u64 = 268_435_456;

/// What a usage list has at most.
struct Most {
    bytes: u64,
    lines: u64,
}

const LARGEST_LIST: Most = Most { bytes: LARGEST_FILE, lines: 1_000_000 };

/// The list of a month: places in it are kept in 32 bits.
const WHOLE_LIST: Most = Most { bytes: u32::MAX as u64, lines: u64::MAX };

/// The files of several submitters, and the paths of the tables that they are taken with.
struct Several {
    tis: String,
    payees: Option<String>,
    works: String,
    submitters: Submitters,
    usage: String,
}

impl Several {
    fn of(options: &Options) -> Option<Several> {
        Some(Several {
            tis: options.one("tis")?,
            payees: options.at_most_one("payees")?,
            works: options.one("works")?,
            submitters: options.submitters()?,
            usage: options.one("usage")?,
        })
    }

    /// Reads the tables whole, in this order.
    fn load(&self, largest_list: u64) -> Result<Tables, ExitCode> {
        Ok(Tables {
            tis: load(&self.tis, LARGEST_FILE)?,
            payees: self.payees.as_ref().map(|path| load(path, LARGEST_FILE)).transpose()?,
            works: load(&self.works, LARGEST_FILE)?,
            usage: load(&self.usage, largest_list)?,
        })
    }
}

/// The bytes of the tables of several submitters, and of the usage list.
struct Tables {
    tis: Vec<u8>,
    payees: Option<Vec<u8>>,
    works: Vec<u8>,
    usage: Vec<u8>,
}

/// What a run is over.
enum Paths {
    One { tis: String, payees: Option<String>, cwr: String, usage: String },
    Several(Several),
}

/// What the words of a run say.
struct Words {
    paths: Paths,
    /// Workers, readers and nodes.
    plan: [String; 3],
    times: bool,
    mode: Mode,
    most: Most,
}

/// The words of a run over one file.
fn words() -> Option<Words> {
    let names = ["--tis", "--cwr", "--usage", "--workers", "--readers", "--nodes", "--payees"];
    let mut values: [Option<String>; 7] = Default::default();
    let (mut times, mut mode, mut most) = (false, Mode::One, LARGEST_LIST);
    let mut args = std::env::args().skip(1);
    if args.next()? != "run" {
        return None;
    }
    while let Some(name) = args.next() {
        if name == "--times" {
            times = true;
            continue;
        }
        if name == "--whole" {
            most = WHOLE_LIST;
            continue;
        }
        if name == "--mode" {
            mode = Mode::of(&args.next()?)?;
            continue;
        }
        values[names.iter().position(|n| *n == name)?] = Some(args.next()?);
    }
    let [tis, cwr, usage, workers, readers, nodes, payees] = values;
    Some(Words {
        paths: Paths::One { tis: tis?, payees, cwr: cwr?, usage: usage? },
        plan: [workers?, readers?, nodes?],
        times,
        mode,
        most,
    })
}

/// The words of a run over the files of several submitters.
fn words_of_several() -> Option<Words> {
    let names = ["tis", "payees", "works", "cwr", "usage", "workers", "readers", "nodes", "mode"];
    let options = Options::of(std::env::args().skip(2), &names, &["times", "whole"])?;
    let mode = options.at_most_one("mode")?;
    Some(Words {
        paths: Paths::Several(Several::of(&options)?),
        plan: [options.one("workers")?, options.one("readers")?, options.one("nodes")?],
        times: options.has("times"),
        mode: mode.map_or(Some(Mode::One), |mode| Mode::of(&mode))?,
        most: if options.has("whole") { WHOLE_LIST } else { LARGEST_LIST },
    })
}

/// `explain`: the values of the options that have to be there, the path of the payees, and the row.
fn explain_words() -> Option<(Vec<String>, Option<String>, usize)> {
    let names = ["--tis", "--cwr", "--usage", "--row", "--payees"];
    let mut values: Vec<Option<String>> = vec![None; names.len()];
    let mut args = std::env::args().skip(2);
    while let Some(name) = args.next() {
        values[names.iter().position(|n| *n == name)?] = Some(args.next()?);
    }
    let payees = values.pop()?;
    let row = row_of(&values.pop()??)?;
    Some((values.into_iter().collect::<Option<_>>()?, payees, row))
}

/// The number of a row of a usage list.
fn row_of(word: &str) -> Option<usize> {
    word.parse().ok().filter(|n| (1..=1_000_000).contains(n))
}

/// `explain` over the files of several submitters: the files, and the row.
fn explain_words_of_several() -> Option<(Several, usize)> {
    let names = ["tis", "payees", "works", "cwr", "usage", "row"];
    let options = Options::of(std::env::args().skip(2), &names, &[])?;
    Some((Several::of(&options)?, row_of(&options.one("row")?)?))
}

/// `check` over the files of several submitters.
fn check_words_of_several() -> Option<Several> {
    let names = ["tis", "payees", "works", "cwr", "usage"];
    Several::of(&Options::of(std::env::args().skip(2), &names, &[])?)
}

/// `check`: the values of the options that have to be there, and the path of the payees.
fn check_words() -> Option<(Vec<String>, Option<String>)> {
    let names = ["--tis", "--cwr", "--usage", "--payees"];
    let mut values: Vec<Option<String>> = vec![None; names.len()];
    let mut args = std::env::args().skip(2);
    while let Some(name) = args.next() {
        values[names.iter().position(|n| *n == name)?] = Some(args.next()?);
    }
    let payees = values.pop()?;
    Some((values.into_iter().collect::<Option<_>>()?, payees))
}

/// The bytes of the files.
struct Files {
    tis: Vec<u8>,
    payees: Option<Vec<u8>>,
    cwr: Vec<u8>,
    usage: Vec<u8>,
}

impl Files {
    /// Reads them in this order.
    fn load([tis, cwr, usage]: [&String; 3], payees: &Option<String>, largest_list: u64) -> Result<Files, ExitCode> {
        Ok(Files {
            tis: load(tis, LARGEST_FILE)?,
            payees: payees.as_ref().map(|path| load(path, LARGEST_FILE)).transpose()?,
            cwr: load(cwr, LARGEST_FILE)?,
            usage: load(usage, largest_list)?,
        })
    }
}

/// The bytes of a file that has at most so many, or why there is no answer.
fn load(path: &str, most: u64) -> Result<Vec<u8>, ExitCode> {
    read(path, most).map_err(|_| fail(4, format!("cannot read {path}")))
}

/// What was read of a file, or why it is refused.
fn sound<T>(what: &str, read: Result<T, rows::Fault>) -> Result<T, ExitCode> {
    read.map_err(|fault| refused(what, fault))
}

/// The payees of a table, where there is one.
fn payees_of(table: Option<Vec<u8>>) -> Result<payees::Payees, ExitCode> {
    match table {
        Some(mut bytes) => sound("payee", payees::read(&mut bytes)),
        None => Ok(payees::Payees::new()),
    }
}

/// Prints the explanation of a usage line.
fn explain_main() -> Result<ExitCode, ExitCode> {
    let Some((words, payees, row)) = explain_words() else {
        return Err(fail(2, "explain --tis F [--payees F] --cwr F --usage F --row N".into()));
    };
    let mut files = Files::load([&words[0], &words[1], &words[2]], &payees, LARGEST_FILE)?;
    let mut table = files.tis.clone();
    let tis = sound("tis", tis::Tis::read(&mut files.tis))?;
    let payees = payees_of(files.payees)?;
    let registry = sound("cwr", cwr::Registry::read(&files.cwr, &tis, &payees, ACCOUNTS))?;
    let usage = sound("usage", usage::Usage::read(files.usage, LARGEST_LIST.lines))?;
    let groups = explain::Groups::read(&mut table);
    print_explanation(explain::explain(&groups, &payees, &files.cwr, &registry, &usage, row), row)
}

/// Prints the explanation of a row, if the usage list has it.
fn print_explanation(text: Option<Vec<u8>>, row: usize) -> Result<ExitCode, ExitCode> {
    match text {
        Some(text) if std::io::stdout().write_all(&text).is_ok() => Ok(ExitCode::SUCCESS),
        Some(_) => Err(fail(4, "cannot write".into())),
        None => Err(fail(2, format!("the usage list has no row {row}"))),
    }
}

/// Prints the explanation of a usage line over the files of several submitters.
fn explain_several_main() -> Result<ExitCode, ExitCode> {
    let Some((files, row)) = explain_words_of_several() else {
        let words = "explain --tis F --works F [--payees F] --cwr NAME=F.. --usage F --row N";
        return Err(fail(2, words.into()));
    };
    let (submitters, tables) = (&files.submitters, files.load(LARGEST_FILE)?);
    let mut table = tables.tis.clone();
    let read = Read::of(tables.tis, tables.payees, tables.works, submitters)?;
    let mut texts = Vec::new();
    let registry = read.registry(submitters, |text| texts.push(text))?;
    let usage = sound("usage", usage::Usage::read(tables.usage, LARGEST_LIST.lines))?;
    let groups = explain::Groups::read(&mut table);
    let filed = (submitters, &read.payees[..], &texts[..]);
    let text = explain::explain_submitted(&groups, filed, &read.works, &registry, &usage, row);
    print_explanation(text, row)
}

/// Prints the report on the files.
fn check_main() -> Result<ExitCode, ExitCode> {
    let Some((words, payees)) = check_words() else {
        return Err(fail(2, "check --tis F [--payees F] --cwr F --usage F".into()));
    };
    let files = Files::load([&words[0], &words[1], &words[2]], &payees, LARGEST_FILE)?;
    let table = payees.as_deref().zip(files.payees.as_deref());
    let (text, sound) =
        check::check((&words[0], &files.tis), table, (&words[1], &files.cwr), (&words[2], &files.usage));
    print_report(&text, sound)
}

/// Prints a report, which says whether no file has a fault.
fn print_report(text: &str, sound: bool) -> Result<ExitCode, ExitCode> {
    match std::io::stdout().write_all(text.as_bytes()) {
        Ok(()) => Ok(ExitCode::from(!sound as u8)),
        Err(_) => Err(fail(4, "cannot write".into())),
    }
}

/// Prints the report on the files of several submitters.
fn check_several_main() -> Result<ExitCode, ExitCode> {
    let Some(files) = check_words_of_several() else {
        let words = "check --tis F --works F [--payees F] --cwr NAME=F.. --usage F";
        return Err(fail(2, words.into()));
    };
    let (text, sound) = check_submitted::check(&files, &files.load(LARGEST_FILE)?)?;
    print_report(&text, sound)
}

/// What the statement text at a path says.
fn statements(path: &str) -> Result<merge::Statements, ExitCode> {
    let text = std::fs::read(path).map_err(|_| fail(4, format!("cannot read {path}")))?;
    merge::Statements::read(&text).map_err(|fault| statement_refused(path, fault))
}

fn statement_refused(path: &str, rows::Fault(number, row): rows::Fault) -> ExitCode {
    fail(1, format!("statement fault {number} at row {} of {path}", row.unwrap_or(0)))
}

fn print_statements(all: &merge::Statements) -> Result<ExitCode, ExitCode> {
    match all.write(&mut std::io::BufWriter::new(std::io::stdout())) {
        Ok(()) => Ok(ExitCode::SUCCESS),
        Err(_) => Err(fail(4, "cannot write".into())),
    }
}

/// Prints the statements of several texts together.
fn merge_main() -> Result<ExitCode, ExitCode> {
    let mut all = merge::Statements::default();
    for path in std::env::args().skip(2) {
        all.join(statements(&path)?);
    }
    print_statements(&all)
}

/// Prints the difference between the statements that were paid and those that are right.
fn adjust_main() -> Result<ExitCode, ExitCode> {
    let paths: Vec<_> = std::env::args().skip(2).collect();
    let [path_of_paid, path_of_right] = &paths[..] else {
        return Err(fail(2, "adjust PAID RIGHT".into()));
    };
    let (paid, right) = (statements(path_of_paid)?, statements(path_of_right)?);
    let difference = adjust::difference(&paid, &right).map_err(|fault| statement_refused(path_of_right, fault))?;
    print_statements(&difference)
}

fn fail(status: u8, text: String) -> ExitCode {
    eprintln!("plain: {text}");
    ExitCode::from(status)
}

fn refused(what: &str, fault: rows::Fault) -> ExitCode {
    let unit = if what == "cwr" { "line" } else { "row" };
    let at = fault.1.map(|p| format!(" at {unit} {p}")).unwrap_or_default();
    fail(1, format!("{what} fault {}{at}", fault.0))
}

/// The bytes of a file that has at most so many.
fn read(path: &str, most: u64) -> std::io::Result<Vec<u8>> {
    if std::fs::metadata(path)?.len() > most {
        return Err(std::io::ErrorKind::FileTooLarge.into());
    }
    std::fs::read(path)
}

/// Prints a table of works or of payees to begin with.
fn table_main(make: fn(&Submitters) -> Result<Vec<u8>, ExitCode>) -> Result<ExitCode, ExitCode> {
    let options = Options::of(std::env::args().skip(2), &["cwr"], &[]);
    let Some(submitters) = options.and_then(|options| options.submitters()) else {
        return Err(fail(2, "works or parties, and --cwr NAME=F for each of 1 to 256 files".into()));
    };
    let table = make(&submitters)?;
    let mut out = std::io::stdout();
    match out.write_all(&table).and_then(|()| out.flush()) {
        Ok(()) => Ok(ExitCode::SUCCESS),
        Err(_) => Err(fail(4, "cannot write".into())),
    }
}

fn main() -> ExitCode {
    let done = match std::env::args().nth(1).as_deref() {
        Some("explain") if arguments::name_works() => explain_several_main(),
        Some("check") if arguments::name_works() => check_several_main(),
        Some("explain") => explain_main(),
        Some("check") => check_main(),
        Some("merge") => merge_main(),
        Some("adjust") => adjust_main(),
        Some("import") => import::main(),
        Some("works") => table_main(tables::works),
        Some("parties") => table_main(tables::parties),
        _ => run_main(),
    };
    done.unwrap_or_else(|failed| failed)
}

/// What a run is over.
type Inputs = (tis::Tis, cwr::Registry, usage::Usage);

/// What the tables of several submitters say that stand before their files.
struct Read {
    tis: tis::Tis,
    /// The payees of the parties of each submitter.
    payees: Vec<payees::Payees>,
    works: works::Works,
}

impl Read {
    fn of(
        mut tis: Vec<u8>,
        payees: Option<Vec<u8>>,
        mut works: Vec<u8>,
        submitters: &Submitters,
    ) -> Result<Read, ExitCode> {
        Ok(Read {
            tis: sound("tis", tis::Tis::read(&mut tis))?,
            payees: match payees {
                Some(mut bytes) => sound("payee", payees::read_of(&mut bytes, submitters))?,
                None => submitters.iter().map(|_| payees::Payees::new()).collect(),
            },
            works: sound("works", works::Works::read(&mut works, submitters))?,
        })
    }

    /// The registrations of all files, whose texts are given to `keep`.
    fn registry(
        &self,
        submitters: &Submitters,
        keep: impl FnMut(Vec<u8>),
    ) -> Result<cwr::Registry, ExitCode> {
        submitters::registry(submitters, &self.tis, &self.payees, &self.works, keep)
    }
}

/// The inputs of a run over one file, or over the files of several submitters. `lap` is told what ends. Of several, the tables
/// and the usage list are read whole first, and CWR files one by one, once the tables have been parsed.
fn read_inputs(words: &Words, lap: &mut impl FnMut(&'static str)) -> Result<Inputs, ExitCode> {
    let most = &words.most;
    let (tis, registry, usage) = match &words.paths {
        Paths::One { tis, payees, cwr, usage } => {
            let mut files = Files::load([tis, cwr, usage], payees, most.bytes)?;
            lap("load files");
            let tis = sound("tis", tis::Tis::read(&mut files.tis))?;
            drop(files.tis);
            lap("read tis");
            let payees = payees_of(files.payees)?;
            let registry = sound("cwr", cwr::Registry::read(&files.cwr, &tis, &payees, ACCOUNTS))?;
            (tis, registry, files.usage)
        }
        Paths::Several(files) => {
            let tables = files.load(most.bytes)?;
            lap("load files");
            let read = Read::of(tables.tis, tables.payees, tables.works, &files.submitters)?;
            lap("tables");
            let registry = read.registry(&files.submitters, drop)?;
            (read.tis, registry, tables.usage)
        }
    };
    lap("read cwr");
    let usage = sound("usage", usage::Usage::read(usage, most.lines))?;
    lap("read usage");
    Ok((tis, registry, usage))
}

/// Prints the statements of a run.
fn run_main() -> Result<ExitCode, ExitCode> {
    let are_several = arguments::name_works();
    let Some(words) = (if are_several { words_of_several() } else { words() }) else {
        let usage = if are_several {
            "run --tis F --works F [--payees F] --cwr NAME=F.. --usage F --workers n --readers n --nodes n [--mode m] [--times] [--whole]"
        } else {
            "run --tis F [--payees F] --cwr F --usage F --workers n --readers n --nodes n [--mode m] [--times] [--whole]"
        };
        return Err(fail(2, usage.into()));
    };
    let number = |i: usize, most: usize| {
        words.plan[i].parse().ok().filter(|n: &usize| (1..=most).contains(n))
    };
    let (Some(workers), Some(readers), Some(nodes)) =
        (number(0, 8), number(1, 8), number(2, 64))
    else {
        return Err(fail(2, "workers and readers are 1 to 8, nodes 1 to 64".into()));
    };
    let mut phases: Vec<(&str, Duration)> = Vec::new();
    let begin = Instant::now();
    let mut last = begin;
    let mut lap = |name| {
        let now = Instant::now();
        phases.push((name, now - last));
        last = now;
    };

    let (tis, registry, usage) = read_inputs(&words, &mut lap)?;
    let reasons: Vec<_> = usage.lines.iter().map(|_| AtomicU8::new(0)).collect();
    let input = split::Input { tis: &tis, registry: &registry, usage: &usage };
    let job = Job { input: &input, reasons: &reasons };
    let book = job.fill(words.mode, &Plan { workers, readers, nodes });
    lap("run");
    let written = std::io::stdout()
        .as_fd()
        .try_clone_to_owned()
        .and_then(|fd| text::text(&input, &reasons, &book, File::from(fd)));
    let Ok(write) = written else {
        return Err(fail(4, "cannot write".into()));
    };
    lap("text");
    if words.times {
        let text = phases.last_mut().unwrap();
        text.1 -= write;
        phases.push(("write", write));
        for (name, t) in &phases {
            eprintln!("{name:<10} {:>9.1} ms", t.as_secs_f64() * 1e3);
        }
        eprintln!("{:<10} {:>9.1} ms", "total", begin.elapsed().as_secs_f64() * 1e3);
    }
    // The process ends here; the large vectors are not freed one by one.
    std::process::exit(0)
}
