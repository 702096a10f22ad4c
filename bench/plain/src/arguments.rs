//! The arguments of an import, and of the commands over several submitters' files, taken as
//! `clap` takes them.

use crate::submitters::Submitters;

/// Options with their values, in the order in which they were given.
pub struct Options(Vec<(String, String)>);

impl Options {
    /// Each is `--name value` or `--name=value`; in the first form no value begins with `-`, unless
    /// it is `-` alone. A flag has no value. None where an argument is something else.
    pub fn of(
        args: impl Iterator<Item = String>,
        names: &[&str],
        flags: &[&str],
    ) -> Option<Options> {
        let (options, paths) = Options::and_paths(args, names, flags)?;
        paths.is_empty().then_some(options)
    }

    /// The same, with the paths that stand between options. Of these none begins with `-`, unless
    /// it is `-` alone or stands behind `--`.
    pub fn and_paths(
        mut args: impl Iterator<Item = String>,
        names: &[&str],
        flags: &[&str],
    ) -> Option<(Options, Vec<String>)> {
        let (mut options, mut paths) = (Vec::new(), Vec::new());
        while let Some(arg) = args.next() {
            if arg == "-" || !arg.starts_with('-') {
                paths.push(arg);
                continue;
            }
            if arg == "--" {
                paths.extend(args);
                break;
            }
            let arg = arg.strip_prefix("--")?;
            let (name, value) = match arg.split_once('=') {
                Some((name, value)) => (name, value.into()),
                None if flags.contains(&arg) => {
                    options.push((arg.into(), String::new()));
                    continue;
                }
                None => (arg, args.next()?),
            };
            let is_value = arg.contains('=') || value == "-" || !value.starts_with('-');
            if !names.contains(&name) || !is_value {
                return None;
            }
            options.push((name.into(), value));
        }
        Some((Options(options), paths))
    }

    /// The values of an option.
    pub fn all(&self, name: &str) -> Vec<String> {
        let given = self.0.iter().filter(|(given, _)| given == name);
        given.map(|(_, value)| value.clone()).collect()
    }

    /// The value of an option, where it is given; none where it is given twice.
    pub fn at_most_one(&self, name: &str) -> Option<Option<String>> {
        let mut values = self.all(name);
        let value = values.pop();
        values.is_empty().then_some(value)
    }

    /// The value of an option that has to be given.
    pub fn one(&self, name: &str) -> Option<String> {
        self.at_most_one(name)?
    }

    /// Whether a flag is given.
    pub fn has(&self, flag: &str) -> bool {
        self.0.iter().any(|(given, _)| given == flag)
    }

    /// The submitters with their files.
    pub fn submitters(&self) -> Option<Submitters> {
        Submitters::of(&self.all("cwr"))
    }
}

/// Whether the arguments of a run, a check or an explanation name a table of works.
pub fn name_works() -> bool {
    std::env::args()
        .skip(2)
        .any(|arg| arg == "--works" || arg.starts_with("--works="))
}
