//! The command line.

use crate::status::Failure;
use std::ffi::{OsStr, OsString};
use std::os::unix::ffi::OsStrExt;

/// What the program does.
#[derive(Clone, Copy, Debug, Default, PartialEq, Eq)]
pub enum Mode {
    /// Runs lines.
    #[default]
    Run,
    Bytes,
    Decode,
    Dump,
    Check,
}

impl Mode {
    fn option(self) -> &'static str {
        match self {
            Mode::Run => "",
            Mode::Bytes => "--bytes",
            Mode::Decode => "--decode",
            Mode::Dump => "--dump",
            Mode::Check => "--check",
        }
    }
}

#[derive(Debug, Default, PartialEq, Eq)]
pub struct Options {
    pub help: bool,
    pub version: bool,
    pub mode: Mode,
    pub plain: bool,
    pub boxes: bool,
    pub whole_grid: bool,
    pub force: bool,
    pub create: bool,
    pub svg: Option<OsString>,
    pub table: Option<OsString>,
    pub commands: Option<OsString>,
    pub file: Option<OsString>,
}

/// From the words after the program's name.
pub fn read(words: impl IntoIterator<Item = OsString>) -> Result<Options, Failure> {
    let mut options = Options::default();
    let mut words = words.into_iter();
    let mut only_files = false;
    while let Some(word) = words.next() {
        if only_files || !word.as_bytes().starts_with(b"-") || word == "-" {
            options.take_file(word)?;
        } else if word == "--" {
            only_files = true;
        } else {
            options.take_option(&word, &mut words)?;
        }
    }
    if options.help || options.version {
        return Ok(options);
    }
    options.agree()
}

impl Options {
    fn take_file(&mut self, file: OsString) -> Result<(), Failure> {
        match self.file.replace(file) {
            None => Ok(()),
            Some(_) => Err(usage("more than one input file")),
        }
    }

    fn take_mode(&mut self, mode: Mode) -> Result<(), Failure> {
        let (one, other) = (self.mode.option(), mode.option());
        if self.mode != Mode::Run && self.mode != mode {
            return Err(usage(&format!("{one} and {other} exclude each other")));
        }
        self.mode = mode;
        Ok(())
    }

    fn take_option(
        &mut self,
        word: &OsStr,
        rest: &mut impl Iterator<Item = OsString>,
    ) -> Result<(), Failure> {
        if let Some((name, file)) = with_file(word, rest) {
            return self.take_named_file(name, file);
        }
        match word.to_str() {
            Some("--help" | "-h") => self.help = true,
            Some("--version") => self.version = true,
            Some("--bytes") => self.take_mode(Mode::Bytes)?,
            Some("--decode") => self.take_mode(Mode::Decode)?,
            Some("--dump") => self.take_mode(Mode::Dump)?,
            Some("--check") => self.take_mode(Mode::Check)?,
            Some("--plain") => self.plain = true,
            Some("--boxes") => self.boxes = true,
            Some("--whole-grid") => self.whole_grid = true,
            Some("--force") => self.force = true,
            Some("--create") => self.create = true,
            _ => {
                let word = word.as_bytes().escape_ascii();
                return Err(usage(&format!("unknown option {word}")));
            }
        }
        Ok(())
    }

    fn take_named_file(&mut self, name: &str, file: Option<OsString>) -> Result<(), Failure> {
        let file = file.filter(|file| !file.is_empty());
        let file = file.ok_or_else(|| usage(&format!("{name} needs a file")))?;
        let place = match name {
            "--svg" => &mut self.svg,
            "--table" => &mut self.table,
            _ => &mut self.commands,
        };
        *place = Some(file);
        Ok(())
    }

    /// Refuses options that mean nothing together.
    fn agree(self) -> Result<Self, Failure> {
        let (mode, picture) = (self.mode.option(), self.svg.is_some());
        let tested = [
            (
                picture && self.mode != Mode::Run,
                format!("--svg needs lines that are run: it goes without {mode}"),
            ),
            (
                !picture && (self.boxes || self.whole_grid),
                "--boxes and --whole-grid belong to --svg".into(),
            ),
            (
                self.commands.is_some() && self.mode != Mode::Decode,
                "--commands belongs to --decode".into(),
            ),
            (
                self.table.is_some() && self.mode != Mode::Run,
                format!("--table needs lines that are run: it goes without {mode}"),
            ),
            (
                self.plain && !matches!(self.mode, Mode::Run | Mode::Decode),
                format!("--plain is about answers: it goes without {mode}"),
            ),
            (
                self.force && self.mode != Mode::Run,
                format!("--force is about pictures: it goes without {mode}"),
            ),
            (
                self.create && self.table.is_none(),
                "--create belongs to --table".into(),
            ),
            (
                matches!(self.mode, Mode::Dump | Mode::Check) && self.file.is_none(),
                format!("{mode} needs a file"),
            ),
        ];
        match tested.into_iter().find(|(met, _)| *met) {
            Some((_, what)) => Err(usage(&what)),
            None => Ok(self),
        }
    }
}

/// An option that goes with a file, which is the next word or stands behind `=`.
fn with_file(
    word: &OsStr,
    rest: &mut impl Iterator<Item = OsString>,
) -> Option<(&'static str, Option<OsString>)> {
    let names = ["--svg", "--table", "--commands"];
    for name in names {
        match word.as_bytes().strip_prefix(name.as_bytes()) {
            Some(b"") => return Some((name, rest.next())),
            Some([b'=', file @ ..]) => return Some((name, Some(OsStr::from_bytes(file).into()))),
            _ => {}
        }
    }
    None
}

fn usage(what: &str) -> Failure {
    Failure::Usage(what.into())
}

#[cfg(test)]
mod tests {
    use super::*;

    fn of(line: &str) -> Result<Options, String> {
        let words = line.split_whitespace().map(OsString::from);
        read(words).map_err(|failure| failure.to_string())
    }

    #[test]
    fn every_option() {
        let picture = Options {
            svg: Some("out.svg".into()),
            boxes: true,
            whole_grid: true,
            force: true,
            plain: true,
            file: Some("in.txt".into()),
            ..Options::default()
        };
        let line = "--boxes in.txt --svg out.svg --whole-grid --force --plain";
        assert_eq!(of(line), Ok(picture));
        let decode = Options {
            mode: Mode::Decode,
            commands: Some("in.bin".into()),
            file: Some("-".into()),
            ..Options::default()
        };
        assert_eq!(of("--decode --commands in.bin -"), Ok(decode));
        let table = Options {
            table: Some("t".into()),
            create: true,
            ..Options::default()
        };
        assert_eq!(of("--table t --create"), Ok(table));
        assert!(of("--bytes").is_ok_and(|options| options.mode == Mode::Bytes));
        assert!(of("--dump t").is_ok_and(|options| options.mode == Mode::Dump));
        assert!(of("--check t").is_ok_and(|options| options.mode == Mode::Check));
        assert!(of("-h").is_ok_and(|options| options.help));
        assert!(of("--bytes --version").is_ok_and(|options| options.version));
        let dashed = of("-- --bytes").unwrap();
        assert_eq!(
            (dashed.mode, dashed.file),
            (Mode::Run, Some("--bytes".into()))
        );
    }

    #[test]
    fn a_file_behind_an_equals_sign() {
        for name in ["--svg", "--table"] {
            assert_eq!(of(&format!("{name}=a=b")), of(&format!("{name} a=b")));
        }
        assert_eq!(of("--decode --commands=a"), of("--decode --commands a"));
        assert_eq!(of("--svg="), Err("--svg needs a file; try --help".into()));
    }

    #[test]
    fn what_is_refused() {
        let refused = [
            ("--byte", "unknown option --byte"),
            ("--svgs=x", "unknown option --svgs=x"),
            ("-x", "unknown option -x"),
            ("a b", "more than one input file"),
            ("--svg", "--svg needs a file"),
            ("--table", "--table needs a file"),
            ("--decode --commands", "--commands needs a file"),
            (
                "--bytes --decode",
                "--bytes and --decode exclude each other",
            ),
            ("--check --dump t", "--check and --dump exclude each other"),
            ("--boxes", "--boxes and --whole-grid belong to --svg"),
            ("--commands a", "--commands belongs to --decode"),
            ("--create", "--create belongs to --table"),
            (
                "--plain --check t",
                "--plain is about answers: it goes without --check",
            ),
            (
                "--force --bytes",
                "--force is about pictures: it goes without --bytes",
            ),
            ("--check", "--check needs a file"),
            ("--dump", "--dump needs a file"),
            (
                "--svg a --bytes",
                "--svg needs lines that are run: it goes without --bytes",
            ),
            (
                "--table a --decode",
                "--table needs lines that are run: it goes without --decode",
            ),
        ];
        for (line, message) in refused {
            assert_eq!(of(line), Err(format!("{message}; try --help")));
        }
    }
}
