//! `stops-text`: the stop service in words. Lines become commands, the proved service carries
//! them out, and its records become words and a picture.

mod act;
mod acts;
mod bytes;
mod check;
mod command;
mod console;
mod decode;
mod desk;
mod dump;
mod earlier;
mod grid;
mod help;
mod input;
mod line;
mod lines;
mod lists;
mod options;
mod output;
mod picture;
mod point;
mod reading;
mod record;
mod replace;
mod run;
mod script;
mod service;
mod session;
mod show;
mod status;
mod step;
mod store;
mod table;
mod teller;
mod tour;
mod words;

use console::Console;
use desk::Desk;
use input::Input;
use options::{Mode, Options};
use output::Output;
use script::Script;
use service::Service;
use session::Session;
use status::{Failure, Met};
use std::io::{self, BufWriter, IsTerminal, Write};
use std::path::PathBuf;
use std::process::ExitCode;
use store::Store;

const OUTPUT_LEN: usize = 65_536;

type Out = BufWriter<Box<dyn Write>>;

fn main() -> ExitCode {
    let done = options::read(std::env::args_os().skip(1)).and_then(|options| serve(&options));
    let code = match done {
        Ok(met) => met.code(),
        Err(failure) => {
            // Nobody may read it; the code says it too.
            let _ = writeln!(io::stderr(), "stops-text: {failure}");
            failure.code()
        }
    };
    ExitCode::from(code)
}

fn serve(options: &Options) -> Result<Met, Failure> {
    if options.help {
        return print(help::HELP);
    }
    if options.version {
        return print(&format!("{}\n", desk::VERSION));
    }
    match options.mode {
        Mode::Run => run_lines(options),
        Mode::Bytes => {
            let input = Input::open(options.file.as_deref())?;
            let mut desk = desk(&input, false);
            bytes::write(Script::new(input), &mut desk)
        }
        Mode::Decode => {
            let commands = options.commands.as_deref().map(input::read_file);
            let commands = commands.transpose()?;
            let input = Input::open(options.file.as_deref())?;
            let mut desk = desk(&input, false);
            decode::decode(input, commands.as_deref(), options.plain, &mut desk)
        }
        Mode::Dump | Mode::Check => {
            let file = options.file.as_deref().unwrap_or_default();
            let mut input = Input::open(Some(file))?;
            let mut desk = desk(&input, false);
            let table = input.whole()?;
            match options.mode {
                Mode::Check => check::tell(&table, &mut desk),
                _ => dump::dump(file, table, &mut desk),
            }
        }
    }
}

fn print(text: &str) -> Result<Met, Failure> {
    let mut out = Output::new(io::stdout());
    let written = out.write_all(text.as_bytes()).and_then(|()| out.flush());
    written.map(|()| Met::default()).map_err(Failure::writing)
}

fn run_lines(options: &Options) -> Result<Met, Failure> {
    let picture = options.svg.as_deref();
    let to_output = picture.is_some_and(|file| file == "-");
    let mut session = session(options)?;
    if let Some(file) = picture.filter(|_| !to_output) {
        session.look.guard.allow(file)?;
    }
    let input = Input::open(options.file.as_deref())?;
    let mut desk = desk(&input, to_output);
    run::run(&mut session, Script::new(input), &mut desk)?;
    session.save()?;
    match picture {
        Some(_) if to_output => print(&session.picture()?).map(|_| session.met),
        Some(file) => session.draw(file).map(|()| session.met),
        None => Ok(session.met),
    }
}

fn session(options: &Options) -> Result<Session, Failure> {
    let mut session = match &options.table {
        None => Session::new(Service::new()?),
        Some(file) => {
            let (store, service) = Store::open(file, options.create)?;
            Session {
                store: Some(store),
                ..Session::new(service)
            }
        }
    };
    session.plain = options.plain;
    session.keep_on = options.svg.is_some() || options.table.is_some();
    session.look.boxes = options.boxes;
    session.look.whole_grid = options.whole_grid;
    session.look.guard.force = options.force;
    session.look.guard.inputs = inputs(options);
    Ok(session)
}

/// What a run reads.
fn inputs(options: &Options) -> Vec<PathBuf> {
    let lines = match options.file.as_deref() {
        Some(file) if file != "-" => file.into(),
        _ => PathBuf::from("/dev/stdin"),
    };
    let table = options.table.as_ref().map(PathBuf::from);
    [lines].into_iter().chain(table).collect()
}

/// `aside`: answers go to standard error, since a picture goes to standard output.
fn desk(input: &Input, aside: bool) -> Desk<Out, io::Stderr> {
    let stdout = io::stdout();
    let shared = stdout.is_terminal() && !aside;
    let out: Box<dyn Write> = match aside {
        true => Box::new(io::stderr()),
        false => Box::new(stdout.lock()),
    };
    Desk {
        out: Output::new(BufWriter::with_capacity(OUTPUT_LEN, out)),
        console: Console::new(input.size, input.typed),
        shared,
        talk: shared && input.typed,
    }
}
