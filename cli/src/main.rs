//! The tool of those who plan with launch rules. It reads files, asks the proved services and prints: what rules mean is theirs to say.
//! Exit status: 0 fine, 1 refused or a watch that fails, 2 wrong usage or a file that cannot be read or written.

mod about;
mod advice;
mod ask;
mod bill;
mod calendar;
mod clock;
mod columns;
mod explain;
mod farm;
mod image;
mod job;
mod output;
mod posix;
mod profile;
mod progress;
mod refused_row;
mod replay;
mod show;
mod source;
mod st;
mod stop;
mod table;
mod text;
mod trace;
mod vcd;
mod watch;

use clap::{Args, Parser, Subcommand};
use clock::Clock;
use job::Job;
use output::Output;
use source::{Rules, Taken};
use std::io::Write;
use std::path::{Path, PathBuf};
use std::process::ExitCode;
use stop::Stop;
use text::count;
use trace::Form;

const HINTS: &str = "\
Exit status: 0 fine; 1 a text, image, row or charge is refused, or a watch fails; 2 wrong usage, or a file that cannot be read or written.
`-` is standard input where a file is read, and standard output where one is written.

  rolvenko check rules.txt                 are these rules accepted?
  rolvenko trace rules.txt rows.txt        what do they do, row by row?
  rolvenko trace rules.txt rows.txt --vcd rows.vcd && gtkwave rows.vcd";

/// Launch rules: translate, check, show, print, trace, replay, bill, watch.
#[derive(Parser)]
#[command(name = "rolvenko", version, after_help = HINTS)]
struct Tool {
    #[command(subcommand)]
    command: Command,
}

#[derive(Subcommand)]
enum Command {
    /// Translate a rule text into its image
    Translate {
        rules: PathBuf,
        /// where the image goes; without it the rules are only tried
        #[arg(short, value_name = "IMAGE")]
        output: Option<PathBuf>,
    },
    /// Say whether an image is sound, or a rule text accepted
    Check {
        #[command(flatten)]
        file: Either,
    },
    /// Print an image's header and instructions with their places
    Show {
        #[command(flatten)]
        file: Either,
    },
    /// Print rules as Structured Text (IEC 61131-3)
    St {
        rules: PathBuf,
        /// where it goes; standard output by default
        #[arg(short, value_name = "FILE")]
        output: Option<PathBuf>,
    },
    /// Print the state after each row
    Trace {
        #[command(flatten)]
        run: Run,
        /// comma-separated values
        #[arg(long, conflicts_with = "vcd")]
        csv: bool,
        /// a waveform for GTKWave
        #[arg(long, value_name = "FILE")]
        vcd: Option<PathBuf>,
    },
    /// Print the trace found: the start, and the state after each accepted row with its steps
    Replay {
        #[command(flatten)]
        run: Run,
        /// comma-separated values
        #[arg(long)]
        csv: bool,
    },
    /// Bill the licences that a variable counts
    Charge {
        #[command(flatten)]
        run: Run,
        /// the variable
        #[arg(long, value_name = "NAME")]
        of: String,
        /// cents per licence-hour
        #[arg(long, value_name = "CENTS", allow_hyphen_values = true)]
        rate: i32,
        /// licences that go at this rate; those above it go at --rate-above
        #[arg(long, value_name = "COUNT", default_value_t = i32::MAX, allow_hyphen_values = true, hide_default_value = true)]
        threshold: i32,
        /// cents per licence-hour above the threshold
        #[arg(long, value_name = "CENTS", default_value_t = 0, allow_hyphen_values = true)]
        rate_above: i32,
        /// minutes of each row; those of --every with a farm table, else 1
        #[arg(long, allow_hyphen_values = true)]
        minutes: Option<i32>,
    },
    /// Say where the watches of a rule text first fail over its rows
    Watch {
        #[command(flatten)]
        run: Run,
    },
    /// Say whether rules can ever stop in service
    Closed { rules: PathBuf },
    /// Print a farm table for a zone of the system's zone database
    Table {
        zone: String,
        /// first year; this one by default
        #[arg(long, value_name = "YEAR", allow_hyphen_values = true)]
        from: Option<i64>,
        /// last year; the one after the first by default
        #[arg(long, value_name = "YEAR", allow_hyphen_values = true)]
        to: Option<i64>,
    },
}

/// An image, or rules.
#[derive(Args)]
struct Either {
    file: PathBuf,
    /// take the file for an image, whatever its bytes
    #[arg(long, conflicts_with = "rules")]
    image: bool,
    /// take the file for rules
    #[arg(long)]
    rules: bool,
}

impl Either {
    fn taken(&self) -> Option<Taken> {
        match (self.image, self.rules) {
            (true, _) => Some(Taken::Image),
            (_, true) => Some(Taken::Rules),
            _ => None,
        }
    }
}

/// Rules, rows and local time.
#[derive(Args)]
struct Run {
    /// a rule text; rows may stand behind a line that is just `#`
    rules: PathBuf,
    /// rows, a line each; `-` is standard input
    #[arg(conflicts_with = "zeros")]
    rows: Option<PathBuf>,
    /// so many rows of zeros, for rules whose inputs the clock fills
    #[arg(long, value_name = "COUNT", allow_hyphen_values = true)]
    zeros: Option<u64>,
    /// a farm table: `day`, `minute` and `again` of each row are filled from it
    #[arg(long, value_name = "FILE", requires = "start")]
    table: Option<PathBuf>,
    /// the UTC minute of the first row, from 1 January 1970, or its time, as 2026-10-24T23:00Z
    #[arg(long, value_name = "MINUTE", requires = "table", allow_hyphen_values = true, value_parser = calendar::minute)]
    start: Option<i64>,
    /// minutes from row to row
    #[arg(long, value_name = "MINUTES", default_value_t = 1, allow_hyphen_values = true, value_parser = clap::value_parser!(i64).range(1..=i64::from(i32::MAX)))]
    every: i64,
}

impl Run {
    fn job(&self) -> Result<Job, Stop> {
        Job::new(Rules::read(&self.rules)?, self.rows.as_deref(), self.zeros, self.clock()?)
    }

    fn clock(&self) -> Result<Option<Clock>, Stop> {
        match (&self.table, self.start) {
            (Some(path), Some(first)) => Clock::read(path, first, self.every).map(Some),
            _ => Ok(None),
        }
    }
}

fn translate(path: &Path, output: Option<&Path>) -> Result<(), Stop> {
    let farm = farm::Farm::new(&Rules::read(path)?)?;
    match output {
        Some(to) => {
            let mut image = Output::open(to, &[path.to_owned()])?;
            image.put(&farm.image)?;
            image.end()
        }
        None => Ok(writeln!(std::io::stdout(), "{}: {}, {}", path.display(), count(farm.image.len(), "byte"), count(farm.read.code.len(), "instruction"))?),
    }
}

fn run(command: Command) -> Result<(), Stop> {
    match command {
        Command::Translate { rules, output } => translate(&rules, output.as_deref()),
        Command::Check { file } => show::check(&file.file, file.taken()),
        Command::Show { file } => show::show(&file.file, file.taken()),
        Command::St { rules, output } => st::st(&rules, output.as_deref()),
        Command::Trace { run, csv, vcd } => {
            let form = vcd.map_or(if csv { Form::Csv } else { Form::Plain }, Form::Vcd);
            trace::trace(run.job()?, form)
        }
        Command::Charge { run, of, rate, threshold, rate_above, minutes } => {
            let row = run.table.as_ref().map_or(1, |_| i32::try_from(run.every).unwrap_or(i32::MAX));
            let rates = bill::Rates { threshold, rate, above: rate_above, minutes: minutes.unwrap_or(row) };
            bill::bill(run.job()?, &of, &rates)
        }
        Command::Watch { run } => watch::watch(run.job()?),
        Command::Replay { run, csv } => replay::replay(run.job()?, csv),
        Command::Closed { rules } => profile::profile(&Rules::read(&rules)?),
        Command::Table { zone, from, to } => {
            let from = from.unwrap_or_else(calendar::this_year);
            table::print(&zone, from, to.unwrap_or(from.saturating_add(1)))
        }
    }
}

fn main() -> ExitCode {
    match run(Tool::parse().command) {
        Ok(()) | Err(Stop::Closed) => ExitCode::SUCCESS,
        Err(Stop::Refused) => ExitCode::from(1),
        Err(Stop::Failed(message)) => {
            stop::tell(&format!("rolvenko: {message}\n"));
            ExitCode::from(2)
        }
    }
}
