//! The command line.

use crate::fault::Fault;
use crate::label::{Asked, LabelWish};
use crate::plain::{time_of, WriteWish};
use crate::plot::PlotWish;
use crate::report::ReportWish;
use crate::show::{Form, ShowWish};
use crate::stream::STANDARD;
use crate::trace::TraceWish;

const HELP: &str = "\
curlew: make, read, check and draw call logs of the Presscurlew gate

  curlew write [IN.txt] [-o OUT.log]         plain text to a log
  curlew show LOG [ANSWERS]                  a table: call, answer, counts, what waits, air, the wait
  curlew check LOG ANSWERS                   were ceiling and floor kept, and do the counts add up
  curlew plot LOG [ANSWERS] -o OUT.svg       a picture of a run
  curlew label --profile P --poll T          how long a warning may wait, how many trailers a site needs
  curlew report LOG ANSWERS -o OUT.html      one page: verdict, figures, counts, pictures, lost warnings
  curlew trace --id N LOG [ANSWERS]          the life of a packet: its offers, the polls, how it left
  curlew --help | --version                  'curlew COMMAND --help' says more on one command

LOG is a call log: records of 16 bytes. ANSWERS is what the program wrote for it:

  replay <my.log >my.out

The exit status of replay is always 0: a last line of END or TORN is the sign that its output is
whole. A name of - is standard input or output. A pipe is read once; one that would have to be
read twice, or is both LOG and ANSWERS, is refused. An output that is one of the inputs is refused
too, whatever name it has there. Long input is read piece by piece, and how far it is goes to
standard error.

Exit status: 0 done, and of check: all was kept; 1 a guarantee was not kept, or an answer is
wrong; 2 bad usage, a file that can't be read, or input that is not what it should be.
";

const WRITE_HELP: &str = "\
curlew write [IN.txt] [-o OUT.log]: plain text to a log

Reads standard input without IN.txt, writes to standard output without -o. One call a line;
# starts a comment; blank lines are nothing.

  make PROFILE at STAMP                      a full queue drops its oldest for the new one
  make PROFILE keep-oldest at STAMP          a full queue keeps them, and refuses the new one with 8
  sample BUSY at STAMP                       BUSY of 1,000 probes were busy
  sample BUSY of PROBES at STAMP             BUSY of so many probes
  offer ID priority P ontime T lifetime T at STAMP
  poll at STAMP
  raw B B B ..                               any record: 16 bytes, 00 to ff
  tail B B ..                                1 to 15 bytes left over; nothing may come after

STAMP is the radio's count, 0 to 4294967295, or +T or -T from the stamp before; it wraps.
T is a time in µs, or with a unit: 400, 400us, 400µs, 50ms, 1.5s, 2min, 1h. _ may stand between
digits. A byte order mark at the start is nothing.
Numbers that the gate refuses may be written, as long as the record has room for them. The way
of a make is drop-oldest, the default, or keep-oldest, or any number after the word way.

  make 2 at 4294967000
  offer 7 priority 2 ontime 400 lifetime 1s at +100      # 7 waits up to a second
  poll at +100
";

const SHOW_HELP: &str = "\
curlew show [--from N] [--first N] [--brief] [--csv] LOG [ANSWERS]: a log as a table
curlew show [--from N] [--first N] --plain LOG: a log in the plain form

A row a record: its number, the run's time as h:mm:ss and µs, the call (an offer with its
identifier, priority, on-time and lifetime), the answer, how many packets were accepted, sent,
expired and displaced so far, how many wait in the queue of each priority, the air time in the
last second, and L and the level (profiles 1 and 2), the duty (profile 3) or the latest load
(profile 4), with the wait in ms that it asks for: after the end of a packet, or in profile 3 from
its start on. Packets are counted from calls and answers alone, an expired one when it is removed:
at the first offer or poll that finds it expired. An offer that found its queue full says which
packet it displaced, behind its answer; a poll that is closed for longer than the wait says full:
the second is. Without ANSWERS, the answers are those of the second program.

A row starts with ! where an answer is wrong, and the reason stands below it. What is then no
longer known is told as ? up to the next make. No line has more than 120 places: what is too long
for its column goes on in it, a line lower, and a count from 100,000 on is cut to k, M and so on.

  --from N     start at record N; a wrong answer before it is shown all the same
  --first N    stop after N rows, and read no more
  --brief      leave out samples, and polls that sent nothing
  --csv        the table for programs, each number in full: docs/TOOLS.md says what is in it
  --plain      show the log in the plain form that 'curlew write' reads, and nothing else
";

const CHECK_HELP: &str = "\
curlew check [--json] [--faults N] LOG ANSWERS: were ceiling and floor kept, do the counts add up

Keeps a book of each run (a make that was ready, and the calls up to the next make) from the
calls and the answers alone, and says of each run:

  Counts     accepted = sent + expired + displaced + waiting at every record, and each of the
             first four is what the second program's state has counted
  Ceiling    in any window of W µs, 100 x air time is at most 3 W + 400,000; profile 4 doesn't
             promise that
  Second     in any second, one of its ends left out, at most 30 ms are admitted; admissions are
             at least 25 ms apart; the last second is what the second program's state holds
  Floor      a poll that finds a packet 1.001 s (profile 1), 1.0005 s (profile 2), 1 s
             (profile 3) or 1.004 s (profile 4) or more after the last admission sends
  Turn       of each priority in order; one of priority 0 sees no more go than came before it;
             a packet is displaced only by the fifth or a later offer of its priority after it
  Delivery   one of priority 0 with k before it and polls at most p apart goes in time:
             no later than (k + 1) x (floor + p) after it came, if it lives longer than that
             and is not displaced; where no packet did, it is not promised
  Answers    each is what the second program answers

with the nearest that the run came to its limit. After a wrong answer nobody knows what the gate
held; up to the next make, each answer is then held to the second program's, and each that differs
is told. 20 runs are told in full, 1,000 in a line each.

Then all runs together: air added up across makes, second and ceiling over it. A make starts
afresh, so a host that sends right after a restart can break what each run keeps. The time from
one run to the next is taken from the stamps, which wrap each 71 min 35 s: the least that they
allow, so it may have been longer. A step of half a turn or more is a count that went back or
began anew: the pause is then not known, and nothing is added up over it.

ANSWERS must fit the log: a line a record, then END or TORN. Exit status 1 if anything was not
kept, across restarts too, 2 if the answers don't fit.

  --faults N   tell N wrong answers one by one (50); how many more there are is said
  --json       the verdict for programs: docs/TOOLS.md says what is in it

For a third opinion, the plain engine plays the log too, which keeps one list in place of four
queues and is proved to answer alike. Its answers go into a check as any others:

  plainhost-replay <my.log >plain.out
  curlew check my.log plain.out
";

const PLOT_HELP: &str = "\
curlew plot [--run N] [--from T] [--to T] LOG [ANSWERS] -o OUT.svg: a picture of a run

Over the run's time: the channel load, the level, duty or wait, what waits in each queue, what was
sent, what expired, was displaced or refused, the time since the last admission beside the floor,
and the on-time admitted in the last second beside its limit of 30 ms. The counts are those of the
part that is drawn. Above 2,000 offers there are packets a minute, stacked by priority, and bands
from the least to the greatest with the median, told to a 400th of the scale; so it is with the
load above 2,000 samples, and with what passes between packets above 300 of them. Where an answer
is wrong the picture ends and says so, and the exit status is 1. LOG and ANSWERS are read twice,
so they can't be -.

  --run N      the Nth run of the log (the first)
  --from T     a part of the run: from this time on, in µs or with a unit, as 500ms or 12s
  --to T       up to this time
  --title T    a title of your own
";

const LABEL_HELP: &str = "\
curlew label --profile P --poll T [--before K] [--messages N] [--stretch T]: what the label promises
curlew label --page LABEL.md -o OUT.html: the label as a page to print

The first answers the hire desk: how long may a warning wait, how many messages a minute does one
trailer send at least, how many trailers are enough for so many, and how long is one on air. Each
figure comes with what must be so for it. docs/LABEL.md has the formulas, and the theorem that
proves each.

  --profile P     1 to 5, as the trailer's gate is made
  --poll T        the longest time between two polls of its host, as 50ms
  --before K      so many of priority 0 wait before the warning: 0 to 4 (0)
  --messages N    so many messages a minute are to go
  --stretch T     how long it is on air in any such stretch, too, as 1.5s
  --page FILE     the label's text; what it marks for the customer is the first sheet of the page
";

const REPORT_HELP: &str = "\
curlew report [--title T] LOG ANSWERS -o OUT.html: one page on a log and its answers

The page has the verdict of 'curlew check', the label's figures and beside each what the log has,
packets counted by priority with the longest wait, each warning (a packet of priority 0) that was
not sent with what became of it and when, the runs, and pictures of up to 6 runs: those with wrong
answers, then the longest. It needs no other file and no network, and prints on A4.

  --title T    a title of your own

200 warnings, 50 runs and 50 wrong answers are listed one by one; of more, how many they are.
LOG and ANSWERS are read twice, so they can't be -. The page is written whatever the verdict is;
the exit status is that of check: 1 if anything was not kept.
";

const TRACE_HELP: &str = "\
curlew trace --id N LOG [ANSWERS]: the life of a packet

For each offer of the identifier N (a host may use one again): its answer, what waited before it,
the polls that passed it by and why (the gate was closed, another went first), and how it left and
when: sent, expired, displaced, or still waiting. Polls in a row that found the gate closed are one
line. Without ANSWERS, the answers are those of the second program. Exit status 1 if an answer of
the log is wrong: from there on to the next make, what became of a packet is not known.
";

/// What was asked for.
pub enum Command {
    /// A text to say.
    Say(String),
    /// `curlew write`.
    Write(WriteWish),
    /// `curlew show`.
    Show(ShowWish),
    /// `curlew check`.
    Check(CheckWish),
    /// `curlew plot`.
    Plot(PlotWish),
    /// `curlew label`.
    Label(LabelWish),
    /// `curlew report`.
    Report(ReportWish),
    /// `curlew trace`.
    Trace(TraceWish),
}

/// What `curlew check` was asked for.
pub struct CheckWish {
    /// The log.
    pub log: String,
    /// The program's output.
    pub answers: String,
    /// Whether to say it in JSON.
    pub json: bool,
    /// So many wrong answers are told one by one.
    pub faults: u64,
}

/// So many wrong answers are told if nobody asks for more.
const FAULTS_TOLD: u64 = 50;

/// The words of the command line.
pub fn words() -> Result<Vec<String>, Fault> {
    let mut words = Vec::new();
    for word in std::env::args_os().skip(1) {
        match word.into_string() {
            Ok(word) => words.push(word),
            Err(word) => return Err(usage(&format!("{word:?} is no text"))),
        }
    }
    Ok(words)
}

/// The command of some words.
pub fn parse(words: &[String]) -> Result<Command, Fault> {
    let Some((first, rest)) = words.split_first() else {
        return Err(usage("there is no command"));
    };
    let help = match first.as_str() {
        "--help" | "-h" | "help" => return Ok(Command::Say(HELP.to_string())),
        "--version" | "-V" => {
            let version = env!("CARGO_PKG_VERSION");
            return Ok(Command::Say(format!("curlew {version}\n")));
        }
        "write" => WRITE_HELP,
        "show" => SHOW_HELP,
        "check" => CHECK_HELP,
        "plot" => PLOT_HELP,
        "label" => LABEL_HELP,
        "report" => REPORT_HELP,
        "trace" => TRACE_HELP,
        other => return Err(usage(&format!("there is no command '{other}'"))),
    };
    if rest.iter().any(|word| word == "--help" || word == "-h") {
        return Ok(Command::Say(help.to_string()));
    }
    match first.as_str() {
        "write" => write(Given::of(rest, &["-o"], &[])?),
        "show" => show(Given::of(
            rest,
            &["--from", "--first"],
            &["--plain", "--csv", "--brief"],
        )?),
        "check" => check(Given::of(rest, &["--faults"], &["--json"])?),
        "report" => report(Given::of(rest, &["-o", "--title"], &[])?),
        "trace" => trace(Given::of(rest, &["--id"], &[])?),
        "label" => label(Given::of(
            rest,
            &[
                "--profile",
                "--poll",
                "--before",
                "--messages",
                "--stretch",
                "--page",
                "-o",
            ],
            &[],
        )?),
        _ => plot(Given::of(
            rest,
            &["-o", "--run", "--title", "--from", "--to"],
            &[],
        )?),
    }
}

fn write(mut given: Given) -> Result<Command, Fault> {
    given.at_most(1)?;
    let output = given.take("-o").unwrap_or(STANDARD.to_string());
    let input = given.names.pop().unwrap_or(STANDARD.to_string());
    Ok(Command::Write(WriteWish { input, output }))
}

fn show(mut given: Given) -> Result<Command, Fault> {
    given.at_most(2)?;
    let from = given.number("--from")?.unwrap_or(1);
    let first = given.number("--first")?;
    let form = match (given.has("--plain"), given.has("--csv")) {
        (false, false) => Form::Table,
        (true, false) => Form::Plain,
        (false, true) => Form::Csv,
        (true, true) => return Err(usage("only one of --plain and --csv can be there")),
    };
    let brief = given.has("--brief");
    let (log, answers) = given.log_and_answers()?;
    if form == Form::Plain && (brief || answers.is_some()) {
        return Err(usage("--plain shows the log alone: no --brief, no ANSWERS"));
    }
    Ok(Command::Show(ShowWish {
        log,
        answers,
        from,
        first,
        brief,
        form,
    }))
}

fn check(mut given: Given) -> Result<Command, Fault> {
    given.at_most(2)?;
    let json = given.has("--json");
    let faults = given.number("--faults")?.unwrap_or(FAULTS_TOLD);
    let (log, answers) = given.log_and_answers()?;
    let Some(answers) = answers else {
        return Err(usage("the name of the ANSWERS is missing"));
    };
    Ok(Command::Check(CheckWish {
        log,
        answers,
        json,
        faults,
    }))
}

fn plot(mut given: Given) -> Result<Command, Fault> {
    given.at_most(2)?;
    let run = given.number("--run")?.unwrap_or(1);
    let title = given.take("--title");
    let from = given.time("--from")?;
    let to = given.time("--to")?;
    let Some(output) = given.take("-o") else {
        return Err(usage("-o and the name of the picture are missing"));
    };
    let (log, answers) = given.log_and_answers()?;
    if log == STANDARD || answers.as_deref() == Some(STANDARD) {
        return Err(usage(
            "plot reads its input twice: it must be a file, not -",
        ));
    }
    Ok(Command::Plot(PlotWish {
        log,
        answers,
        output,
        run,
        title,
        from,
        to,
    }))
}

fn label(mut given: Given) -> Result<Command, Fault> {
    given.at_most(0)?;
    if let Some(input) = given.take("--page") {
        let Some(output) = given.take("-o") else {
            return Err(usage("-o and the name of the page are missing"));
        };
        given.nothing_else()?;
        return Ok(Command::Label(LabelWish::Page { input, output }));
    }
    let asked = Asked {
        profile: given.needed("--profile")?,
        poll: match given.time("--poll")? {
            Some(poll) => poll,
            None => return Err(usage("--poll is missing")),
        },
        before: given.whole("--before")?.unwrap_or(0),
        messages: given.number("--messages")?,
        stretch: given.time("--stretch")?,
    };
    given.nothing_else()?;
    Ok(Command::Label(LabelWish::Figures(asked)))
}

fn report(mut given: Given) -> Result<Command, Fault> {
    given.at_most(2)?;
    let title = given.take("--title");
    let Some(output) = given.take("-o") else {
        return Err(usage("-o and the name of the page are missing"));
    };
    let (log, answers) = given.log_and_answers()?;
    let Some(answers) = answers else {
        return Err(usage("the name of the ANSWERS is missing"));
    };
    Ok(Command::Report(ReportWish {
        log,
        answers,
        output,
        title,
    }))
}

fn trace(mut given: Given) -> Result<Command, Fault> {
    given.at_most(2)?;
    let Some(id) = given.take("--id") else {
        return Err(usage("--id and the packet's identifier are missing"));
    };
    let Ok(id) = id.parse::<u32>() else {
        let most = u32::MAX;
        return Err(usage(&format!(
            "--id needs a number from 0 to {most}, not '{id}'"
        )));
    };
    let (log, answers) = given.log_and_answers()?;
    Ok(Command::Trace(TraceWish { id, log, answers }))
}

/// The words after the command, sorted.
#[derive(Debug)]
struct Given {
    names: Vec<String>,
    values: Vec<(String, String)>,
    flags: Vec<String>,
}

impl Given {
    /// Sorts the words: options with a value, flags, and names.
    fn of(words: &[String], valued: &[&str], flags: &[&str]) -> Result<Given, Fault> {
        let mut given = Given {
            names: Vec::new(),
            values: Vec::new(),
            flags: Vec::new(),
        };
        let mut words = words.iter();
        while let Some(word) = words.next() {
            if valued.contains(&word.as_str()) {
                let Some(value) = words.next() else {
                    return Err(usage(&format!("{word} needs a value")));
                };
                if given.values.iter().any(|(name, _)| name == word) {
                    return Err(usage(&format!("{word} is there twice")));
                }
                given.values.push((word.clone(), value.clone()));
            } else if flags.contains(&word.as_str()) {
                given.flags.push(word.clone());
            } else if word.starts_with('-') && word != STANDARD {
                return Err(usage(&format!("there is no option '{word}' here")));
            } else {
                given.names.push(word.clone());
            }
        }
        Ok(given)
    }

    fn has(&self, flag: &str) -> bool {
        self.flags.iter().any(|word| word == flag)
    }

    fn at_most(&self, most: usize) -> Result<(), Fault> {
        match self.names.get(most) {
            Some(word) => Err(usage(&format!("'{word}' is one name too many"))),
            None => Ok(()),
        }
    }

    fn take(&mut self, option: &str) -> Option<String> {
        let at = self.values.iter().position(|(name, _)| name == option)?;
        Some(self.values.remove(at).1)
    }

    /// What is left over does not go with the rest.
    fn nothing_else(&self) -> Result<(), Fault> {
        match self.values.first() {
            Some((name, _)) => Err(usage(&format!("{name} does not go with the other options"))),
            None => Ok(()),
        }
    }

    /// A number from 0 on.
    fn whole(&mut self, option: &str) -> Result<Option<u64>, Fault> {
        let Some(value) = self.take(option) else {
            return Ok(None);
        };
        match value.parse() {
            Ok(number) => Ok(Some(number)),
            Err(_) => Err(usage(&format!(
                "{option} needs a number from 0 on, not '{value}'"
            ))),
        }
    }

    /// A number that must be there. One that is too great is as good as any that is not known.
    fn needed(&mut self, option: &str) -> Result<u32, Fault> {
        match self.whole(option)? {
            Some(number) => Ok(u32::try_from(number).unwrap_or(u32::MAX)),
            None => Err(usage(&format!("{option} is missing"))),
        }
    }

    /// A number of 1 or more.
    fn number(&mut self, option: &str) -> Result<Option<u64>, Fault> {
        let Some(value) = self.take(option) else {
            return Ok(None);
        };
        match value.parse() {
            Ok(number) if number > 0 => Ok(Some(number)),
            _ => Err(usage(&format!(
                "{option} needs a number from 1 on, not '{value}'"
            ))),
        }
    }

    /// A time.
    fn time(&mut self, option: &str) -> Result<Option<u64>, Fault> {
        let Some(value) = self.take(option) else {
            return Ok(None);
        };
        match time_of(&value) {
            Some(time) => Ok(Some(time)),
            None => Err(usage(&format!(
                "{option} needs a time, as 12s, not '{value}'"
            ))),
        }
    }

    fn log_and_answers(&mut self) -> Result<(String, Option<String>), Fault> {
        let mut names = self.names.drain(..);
        let Some(log) = names.next() else {
            return Err(usage("the name of the LOG is missing"));
        };
        let answers = names.next();
        if log == STANDARD && answers.as_deref() == Some(STANDARD) {
            return Err(usage("only one of LOG and ANSWERS can be -"));
        }
        Ok((log, answers))
    }
}

/// Bad usage, in words.
fn usage(text: &str) -> Fault {
    Fault::bad(format!("{text}; 'curlew --help' says how"))
}
