//! The page: one file of HTML, with its style and its pictures in it.

use crate::check;
use crate::follow::{size, Whole};
use crate::plain::way;
use crate::plot::{file_name, page::STYLE};
use crate::report::figures::{of_runs, Figure, Measured};
use crate::report::lost::{Lost, Warning, FATES};
use crate::report::{Gathered, Line, ReportWish};
use crate::svg::escaped;
use crate::tally::{Of, Tally, NO_PRIORITY};
use crate::text::{count, grouped, moment, span};

/// Readable at the width of a telephone, and on A4.
const LOOK: &str = "\
* { box-sizing: border-box; }
body { font: 16px/1.45 'Helvetica Neue', Helvetica, Arial, 'Liberation Sans', sans-serif; color: #222; background: #fff;
  max-width: 1180px; margin: 0 auto; padding: 24px; }
h1 { font-size: 26px; margin: 0 0 6px; overflow-wrap: anywhere; }
h2 { font-size: 19px; margin: 34px 0 8px; border-bottom: 2px solid #d8dce1; padding-bottom: 4px; break-after: avoid; }
h3 { font-size: 16px; margin: 20px 0 6px; break-after: avoid; }
p { margin: 6px 0 10px; max-width: 76ch; overflow-wrap: anywhere; }
code { font-size: 14px; overflow-wrap: anywhere; }
.verdict { font-size: 18px; font-weight: bold; padding: 12px 16px; border-left: 8px solid; max-width: none; margin: 14px 0; }
.good { border-color: #007a5a; background: #eaf6f2; }
.bad { border-color: #c00000; background: #fbeaea; }
.scroll { overflow-x: auto; }
table { border-collapse: collapse; font-size: 14px; margin: 4px 0 8px; }
th, td { padding: 4px 12px 4px 0; text-align: left; vertical-align: top; border-bottom: 1px solid #e1e4e8; }
th { font-weight: bold; border-bottom: 2px solid #9aa2ab; }
.number { text-align: right; font-variant-numeric: tabular-nums; white-space: nowrap; }
.wide { min-width: 11em; }
.mark { display: inline-block; width: 10px; height: 10px; margin-right: 7px; }
.m0 { background: #d55e00; } .m1 { background: #0072b2; } .m2 { background: #009e73; }
.m3 { background: #9467a8; } .m4 { background: #777; }
.wrong { color: #a80000; font-weight: bold; }
.small { font-size: 13px; color: #555; }
ul { padding-left: 20px; } li { margin: 3px 0; overflow-wrap: anywhere; }
svg.picture { display: block; width: 100%; height: auto; }
.hint { display: none; }
@media (max-width: 640px) {
  body { padding: 12px; font-size: 15px; }
  h1 { font-size: 22px; }
  table { font-size: 13px; }
  th, td { padding-right: 9px; }
  svg.picture { width: 900px; }
  .hint { display: block; }
}
@page { size: A4; margin: 14mm; }
@media print {
  body { padding: 0; font-size: 11pt; max-width: none; }
  p { max-width: none; }
  svg .tick, svg .note, svg .limit-name { font-size: 13px; }
  svg .name, svg .facts { font-size: 15px; }
  table { font-size: 9pt; }
  tr, .verdict, .figure { break-inside: avoid; }
  thead { display: table-header-group; }
  .scroll { overflow: visible; }
  .hint { display: none; }
  svg.picture { width: 100%; }
  * { -webkit-print-color-adjust: exact; print-color-adjust: exact; }
}
";

/// The whole page.
pub fn page(
    wish: &ReportWish,
    gathered: &Gathered,
    whole: &Whole,
    pictures: &[(u64, String)],
) -> String {
    let name = file_name(&wish.log);
    let title = wish.title.as_deref().unwrap_or(&name);
    let body = [
        verdict(wish, gathered, whole),
        faults(gathered),
        runs(gathered, whole),
        figures(&gathered.measured, whole),
        packets(gathered),
        drawn(pictures, whole.runs),
        warnings(gathered),
        end(wish),
    ];
    format!(
        "<!DOCTYPE html>\n<html lang=\"en\">\n<head>\n<meta charset=\"utf-8\"/>\n\
         <meta name=\"viewport\" content=\"width=device-width, initial-scale=1\"/>\n\
         <title>{title}</title>\n<style>\n{STYLE}{LOOK}</style>\n</head>\n<body>\n<h1>{title}</h1>\n{}</body>\n</html>\n",
        body.concat(),
        title = escaped(title)
    )
}

/// A table: its head, and rows of cells that are HTML already. A column whose
/// name ends in # has numbers, one whose name ends in + has sentences.
fn table(head: &[&str], rows: &[Vec<String>]) -> String {
    let class = |at: usize| match head[at].chars().last() {
        Some('#') => " class=\"number\"",
        Some('+') => " class=\"wide\"",
        _ => "",
    };
    let mut text = "<div class=\"scroll\"><table>\n<thead><tr>".to_string();
    for (at, name) in head.iter().enumerate() {
        let name = name.trim_end_matches(['#', '+']);
        text += &format!("<th scope=\"col\"{}>{name}</th>", class(at));
    }
    text += "</tr></thead>\n<tbody>\n";
    for row in rows {
        let cells = row.iter().enumerate();
        let cells = cells.map(|(at, cell)| format!("<td{}>{cell}</td>", class(at)));
        text += &format!("<tr>{}</tr>\n", cells.collect::<String>());
    }
    text + "</tbody>\n</table></div>\n"
}

fn verdict(wish: &ReportWish, gathered: &Gathered, whole: &Whole) -> String {
    let class = match gathered.runs.kept(whole) {
        true => "good",
        false => "bad",
    };
    format!(
        "<p>What the gate of a trailer was asked and what it answered: {}, with the answers in {}. {}.</p>\n\
         <p class=\"verdict {class}\">{}</p>\n\
         <p>Each call was followed in a book of its own and by a second program, and each answer held to both.</p>\n",
        escaped(&file_name(&wish.log)),
        escaped(&file_name(&wish.answers)),
        escaped(&capital(&size(whole))),
        escaped(&check::verdict(&gathered.runs, whole))
    )
}

fn capital(text: &str) -> String {
    let mut rest = text.chars();
    match rest.next() {
        Some(first) => first.to_uppercase().chain(rest).collect(),
        None => String::new(),
    }
}

/// The wrong answers, if there are any.
fn faults(gathered: &Gathered) -> String {
    let faults = &gathered.faults;
    if faults.all == 0 {
        return String::new();
    }
    let mut text = format!(
        "<h2>Wrong answers</h2>\n<p>{} wrong. From a wrong answer on to the next make nobody knows what the gate held: \
         {} there, and nothing of it is counted on this page.</p>\n<ul>\n",
        was_were(faults.all, "answer"),
        was_were(gathered.uncounted, "call")
    );
    for (_, fault) in &gathered.told {
        text += &format!("<li class=\"wrong\">{}</li>\n", escaped(fault));
    }
    if faults.all > faults.told {
        text += &format!("<li>and {} more</li>\n", grouped(faults.all - faults.told));
    }
    text + "</ul>\n"
}

/// 1 answer was, 2 answers were.
fn was_were(many: u64, one: &str) -> String {
    let word = if many == 1 { "was" } else { "were" };
    format!("{} {word}", count(many, one))
}

fn figures(measured: &[Measured], whole: &Whole) -> String {
    let mut text = "<h2>The figures, beside the label's</h2>\n\
        <p>The label says what can be counted on, however loud the neighbours are (docs/LABEL.md). \
        Beside each figure is the nearest that a run of this log came to it.</p>\n"
        .to_string();
    if measured.is_empty() {
        text += "<p>There was no run.</p>\n";
    }
    if whole.joined.broken() {
        text += "<p class=\"wrong\">All runs together do not keep them: see above.</p>\n";
    }
    for one in measured {
        let rows: Vec<Vec<String>> = one.figures().iter().map(figure).collect();
        text += &format!("<h3>{}</h3>\n", escaped(&of_runs(one)));
        text += &table(&["figure+", "the label", "this log+", ""], &rows);
    }
    text
}

fn figure(figure: &Figure) -> Vec<String> {
    let kept = match figure.kept {
        Some(true) => "kept",
        Some(false) => "<span class=\"wrong\">NOT KEPT</span>",
        None => "",
    };
    vec![
        escaped(figure.name),
        escaped(&figure.label),
        escaped(&figure.log),
        kept.to_string(),
    ]
}

fn packets(gathered: &Gathered) -> String {
    let head = [
        "priority",
        "offered#",
        "taken#",
        "sent#",
        "expired#",
        "displaced#",
        "refused#",
        "worst wait of those sent+",
    ];
    let total = &gathered.total;
    let of = |(priority, of): (usize, &Of)| row_of(priority, of);
    let some = |(priority, of): &(usize, &Of)| *priority < NO_PRIORITY || of.offered > 0;
    let mut rows: Vec<Vec<String>> = total.of.iter().enumerate().filter(some).map(of).collect();
    rows.push(all_of(total));
    format!(
        "<h2>Packets, by priority</h2>\n<p>Priority 0 is the highest: warnings. Each packet taken was sent, its lifetime \
         ended (expired), or a newer one of its priority took its place (displaced); {} still waiting when the run \
         ended{}. A refused offer was not taken at all.</p>\n{}",
        was_were(gathered.waiting, "packet"),
        match gathered.unknown {
            0 => String::new(),
            unknown => format!(", and {} waiting when an answer was wrong", was_were(unknown, "packet")),
        },
        table(&head, &rows)
    )
}

fn row_of(priority: usize, of: &Of) -> Vec<String> {
    let name = match priority {
        NO_PRIORITY => "no priority".to_string(),
        priority => format!("{priority}"),
    };
    let mut row = vec![format!("<span class=\"mark m{priority}\"></span>{name}")];
    row.extend(numbers(of));
    row.push(match of.worst {
        Some(worst) => format!(
            "{}: packet {}, sent at {}",
            span(worst.waited),
            worst.id,
            moment(worst.at)
        ),
        None => "–".to_string(),
    });
    row
}

fn numbers(of: &Of) -> [String; 6] {
    [
        of.offered,
        of.taken,
        of.sent,
        of.expired,
        of.displaced,
        of.refused,
    ]
    .map(grouped)
}

fn all_of(total: &Tally) -> Vec<String> {
    let sum = Of {
        offered: total.sum(|of| of.offered),
        taken: total.sum(|of| of.taken),
        sent: total.sum(|of| of.sent),
        expired: total.sum(|of| of.expired),
        displaced: total.sum(|of| of.displaced),
        refused: total.sum(|of| of.refused),
        worst: None,
    };
    let mut row = vec!["all".to_string()];
    row.extend(numbers(&sum));
    row.push(String::new());
    row.iter().map(|cell| format!("<b>{cell}</b>")).collect()
}

fn warnings(gathered: &Gathered) -> String {
    let lost = &gathered.lost;
    let mut text = "<h2>Warnings that were not sent</h2>\n".to_string();
    if lost.all() == 0 {
        let sent = gathered.total.of[0].sent;
        return text + &format!("<p>None. {} sent.</p>\n", was_were(sent, "warning"));
    }
    text += &format!(
        "<p>Of priority 0, {} not sent: {}. The label promises a warning that it goes if it lives longer than it may have to \
         wait, and fewer than five more are taken while it waits.</p>\n",
        was_were(lost.all(), "packet"),
        by_fate(lost)
    );
    let head = [
        "packet#",
        "record#",
        "run#",
        "offered at#",
        "what became of it+",
    ];
    let rows: Vec<Vec<String>> = lost.list.iter().map(warning).collect();
    text += &table(&head, &rows);
    let more = lost.all() - lost.list.len() as u64;
    if more > 0 {
        text += &format!(
            "<p>And {} more that are not listed. 'curlew trace' tells of any packet.</p>\n",
            grouped(more)
        );
    }
    text
}

fn by_fate(lost: &Lost) -> String {
    let some = FATES.iter().filter(|(fate, _)| lost.count(*fate) > 0);
    let texts: Vec<String> = some
        .map(|(fate, name)| format!("{} {name}", grouped(lost.count(*fate))))
        .collect();
    texts.join(", ")
}

fn warning(one: &Warning) -> Vec<String> {
    let run = one.run.map_or("no gate".to_string(), grouped);
    let offered = match one.run {
        Some(_) => moment(one.offered),
        None => "–".to_string(),
    };
    vec![
        one.id.to_string(),
        grouped(one.record),
        run,
        offered,
        escaped(&one.words),
    ]
}

fn runs(gathered: &Gathered, whole: &Whole) -> String {
    let head = [
        "run#",
        "records#",
        "profile",
        "length#",
        "pause before#",
        "taken#",
        "sent#",
        "expired#",
        "displaced#",
        "refused#",
        "waiting#",
        "",
    ];
    let rows: Vec<Vec<String>> = gathered.lines.iter().map(run).collect();
    let mut text = "<h2>Runs</h2>\n\
        <p>A run goes from one start of the gate (a make) to the next. Its time starts at 0.</p>\n"
        .to_string();
    text += &table(&head, &rows);
    let more = whole.runs - gathered.lines.len() as u64;
    if more > 0 {
        text += &format!("<p>And {} not listed.</p>\n", count(more, "more run"));
    }
    if whole.joined.restarts > 0 {
        text += "<p>All runs together, on the clock that the stamps give:</p>\n<ul>\n";
        for (name, line) in check::together(&whole.joined) {
            text += &format!("<li><b>{name}.</b> {}</li>\n", escaped(&line));
        }
        text += "</ul>\n";
    }
    text
}

fn run(line: &Line) -> Vec<String> {
    let tally = &line.tally;
    let counts = [
        tally.sum(|of| of.taken),
        tally.sum(|of| of.sent),
        tally.sum(|of| of.expired),
        tally.sum(|of| of.displaced),
        tally.sum(|of| of.refused),
    ];
    let mut row = vec![
        grouped(line.number),
        format!("{} to {}", grouped(line.first), grouped(line.last)),
        format!("{}{}", line.profile, way(line.oldway)),
        match line.faults {
            0 => moment(line.time),
            _ => format!("{}, then ?", moment(line.time)),
        },
        match (line.number, line.pause) {
            (1, _) => "–".to_string(),
            (_, Some(pause)) => span(pause),
            (_, None) => "not known".to_string(),
        },
    ];
    row.extend(counts.map(grouped));
    row.push(match line.faults {
        0 => grouped(line.waiting),
        _ => format!("{}, then ?", grouped(line.unknown)),
    });
    row.push(match line.faults {
        0 => "kept".to_string(),
        faults => format!(
            "<span class=\"wrong\">{}</span>",
            count(faults, "wrong answer")
        ),
    });
    row
}

fn drawn(pictures: &[(u64, String)], runs: u64) -> String {
    let mut text = "<h2>Pictures</h2>\n".to_string();
    if pictures.is_empty() {
        return text + "<p>There is no run to draw.</p>\n";
    }
    if runs > pictures.len() as u64 {
        text += &format!(
            "<p>{} of {} drawn: those with wrong answers first, then the longest. 'curlew plot --run N' draws any.</p>\n",
            grouped(pictures.len() as u64),
            count(runs, "run")
        );
    }
    text += "<p class=\"small hint\">The pictures are wider than this screen: push them sideways.</p>\n";
    for (_, picture) in pictures {
        text += &format!("<div class=\"scroll figure\">\n{picture}</div>\n");
    }
    text
}

fn end(wish: &ReportWish) -> String {
    let (log, answers) = (file_name(&wish.log), file_name(&wish.answers));
    let (log, answers) = (escaped(&log), escaped(&answers));
    format!(
        "<h2>To see it again</h2>\n\
         <p>Whoever has the log can play it: the proved gate gives the same answers, line by line.</p>\n\
         <ul>\n<li><code>replay &lt;{log} &gt;{answers}</code></li>\n<li><code>curlew check {log} {answers}</code></li>\n\
         <li><code>curlew trace --id N {log} {answers}</code> tells the life of a packet</li>\n</ul>\n\
         <p class=\"small\">The log is of what the gate was asked and what it answered. It does not show what the radio did \
         then, or that anybody heard it. Written by curlew {}.</p>\n",
        env!("CARGO_PKG_VERSION")
    )
}
