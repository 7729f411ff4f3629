//! The label as a page to print: Markdown in, one HTML page out, which needs
//! nothing from elsewhere.
//!
//! The Markdown is what `docs/LABEL.md` uses: headings, paragraphs, lists,
//! tables, quotes, bold, code and links. What stands between the lines
//! `<!-- sheet -->` and `<!-- all -->` makes up the sheet that a customer is
//! handed; the whole label follows on sheets of its own.

use crate::fault::Fault;

const SHEET: &str = "<!-- sheet -->";
const ALL: &str = "<!-- all -->";

const STYLE: &str = "\
@page { size: A4; margin: 10mm 13mm; }
body { font: 15px/1.45 Georgia, 'Times New Roman', serif; color: #111; max-width: 60em; margin: 1.5em auto;
  padding: 0 1em; }
h1, h2, th, td { font-family: Helvetica, Arial, sans-serif; }
h1 { font-size: 1.6em; margin: 0 0 .3em; }
h2 { font-size: 1.15em; margin: 1.1em 0 .3em; }
p, ul, blockquote { margin: .45em 0; }
table { border-collapse: collapse; margin: .6em 0; width: 100%; font-size: .87em; }
th, td { border: 1px solid #999; padding: .22em .5em; text-align: left; vertical-align: top; }
th { background: #eee; }
blockquote { border-left: 4px solid #c60; padding-left: .8em; }
code { font-family: 'DejaVu Sans Mono', Menlo, Consolas, monospace; font-size: .84em; overflow-wrap: anywhere; }
.wide { overflow-x: auto; }
hr { border: 0; border-top: 2px solid #111; margin: 2em 0; }
@media print {
  body { font-size: 9.6pt; line-height: 1.32; margin: 0; padding: 0; max-width: none; }
  .sheet { font-size: 8.2pt; line-height: 1.25; }
  .sheet th, .sheet td { padding: .12em .5em; }
  .wide { overflow: visible; }
  table, blockquote { break-inside: avoid; }
  table.long { break-inside: auto; }
  tr { break-inside: avoid; }
  h2 { break-after: avoid; }
  hr { display: none; }
  .whole { break-before: page; }
}
";

/// The page of a Markdown text.
pub fn page(markdown: &str) -> Result<String, Fault> {
    let whole = blocks(&plain_lines(markdown))?;
    let sheet = blocks(&sheet_lines(markdown)?)?;
    let title = markdown
        .lines()
        .find_map(|line| line.strip_prefix("# "))
        .ok_or_else(|| Fault::bad("the label has no title: a line that starts with '# '"))?;
    let title = escaped(title);
    Ok(format!(
        "<!DOCTYPE html>\n<html lang=\"en\">\n<head>\n<meta charset=\"utf-8\">\n\
         <meta name=\"viewport\" content=\"width=device-width, initial-scale=1\">\n\
         <title>Presscurlew: {title}</title>\n<style>\n{STYLE}</style>\n</head>\n<body>\n\
         <div class=\"sheet\">\n{sheet}</div>\n<hr>\n<div class=\"whole\">\n{whole}</div>\n</body>\n</html>\n"
    ))
}

fn is_mark(line: &str) -> bool {
    line == SHEET || line == ALL
}

/// All lines, without the marks.
fn plain_lines(markdown: &str) -> Vec<&str> {
    markdown.lines().filter(|line| !is_mark(line)).collect()
}

/// The lines of the sheet.
fn sheet_lines(markdown: &str) -> Result<Vec<&str>, Fault> {
    let mut lines = Vec::new();
    let mut inside = false;
    for line in markdown.lines() {
        if is_mark(line) {
            if inside == (line == SHEET) {
                return Err(Fault::bad(format!("'{line}' stands there twice in a row")));
            }
            inside = line == SHEET;
            lines.push("");
        } else if inside {
            lines.push(line);
        }
    }
    if lines.is_empty() {
        return Err(Fault::bad(format!(
            "no line is '{SHEET}': nothing is to be handed out"
        )));
    }
    Ok(lines)
}

/// Paragraphs, lists and tables: each ends where a blank line or another kind starts.
fn blocks(lines: &[&str]) -> Result<String, Fault> {
    let mut html = String::new();
    let mut rest = lines;
    while let Some(first) = rest.first() {
        let kind = kind_of(first);
        let length = match kind {
            Kind::Blank | Kind::Heading => 1,
            Kind::List => 1 + rest[1..].iter().take_while(|line| in_list(line)).count(),
            _ => rest.iter().take_while(|line| kind_of(line) == kind).count(),
        };
        let (block, after) = rest.split_at(length);
        html.push_str(&match kind {
            Kind::Blank => String::new(),
            Kind::Heading => heading(first)?,
            Kind::List => list(block),
            Kind::Table => table(block)?,
            Kind::Quote => quote(block),
            Kind::Text => format!("<p>{}</p>\n", inline(&block.join(" "))),
        });
        rest = after;
    }
    Ok(html)
}

#[derive(Clone, Copy, PartialEq)]
enum Kind {
    Blank,
    Heading,
    List,
    Table,
    Quote,
    Text,
}

fn kind_of(line: &str) -> Kind {
    match line {
        "" => Kind::Blank,
        _ if line.starts_with('#') => Kind::Heading,
        _ if line.starts_with("- ") => Kind::List,
        _ if line.starts_with('|') => Kind::Table,
        _ if line.starts_with("> ") => Kind::Quote,
        _ => Kind::Text,
    }
}

/// Whether a line goes on with a list.
fn in_list(line: &str) -> bool {
    line.starts_with("- ") || line.starts_with("  ")
}

fn heading(line: &str) -> Result<String, Fault> {
    let deep = line.chars().take_while(|&c| c == '#').count();
    match line[deep..].strip_prefix(' ') {
        Some(text) if deep <= 4 => Ok(format!("<h{deep}>{}</h{deep}>\n", inline(text))),
        _ => Err(Fault::bad(format!("'{line}' is no heading"))),
    }
}

fn list(lines: &[&str]) -> String {
    let mut items: Vec<String> = Vec::new();
    for line in lines {
        match (line.strip_prefix("- "), items.last_mut()) {
            (Some(start), _) => items.push(start.to_string()),
            (None, Some(item)) => *item = format!("{item} {}", line.trim()),
            (None, None) => {}
        }
    }
    let items: String = items
        .iter()
        .map(|item| format!("<li>{}</li>\n", inline(item)))
        .collect();
    format!("<ul>\n{items}</ul>\n")
}

fn quote(lines: &[&str]) -> String {
    let text: Vec<&str> = lines.iter().map(|line| line[1..].trim()).collect();
    format!("<blockquote>{}</blockquote>\n", inline(&text.join(" ")))
}

/// So many rows do not stay together on a sheet.
const LONG_TABLE: usize = 20;

fn table(lines: &[&str]) -> Result<String, Fault> {
    let rows: Vec<Vec<&str>> = lines.iter().map(|line| cells(line)).collect();
    let wide = rows[0].len();
    if rows.len() < 2 || !is_rule(lines[1]) || rows.iter().any(|row| row.len() != wide) {
        return Err(Fault::bad(format!(
            "the table of '{}' is not whole",
            lines[0]
        )));
    }
    let body: String = rows[2..].iter().map(|row| table_row(row, "td")).collect();
    let class = if rows.len() > LONG_TABLE {
        " class=\"long\""
    } else {
        ""
    };
    let head = table_row(&rows[0], "th");
    Ok(format!(
        "<div class=\"wide\"><table{class}>\n<thead>{head}</thead>\n{body}</table></div>\n"
    ))
}

/// The cells of a table's line.
pub fn cells(line: &str) -> Vec<&str> {
    let inner = line.trim().trim_start_matches('|').trim_end_matches('|');
    inner.split('|').map(str::trim).collect()
}

/// Whether it is the line below a table's head.
pub fn is_rule(line: &str) -> bool {
    line.chars().all(|c| "|-: ".contains(c))
}

/// A row; one that has a name and nothing else is a heading over those below it.
fn table_row(cells: &[&str], tag: &str) -> String {
    let (name, rest) = (inline(cells[0]), &cells[1..]);
    if tag == "td" && !rest.is_empty() && rest.iter().all(|cell| cell.is_empty()) {
        let wide = cells.len();
        return format!("<tr><td colspan=\"{wide}\">{name}</td></tr>\n");
    }
    let cells: String = cells
        .iter()
        .map(|cell| format!("<{tag}>{}</{tag}>", inline(cell)))
        .collect();
    format!("<tr>{cells}</tr>\n")
}

/// Bold, code and links within a text.
fn inline(text: &str) -> String {
    let mut html = String::new();
    for (at, piece) in text.split('`').enumerate() {
        if at % 2 == 1 {
            html.push_str(&format!("<code>{}</code>", escaped(piece)));
            continue;
        }
        html.push_str(&links(&escaped(piece)));
    }
    bold(&html)
}

/// Each pair of ** is bold.
fn bold(html: &str) -> String {
    let pieces: Vec<&str> = html.split("**").collect();
    let mut out = pieces[0].to_string();
    for (at, piece) in pieces.iter().enumerate().skip(1) {
        out.push_str(if at % 2 == 1 { "<b>" } else { "</b>" });
        out.push_str(piece);
    }
    if pieces.len() % 2 == 0 {
        out.push_str("</b>");
    }
    out
}

/// Each [text](place) is a link.
fn links(text: &str) -> String {
    let mut out = String::new();
    let mut rest = text;
    while let Some(middle) = rest.find("](") {
        let (before, after) = rest.split_at(middle);
        let (Some(start), Some(end)) = (before.rfind('['), after.find(')')) else {
            break;
        };
        let (name, place) = (&before[start + 1..], &after[2..end]);
        out.push_str(&format!(
            "{}<a href=\"{place}\">{name}</a>",
            &before[..start]
        ));
        rest = &after[end + 1..];
    }
    out + rest
}

fn escaped(text: &str) -> String {
    text.replace('&', "&amp;")
        .replace('<', "&lt;")
        .replace('>', "&gt;")
        .replace('"', "&quot;")
}

#[cfg(test)]
mod tests {
    use super::*;

    #[test]
    fn markdown_becomes_html() {
        let text = "# T & co\n\n<!-- sheet -->\nA **b** `c|<d>`\nof [e](f.md).\n<!-- all -->\n\n- g\n  h\n- i\n\n> j\n";
        let html = page(text).unwrap();
        assert!(
            html.contains("<title>Presscurlew: T &amp; co</title>"),
            "{html}"
        );
        let line = "<p>A <b>b</b> <code>c|&lt;d&gt;</code> of <a href=\"f.md\">e</a>.</p>\n";
        assert_eq!(html.matches(line).count(), 2, "{html}");
        assert_eq!(
            html.matches("<ul>\n<li>g h</li>\n<li>i</li>\n</ul>\n")
                .count(),
            1,
            "{html}"
        );
        assert_eq!(
            html.matches("<blockquote>j</blockquote>").count(),
            1,
            "{html}"
        );
        assert!(!html.contains("<!-- "), "{html}");
    }

    #[test]
    fn tables_have_a_head_and_whole_rows() {
        let html = page("# T\n<!-- sheet -->\n| a | b |\n|---|---|\n| 1 | 2 |\n| 3 | |\n").unwrap();
        assert!(
            html.contains("<thead><tr><th>a</th><th>b</th></tr>"),
            "{html}"
        );
        assert!(html.contains("<tr><td>1</td><td>2</td></tr>"), "{html}");
        let over = "<tr><td colspan=\"2\">3</td></tr>";
        assert!(html.contains(over), "{html}");
        for bad in [
            "| a | b |\n| 1 | 2 |",
            "| a | b |\n|---|---|\n| 1 |",
            "| a |",
        ] {
            assert!(
                page(&format!("# T\n<!-- sheet -->\n{bad}\n")).is_err(),
                "{bad}"
            );
        }
    }

    #[test]
    fn a_label_without_title_or_sheet_is_refused() {
        for bad in ["", "text\n<!-- sheet -->\n", "# T\n", "# T\n<!-- all -->\n"] {
            assert!(page(bad).is_err(), "{bad}");
        }
    }
}
