//! The drawing as one page that needs nothing else: it can be moved and zoomed, shows details at the pointer, and has the pass's lines and the
//! matrix as a table.

use sheetgen::Sheet;

use super::matrix::Table;
use super::svg::escape;
use super::{About, Chosen, EDGE, building, draw, draw_pass, pair, title};
use crate::{explain, travel};

const STYLE: &str = include_str!("page.css");
const SCRIPT: &str = include_str!("page.js");

/// A page of a sheet and its pass, or of where the sheet is refused.
pub fn html(bytes: &[u8], about: &About) -> String {
    match Chosen::of(bytes) {
        Ok(chosen) => accepted(bytes, &chosen, about),
        Err(refusal) => {
            let title = format!("refused {} at {}", refusal.number, refusal.offset);
            let said = about
                .source
                .map_or_else(|| explain::explain(bytes), explain::of);
            let said = section("pass", "The refusal", &pre(&said));
            page(about, &title, &Drawings::one(draw(bytes, about)), &said)
        }
    }
}

fn accepted(bytes: &[u8], chosen: &Chosen, about: &About) -> String {
    let sheet = Sheet::of_accepted(bytes);
    let lines = match about.ramps {
        Some(ramps) => travel::lines(bytes, ramps),
        None => dispatch_bench::lines(bytes),
    };
    let mut sections = section("pass", "The pass", &pre(&lines));
    let table = Table::new(&sheet, chosen, about, EDGE);
    if !table.rows.is_empty() {
        let rows = "Costs of idle cars and pending stops";
        sections += &section("table", rows, &matrix(&table));
    }
    let drawings = Drawings {
        plain: draw_pass(&sheet, chosen, &with_fold(about, false)),
        folded: building::has_folds(&sheet)
            .then(|| draw_pass(&sheet, chosen, &with_fold(about, true))),
        is_folded: about.fold,
    };
    page(about, &title::strategy(&sheet), &drawings, &sections)
}

fn with_fold<'a>(about: &About<'a>, fold: bool) -> About<'a> {
    About {
        names: about.names.clone(),
        marked: about.marked.clone(),
        fold,
        ..*about
    }
}

/// The drawing, and with folded lines where there are such.
struct Drawings {
    plain: String,
    folded: Option<String>,
    /// The folded one is shown first.
    is_folded: bool,
}

impl Drawings {
    fn one(plain: String) -> Self {
        Self {
            plain,
            folded: None,
            is_folded: false,
        }
    }
}

fn page(about: &About, title: &str, drawings: &Drawings, sections: &str) -> String {
    let file = about.file.map_or(String::new(), |file| format!("{file}: "));
    let title = escape(&format!("{file}{title}"));
    let (fold, folded) = match &drawings.folded {
        None => (String::new(), String::new()),
        Some(folded) => {
            let checked = if drawings.is_folded { " checked" } else { "" };
            (
                format!(
                    "<label><input type=\"checkbox\" id=\"fold\"{checked}> Fold lines without an idle-listed car</label>\n"
                ),
                format!("<template id=\"folded\">{folded}</template>\n"),
            )
        }
    };
    let views = match sections.contains("<table") {
        true => {
            "<button data-view=\"building\">Building</button>\n<button data-view=\"costs\">Costs</button>\n"
        }
        false => "",
    };
    let links = match sections.contains("<table") {
        true => "<a href=\"#pass\">Pass</a>\n<a href=\"#table\">Table</a>\n",
        false => "<a href=\"#pass\">Words</a>\n",
    };
    let links = format!("{fold}{links}");
    whole(
        &title,
        (views, &links),
        (&drawings.plain, &folded),
        sections,
    )
}

/// A page: the buttons of its views and what stands behind those of the zoom, the drawing with a hidden one, and sections.
fn whole(title: &str, nav: (&str, &str), drawn: (&str, &str), sections: &str) -> String {
    let ((views, links), (stage, hidden)) = (nav, drawn);
    format!(
        "<!doctype html>\n<html lang=\"en\">\n<head>\n<meta charset=\"utf-8\">\n\
         <meta http-equiv=\"Content-Security-Policy\" content=\"default-src 'none'; style-src 'unsafe-inline'; script-src 'unsafe-inline'\">\n\
         <meta name=\"viewport\" content=\"width=device-width, initial-scale=1\">\n<title>{title}</title>\n<style>{STYLE}</style>\n</head>\n<body>\n\
         <nav>\n<button data-view=\"whole\">Whole</button>\n{views}<button data-zoom=\"in\" title=\"nearer\">+</button>\n\
         <button data-zoom=\"out\" title=\"farther\">−</button>\n{links}</nav>\n\
         <div id=\"stage\" tabindex=\"0\">{stage}</div>\n{hidden}{sections}<div id=\"detail\" hidden></div>\n<script>{SCRIPT}</script>\n</body>\n</html>\n"
    )
}

/// A page of two sheets: both drawings, what differs, and the lines and the matrix of each.
pub fn pair_page(first: (&[u8], &About), second: (&[u8], &About), differs: &str) -> String {
    let mut sections = section("differs", "What differs", &pre(differs));
    for ((bytes, about), id, name) in [
        (first, "first-pass", "first"),
        (second, "second-pass", "second"),
    ] {
        let lines = pre(&dispatch_bench::lines(bytes));
        sections += &section(id, &format!("The pass of the {name}"), &lines);
        if let Ok(chosen) = Chosen::of(bytes) {
            let sheet = Sheet::of_accepted(bytes);
            let table = Table::new(&sheet, &chosen, about, EDGE);
            let heading = format!("Costs of idle cars and pending stops of the {name}");
            sections += &section(&format!("{name}-table"), &heading, &matrix(&table));
        }
    }
    let file = |about: &About| about.file.unwrap_or("-").to_string();
    let title = escape(&format!("{} and {}", file(first.1), file(second.1)));
    let views = "<button data-view=\"first\">First</button>\n<button data-view=\"second\">Second</button>\n";
    let links = "<a href=\"#differs\">What differs</a>\n<a href=\"#first-pass\">First pass</a>\n<a href=\"#second-pass\">Second pass</a>\n";
    whole(
        &title,
        (views, links),
        (&pair(first, second), ""),
        &sections,
    )
}

fn section(id: &str, heading: &str, body: &str) -> String {
    format!("<section id=\"{id}\">\n<h2>{heading}</h2>\n{body}</section>\n")
}

fn pre(text: &str) -> String {
    format!("<pre>{}</pre>\n", escape(text))
}

/// A row for each idle car, a column for each pending stop and each spare one.
fn matrix(table: &Table) -> String {
    let cell = |tag: &str, text: &str| format!("<{tag}>{}</{tag}>", escape(text));
    let names: String = table.columns.iter().map(|name| cell("th", name)).collect();
    let mut rows = format!("<thead><tr><th></th>{names}</tr></thead>\n<tbody>\n");
    for (row, name) in table.rows.iter().enumerate() {
        let cells = 0..table.columns.len();
        let cells: String = cells.map(|column| data(table, row, column)).collect();
        rows += &format!("<tr>{}{cells}</tr>\n", cell("th", name));
    }
    format!("<div class=\"wide\"><table>\n{rows}</tbody>\n</table></div>\n")
}

fn data(table: &Table, row: usize, column: usize) -> String {
    let class = match (table.is_chosen(row, column), table.is_sent(row)) {
        (true, true) => " class=\"taken\"",
        (true, false) => " class=\"left\"",
        _ if !table.has_rank(row, column) => " class=\"none\"",
        _ => "",
    };
    let tip = escape(&table.details(row, column).join("\n"));
    let shown = escape(&table.exact(row, column));
    format!("<td{class} data-tip=\"{tip}\">{shown}</td>")
}
