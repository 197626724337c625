//! Tables of a fixed header.

use crate::markdown::{cells, lines_outside_fences};

/// A row of a table: its line number and its cells.
pub type Row = (usize, Vec<String>);

/// A kind of table: the document that has it, and its header.
pub struct Kind {
    pub document: &'static str,
    pub header: &'static [&'static str],
}

/// The rows below each header of this kind.
pub fn rows(kind: &Kind, text: &str, problems: &mut Vec<String>) -> Vec<Row> {
    let mut rows = Vec::new();
    for table in tables(text) {
        rows.extend(rows_of_table(kind, table, problems));
    }
    rows
}

/// The tables of a text, each with its header and the line of dashes. A row that is not closed has no cells.
pub fn tables(text: &str) -> Vec<Vec<Row>> {
    let mut tables = Vec::new();
    let mut table = Vec::new();
    for (number, line) in lines_outside_fences(text) {
        if line.trim_start().starts_with('|') {
            table.push((number, cells(line).unwrap_or_default()));
        } else if !table.is_empty() {
            tables.push(std::mem::take(&mut table));
        }
    }
    if !table.is_empty() {
        tables.push(table);
    }
    tables
}

/// The rows of one table, without its header and the line of dashes; none of a table of another kind.
fn rows_of_table(kind: &Kind, table: Vec<Row>, problems: &mut Vec<String>) -> Vec<Row> {
    let Kind { document, header: expected } = kind;
    let Some((number, header)) = table.first() else {
        return Vec::new();
    };
    // rows after an empty line have no header, and a slip in a header would leave its table unchecked
    if !table.get(1).is_some_and(|(_, cells)| are_dashes(cells)) {
        problems.push(format!(
            "{document}:{number}: a header and a line of dashes must start the table"
        ));
    } else if header == expected {
        return table.into_iter().skip(2).collect();
    } else if header.first().is_some_and(|cell| cell == expected[0]) {
        problems
            .push(format!("{document}:{number}: the header must be | {} |", expected.join(" | ")));
    }
    Vec::new()
}

fn are_dashes(cells: &[String]) -> bool {
    !cells.is_empty()
        && cells.iter().all(|cell| cell.contains('-') && cell.trim_matches([':', '-']).is_empty())
}
