//! The picture as text for a terminal.

use crate::rows::{Below, Kind, Row};
use crate::tree::{Picture, Table};
use crate::words::{count, how_large, marks, places, summary, window};
use std::fmt::Write;

/// The widths of the branches with the range, and of the size.
const RANGE: usize = 50;
const SIZE: usize = 13;

pub fn text(picture: &Picture) -> String {
    let mut text = format!("root at {:#x}, window: {}\n", picture.root, window(picture));
    match picture.tables.first() {
        None => text.push_str("OUTSIDE: the root is not in the window\n"),
        Some(root) if root.rows.is_empty() => text.push_str("nothing is mapped\n"),
        Some(root) => lines(picture, root, "", &mut text),
    }
    writeln!(text, "{}", summary(picture)).expect("a string takes it");
    text
}

/// A line for each row, with the lines of its table below it.
fn lines(picture: &Picture, table: &Table, branches: &str, text: &mut String) {
    for (number, row) in table.rows.iter().enumerate() {
        let last = number + 1 == table.rows.len() && table.more == 0;
        let (first, end) = table.range(row);
        let range = format!("{branches}{} {first:#018x}-{end:#018x}", if last { "└─" } else { "├─" });
        let large = how_large(table.level, row, "x");
        let line = format!("{range:RANGE$} {large:SIZE$} {}", says(picture, row));
        text.push_str(line.trim_end());
        text.push('\n');
        if let Below::Here(number) = row.below {
            let branches = format!("{branches}{}", if last { "   " } else { "│  " });
            lines(picture, &picture.tables[number], &branches, text);
        }
    }
    if table.more > 0 {
        let more = count(table.more as u64, "row", "rows");
        writeln!(text, "{branches}└─ .. {more} more of this table, not drawn").expect("a string takes it");
    }
}

fn with_marks(text: String, accessed: bool, dirty: bool) -> String {
    let marks = marks(accessed, dirty);
    if marks.is_empty() {
        text
    } else {
        format!("{text}, {marks}")
    }
}

fn says(picture: &Picture, row: &Row) -> String {
    match row.kind {
        Kind::Damaged => "DAMAGED: present, but reserved bits are set; means nothing".into(),
        Kind::Outside { .. } if row.count == 1 => {
            format!("OUTSIDE: names a table at {:#x}, which is not in the window", row.address)
        }
        Kind::Outside { .. } => format!("OUTSIDE: name {}, which are not in the window", places("table", row)),
        Kind::Page { rights, accessed, dirty } => {
            let own = with_marks(format!("{}, {rights}", places("page", row)), accessed, dirty);
            match row.way {
                Some(way) if way != rights => format!("{own}; by this way {way}"),
                _ => own,
            }
        }
        Kind::Table { rights, accessed } => {
            let place = if row.count == 1 { "table" } else { "one table" };
            let own = with_marks(format!("{place} at {:#x}, {rights}", row.address), accessed, false);
            match row.below {
                Below::Again(number) => format!("{own}: as drawn from {:#018x} on", picture.tables[number].base),
                Below::NotDrawn => format!("{own}: not drawn"),
                Below::Here(number) if picture.tables[number].rows.is_empty() => format!("{own}: empty"),
                Below::Here(_) | Below::Nothing => own,
            }
        }
    }
}
