//! The picture as an SVG: a card for each table, one column for each level, and a line from an entry to the table that it names.

use crate::canvas::{at, Canvas, Place};
use crate::rows::{size, Addresses, Below, Kind, Row};
use crate::tree::{Picture, Table, ROOT};
use crate::words::{bytes, count, how_large, summary, window, NAMES};
use tablepath::Rights;

const CARD: u64 = 324;
const GAP: u64 = 84;
const HEAD: u64 = 30;
const ROW: u64 = 40;
const NOTE: u64 = 24;
const MARGIN: u64 = 28;
const LEFT: u64 = 108;
const TOP: u64 = 118;
const APART: u64 = 18;
const LEGEND: u64 = 58;

/// The colour of a row's edge, and of its ground.
fn colours(level: u64, kind: Kind) -> (&'static str, &'static str) {
    match kind {
        Kind::Table { .. } => ("#486581", "#eef3f9"),
        Kind::Outside { .. } => ("#d08700", "#fff6e0"),
        Kind::Damaged => ("#c0392b", "url(#damage)"),
        Kind::Page { .. } => [("#2f9e63", "#e7f6ed"), ("#1b8a9c", "#e2f4f6"), ("#7a5cc0", "#f0ecfa")][level as usize],
    }
}

fn column(level: u64) -> u64 {
    LEFT + (ROOT - level) * (CARD + GAP)
}

fn has_note(table: &Table) -> bool {
    table.more > 0 || table.rows.is_empty()
}

fn height(table: &Table) -> u64 {
    HEAD + table.rows.len() as u64 * ROW + if has_note(table) { NOTE } else { 0 }
}

struct Drawing<'a> {
    picture: &'a Picture,
    canvas: Canvas,
    /// Where the tables' cards are.
    places: Vec<Place>,
    /// Where the next card of each level may begin; TOP where there is none yet.
    free: [u64; 4],
}

pub fn svg(picture: &Picture) -> String {
    let places = vec![Place::default(); picture.tables.len()];
    let mut drawing = Drawing { picture, canvas: Canvas::default(), places, free: [TOP; 4] };
    let cr3 = at(MARGIN + 42, TOP + HEAD / 2);
    drawing.canvas.rect(at(MARGIN, cr3.y - 11), 42, 22, "rx=\"11\" fill=\"#334e68\"");
    drawing.canvas.text("head mid", at(MARGIN + 21, cr3.y + 4), "CR3");
    if picture.tables.is_empty() {
        drawing.outside(ROOT, picture.root, cr3, TOP);
    } else {
        drawing.card(0, TOP);
        drawing.way("way", cr3, 0);
    }
    drawing.page()
}

impl Drawing<'_> {
    /// Titles and legend, around what is drawn.
    fn page(mut self) -> String {
        let lowest = (0..=ROOT).find(|level| self.free[*level as usize] > TOP).unwrap_or(ROOT);
        let width = (column(lowest) + CARD + MARGIN).max(1180);
        let bottom = self.free.into_iter().max().unwrap_or(TOP) + LEGEND;
        let Picture { root, .. } = *self.picture;
        self.canvas.text("title", at(MARGIN, 38), format_args!("Page tables below the root at {root:#x}"));
        let about = format!("window: {}; {}", window(self.picture), summary(self.picture));
        self.canvas.text("sub", at(MARGIN, 62), about);
        for level in lowest..=ROOT {
            let name = format!("{}: an entry covers {}", NAMES[level as usize], bytes(size(level)));
            self.canvas.text("column", at(column(level), TOP - 14), name);
        }
        self.legend(bottom - 26);
        self.canvas.page(width, bottom)
    }

    /// Room for a card of this level, from y on or below what is there.
    fn take(&mut self, level: u64, y: u64, height: u64) -> Place {
        let free = &mut self.free[level as usize];
        let place = at(column(level), y.max(*free));
        *free = place.y + height + APART;
        place
    }

    /// The card of a table, and all that it names.
    fn card(&mut self, number: usize, y: u64) {
        let table = &self.picture.tables[number];
        let place = self.take(table.level, y, height(table));
        self.places[number] = place;
        let Place { x, y } = place;
        self.canvas.rect(place, CARD, height(table), "rx=\"5\" fill=\"#fff\" stroke=\"#9fb3c8\"");
        self.canvas.rect(place, CARD, HEAD, "rx=\"5\" fill=\"#334e68\"");
        let name = format!("{} at {:#x}", NAMES[table.level as usize], table.address);
        self.canvas.text("head", at(x + 12, y + 20), name);
        for (number, row) in table.rows.iter().enumerate() {
            self.row(table, row, at(x, y + HEAD + number as u64 * ROW));
        }
        if has_note(table) {
            let more = format!("{} more, not drawn", count(table.more as u64, "row", "rows"));
            let note = if table.more > 0 { &more } else { "nothing" };
            self.canvas.text("small", at(x + 12, y + height(table) - 8), note);
        }
    }

    fn row(&mut self, table: &Table, row: &Row, place: Place) {
        let Place { x, y } = place;
        let (edge, ground) = colours(table.level, row.kind);
        self.canvas.rect(at(x + 1, y + 1), CARD - 2, ROW - 2, &format!("fill=\"{ground}\""));
        self.canvas.rect(at(x + 1, y + 1), 5, ROW - 2, &format!("fill=\"{edge}\""));
        let last = row.index + row.count - 1;
        let index = if row.count == 1 { row.index.to_string() } else { format!("{}–{last}", row.index) };
        self.canvas.text("small mid", at(x + 34, y + 24), index);
        self.canvas.text("first", at(x + 66, y + 17), format_args!("{:#018x}", table.range(row).0));
        self.canvas.text("end", at(x + CARD - 10, y + 17), how_large(table.level, row, "×"));
        self.leads(row, at(x + 66, y + 33));
        self.grants(row, at(x + CARD - 10, y + 33));
        let from = at(x + CARD, y + ROW / 2);
        match row.below {
            Below::Here(number) => {
                self.card(number, y + (ROW - HEAD) / 2);
                self.way("way", from, number);
            }
            Below::Again(number) => self.way("way again", from, number),
            Below::NotDrawn | Below::Nothing => {}
        }
        if let Kind::Outside { .. } = row.kind {
            self.outside(table.level - 1, row.address, from, y + (ROW - HEAD) / 2);
        }
    }

    /// Where the entries of the row lead.
    fn leads(&mut self, row: &Row, place: Place) {
        let to = match row.addresses {
            Addresses::One => format!("→ {:#x}", row.address),
            Addresses::Same => format!("→ all {:#x}", row.address),
            Addresses::Onward => format!("→ {:#x} on", row.address),
            Addresses::Various => format!("→ {:#x}, ..", row.address),
        };
        match row.kind {
            Kind::Damaged => self.canvas.text("small bad", place, "reserved bits set: nothing"),
            Kind::Outside { .. } => self.canvas.text("small out", place, to),
            Kind::Table { .. } if row.below == Below::NotDrawn => {
                self.canvas.text("small", place, format_args!("{to}, not drawn"));
            }
            Kind::Page { .. } | Kind::Table { .. } => self.canvas.text("small", place, to),
        }
    }

    /// What they grant, and the machine's marks; it ends at this place.
    fn grants(&mut self, row: &Row, place: Place) {
        let (rights, accessed, dirty) = match row.kind {
            Kind::Damaged => return,
            Kind::Page { rights, accessed, dirty } => (rights, accessed, dirty),
            Kind::Table { rights, accessed } | Kind::Outside { rights, accessed } => (rights, accessed, false),
        };
        let Place { mut x, y } = place;
        for (mark, is_set) in [("D", dirty), ("A", accessed)] {
            if is_set {
                self.canvas.rect(at(x - 14, y - 10), 14, 13, "rx=\"3\" fill=\"#52606d\"");
                self.canvas.text("mark", at(x - 7, y), mark);
                x -= 18;
            }
        }
        let less = row.way.filter(|way| *way != rights).map(|way| format!("{way}*"));
        self.canvas.text("small end", at(x, y), less.unwrap_or(rights.to_string()));
    }

    fn way(&mut self, class: &str, from: Place, number: usize) {
        let Place { x, y } = self.places[number];
        self.canvas.way(class, from, at(x - 2, y + HEAD / 2));
    }

    /// A table that nobody lent.
    fn outside(&mut self, level: u64, address: u64, from: Place, y: u64) {
        let place = self.take(level, y, HEAD);
        let Place { x, y } = place;
        self.canvas.rect(place, CARD, HEAD, "rx=\"5\" fill=\"#fffaf0\" stroke=\"#d08700\" stroke-dasharray=\"5 4\"");
        self.canvas.text("out", at(x + 12, y + 20), format_args!("{address:#x}: not in the window"));
        self.canvas.way("way leaves", from, at(x - 2, y + HEAD / 2));
    }

    fn legend(&mut self, y: u64) {
        let (rights, accessed, dirty) = (Rights::NONE, false, false);
        let (page, table) = (Kind::Page { rights, accessed, dirty }, Kind::Table { rights, accessed });
        let keys = [
            (0, table, "a table"),
            (2, page, "1 GiB page"),
            (1, page, "2 MiB page"),
            (0, page, "4 KiB page"),
            (0, Kind::Damaged, "damaged"),
            (0, Kind::Outside { rights, accessed }, "leaves the window"),
        ];
        let mut x = MARGIN;
        for (level, kind, words) in keys {
            let (edge, ground) = colours(level, kind);
            self.canvas.rect(at(x, y - 11), 18, 14, &format!("fill=\"{ground}\" stroke=\"{edge}\""));
            self.canvas.text("key", at(x + 25, y), words);
            x += 46 + 7 * words.len() as u64;
        }
        let marks = "A accessed, D dirty; dashed: drawn already; * the whole way grants less than the entry";
        self.canvas.text("key", at(x, y), marks);
    }
}
