//! The page of ranges that a yard foreman reads, docs/RANGES.md: its three tables, row by row.

use crate::gen::damage::Span;

/// The record that a table speaks of; all have as many bytes.
#[derive(Clone, Copy, Debug, PartialEq, Eq)]
pub enum RecordOf {
    Vehicle,
    /// A cross-border order.
    Order,
    /// A domestic order.
    Domestic,
}

const RECORD: usize = 24;

/// The tables in their order, each with the heading that it stands under.
const TABLES: [(RecordOf, &str); 3] = [
    (RecordOf::Vehicle, "## The vehicle record, 24 bytes"),
    (
        RecordOf::Order,
        "## The cross-border order record, 24 bytes",
    ),
    (RecordOf::Domestic, "## The domestic order record, 24 bytes"),
];

/// How a table begins.
const COLUMNS: [&str; 2] = ["| Field | Bytes | Low | High |", "|---|---|---|---|"];

/// A field of a record: its name, its bytes, and the ends of its range.
#[derive(Clone, Debug)]
pub struct Row {
    pub of: RecordOf,
    pub field: String,
    pub span: Span,
}

impl Row {
    /// Its bytes as the page writes them.
    pub fn bytes(&self) -> String {
        let Span { at, width, .. } = self.span;
        match width {
            1 => at.to_string(),
            _ => format!("{at}-{}", at + (width - 1)),
        }
    }

    /// The row as the page writes it.
    pub fn line(&self) -> String {
        let [low, high] = [self.span.low, self.span.high].map(thousands);
        format!("| {} | {} | {low} | {high} |", self.field, self.bytes())
    }
}

/// A line with its number, counted from 1.
type Line<'a> = (usize, &'a str);

/// Nothing else on the page has such a stroke.
fn in_table((_, text): &Line) -> bool {
    text.contains('|')
}

/// The rows of all tables, or the first line that is not as it has to be.
pub fn rows(page: &str) -> Result<Vec<Row>, String> {
    let lines: Vec<Line> = (1..).zip(page.lines()).collect();
    let mut rows = vec![];
    let mut tables = TABLES.into_iter();
    let mut heading = "";
    for block in lines.chunk_by(|one, next| in_table(one) == in_table(next)) {
        let (line, _) = block[0];
        if in_table(&block[0]) {
            let table = tables.next();
            let (of, due) = table.ok_or_else(|| format!("line {line}: a fourth table"))?;
            if heading != due {
                return Err(format!("line {line}: the table is not under \"{due}\""));
            }
            rows.extend(table_rows(of, block)?);
        } else if let Some((_, last)) = block.iter().rfind(|(_, text)| text.starts_with('#')) {
            heading = last;
        }
    }
    match tables.next() {
        None => Ok(rows),
        Some((_, due)) => Err(format!("line {}: no table under \"{due}\"", lines.len())),
    }
}

/// The rows of one table, which have every byte of the record once and in order.
fn table_rows(of: RecordOf, block: &[Line]) -> Result<Vec<Row>, String> {
    let mut rows = vec![];
    let mut next = 0;
    for (place, (line, text)) in block.iter().enumerate() {
        match COLUMNS.get(place) {
            Some(columns) if columns == text => {}
            Some(columns) => return Err(format!("line {line}: not \"{columns}\"")),
            None => {
                let row = row(of, text, next).map_err(|fault| format!("line {line}: {fault}"))?;
                next = row.span.at + row.span.width;
                rows.push(row);
            }
        }
    }
    match block {
        [.., (line, _)] if next < RECORD => {
            Err(format!("line {line}: the table ends before byte {next}"))
        }
        _ => Ok(rows),
    }
}

/// A row that begins with the next byte.
fn row(of: RecordOf, text: &str, next: usize) -> Result<Row, String> {
    let row = read(of, text).filter(|row| row.line() == text && !row.field.is_empty());
    let row = row.ok_or("not written as a row is")?;
    let Span {
        at,
        width,
        low,
        high,
    } = row.span;
    if at != next {
        Err(format!("byte {next} comes next, not {at}"))
    } else if width > RECORD - at {
        Err(format!("the record ends before byte {}", at + width))
    } else if low > high {
        Err(format!("{low} is above {high}"))
    } else if high > row.span.greatest() {
        Err(format!("the bytes cannot hold {high}"))
    } else {
        Ok(row)
    }
}

/// What stands in a row's cells, if they are four, and numbers where they have to be.
fn read(of: RecordOf, text: &str) -> Option<Row> {
    let cells: Vec<&str> = text.split('|').map(str::trim).collect();
    let ["", field, bytes, low, high, ""] = cells[..] else {
        return None;
    };
    let number = |text: &str| text.replace(',', "").parse::<u64>().ok();
    let (first, last) = bytes.split_once('-').unwrap_or((bytes, bytes));
    let at = number(first)?;
    // Eight bytes are the most that a number has.
    let more = number(last)?.checked_sub(at).filter(|&more| more < 8)?;
    let span = Span {
        at: at as usize,
        width: more as usize + 1,
        low: number(low)?,
        high: number(high)?,
    };
    let field = field.to_owned();
    Some(Row { of, field, span })
}

/// A number with a comma before each three digits.
pub fn thousands(number: u64) -> String {
    match number {
        0..1_000 => number.to_string(),
        _ => format!("{},{:03}", thousands(number / 1_000), number % 1_000),
    }
}

#[cfg(test)]
pub mod tests {
    use super::*;

    pub const PAGE: &str = include_str!(concat!(env!("CARGO_MANIFEST_DIR"), "/../docs/RANGES.md"));

    pub fn page_rows() -> Vec<Row> {
        rows(PAGE).expect("the page is as it has to be")
    }

    impl Row {
        /// With other ends, whatever they are.
        pub fn with(&self, ends: (u64, u64)) -> Row {
            let mut row = self.clone();
            (row.span.low, row.span.high) = ends;
            row
        }

        /// With one end moved by one, as far as it stays a range that its bytes can hold.
        pub fn moved(&self) -> Vec<Row> {
            let Span { low, high, .. } = self.span;
            let lows = [low.checked_sub(1), Some(low + 1)].map(|low| Some((low?, high)));
            let highs = [high.checked_sub(1), Some(high + 1)].map(|high| Some((low, high?)));
            let ends = lows.into_iter().chain(highs).flatten();
            let formed = ends.filter(|(low, high)| low <= high && *high <= self.span.greatest());
            formed.map(|ends| self.with(ends)).collect()
        }
    }

    /// In its words, those of its table of vehicles to the letter.
    #[test]
    fn the_fields_are_those_of_document_01_in_its_order() {
        let fields = [
            "vehicle number",
            "mass",
            "braked mass in V (German P)",
            "braked mass in M (German G)",
            "length",
            "axles",
            "kind: 0 wagon, 1 hauled engine, 2 working engine",
            "setting: 0 isolated, 1 M, 2 V, 3 R",
            "joined to the brake pipe",
            "permitted speed",
            "Matrossow brake, or no graduated release",
            "D load",
            "always 0",
            "the line's limit for ME120; 0 is a missing column",
            "the line's limit for ME100; 0 is a missing column",
            "the line's limit for MA100; 0 is a missing column",
            "the line's limit for MA90; 0 is a missing column",
            "the line's limit for MA80; 0 is a missing column",
            "category asked",
            "percentage in the German timetable",
            "book: 0 cross-border",
            "coupling limit (LRA)",
            "admissible mass",
            "always 0",
        ];
        let found: Vec<String> = page_rows().into_iter().map(|row| row.field).collect();
        assert_eq!(found[..24], fields);
    }

    /// A domestic order has the fields of the other as far as it can, and its own in bytes 6, 7 and from 16 on.
    #[test]
    fn a_domestic_order_has_its_own_fields() {
        let rows = page_rows();
        let lines = |rows: &[Row]| rows.iter().map(Row::line).collect::<Vec<_>>();
        let (cross_border, domestic) = (lines(&rows[13..24]), lines(&rows[24..]));
        assert_eq!(domestic.len(), 14);
        assert_eq!(domestic[..5], cross_border[..5]);
        assert_eq!(domestic[8..10], cross_border[8..10]);
        let own = [
            "| category asked | 5 | 1 | 6 |",
            "| always 0 | 6 | 0 | 0 |",
            "| book: 1 domestic | 7 | 1 | 1 |",
        ];
        assert_eq!(domestic[5..8], own);
        let behind = [
            "| the line's limit for ME140; 0 is a missing column | 16 | 0 | 200 |",
            "| always 0 | 17 | 0 | 0 |",
            "| always 0 | 18-19 | 0 | 0 |",
            "| always 0 | 20-23 | 0 | 0 |",
        ];
        assert_eq!(domestic[10..], behind);
    }

    /// The page with one row of a table replaced by another; both orders have some rows alike.
    pub fn replaced(page: &str, row: &Row, by: &Row) -> String {
        let heading = TABLES.iter().find(|(of, _)| *of == row.of);
        let (_, heading) = heading.expect("every record has its table");
        let at = page.find(heading).expect("the page has the heading");
        let (before, table) = page.split_at(at);
        assert!(table.contains(&row.line()), "{}", row.line());
        before.to_owned() + &table.replacen(&row.line(), &by.line(), 1)
    }

    /// With one text in the place of another the page is refused, and the line is so many below that place.
    fn assert_fault(from: &str, to: &str, below: usize, fault: &str) {
        let (before, _) = PAGE.split_once(from).expect("the page has the text");
        let line = before.matches('\n').count() + 1 + below;
        let found = rows(&PAGE.replacen(from, to, 1)).expect_err(to);
        assert_eq!(found, format!("line {line}: {fault}"), "{to}");
    }

    #[test]
    fn bytes_left_out_twice_or_out_of_order_are_refused() {
        assert_fault("| 8-9 |", "| 9 |", 0, "byte 8 comes next, not 9");
        assert_fault("| 8-9 |", "| 7-9 |", 0, "byte 8 comes next, not 7");
        assert_fault("| 14-15 |", "| 14-16 |", 1, "byte 17 comes next, not 16");
        let [axles, kind] = [5, 6].map(|place| page_rows()[place].line());
        let (in_order, gap) = (format!("{axles}\n{kind}"), "byte 16 comes next, not 17");
        assert_fault(&in_order, &kind, 0, gap);
        assert_fault(&in_order, &format!("{kind}\n{axles}"), 0, gap);
        let (last, short) = (page_rows()[12].line(), "the table ends before byte 23");
        assert_fault(&format!("\n{last}"), "", 0, short);
        assert_fault("| 16-23 |", "| 16-22 |", 0, short);
        assert_fault("| 23 |", "| 23-24 |", 0, "the record ends before byte 25");
    }

    #[test]
    fn rows_that_are_not_well_formed_are_refused() {
        let assert_malformed = |from, to| assert_fault(from, to, 0, "not written as a row is");
        assert_malformed("| mass |", "mass |");
        assert_malformed("| mass |", "|  |");
        assert_malformed("| mass |", "|");
        assert_malformed("| 0-7 |", "| 0-8 |");
        for bytes in ["| 8-8 |", "| 9-8 |", "| 8-9-9 |", "| 08-9 |", "| 8 - 9 |"] {
            assert_malformed("| 8-9 |", bytes);
        }
        for high in [
            "| 2500 |",
            "| 25,00 |",
            "| 2,500, |",
            "| +1 |",
            "| -1 |",
            "| x |",
        ] {
            assert_malformed("| 2,500 |", high);
        }
        assert_fault("| 1 | 24 |", "| 25 | 24 |", 0, "25 is above 24");
        assert_fault("| 1 | 24 |", "| 1 | 256 |", 0, "the bytes cannot hold 256");
    }

    #[test]
    fn other_tables_are_refused() {
        let ([columns, _], [_, (_, order), _]) = (COLUMNS, TABLES);
        let elsewhere = format!("the table is not under \"{order}\"");
        let (_, behind) = PAGE.split_once(order).expect("the page has the heading");
        let below = behind.lines().take_while(|line| !line.contains('|'));
        assert_fault(order, "## The order record", below.count(), &elsewhere);
        assert_fault("One thing", columns, 0, &elsewhere);
        let last = page_rows()[37].line();
        assert_fault(&last, &format!("{last}\n\n{columns}"), 2, "a fourth table");
        let exchanged = "| Field | Bytes | High | Low |";
        assert_fault(columns, exchanged, 0, &format!("not \"{columns}\""));
        let (one_table, _) = PAGE.split_once(order).expect("the page has the heading");
        let fault = rows(one_table).expect_err("one table alone");
        let lines = one_table.lines().count();
        assert_eq!(fault, format!("line {lines}: no table under \"{order}\""));
    }
}
