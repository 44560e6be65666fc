//! The timeline as a text: a row for each moment, time going down, and a column for each line.

use std::slice::from_ref;

use crate::state::TIMERS;
use crate::words::{number, COLUMNS};

use super::column::Column;
use super::labels::{cause, drawn, moved, records, tval, virtual_count, with_lines_before};
use super::moments::Moment;

const LEGEND: &str = "
A row is a moment; time goes down. virtual and TVAL are CNTVCT and CNTV_TVAL as
a guest reads them at EL1: ? is unknown, - cannot be read there. A line is down
at the left of its column and up at the right. * is what a write changed; in a
line's column, its timer or its offset.
";

const UNKNOWN_LINES: &str = "\
? in a line's column: the state is impossible, and its lines are not known.
";

/// The timeline of those moments. No line of it is wider than a terminal.
pub fn table(moments: &[Moment]) -> String {
    if moments.is_empty() {
        return "no record, so no timeline\n".to_string();
    }
    let named_in_full = Table::of(moments, |name| name);
    let text = named_in_full
        .beside()
        .or_else(|| named_in_full.under())
        .or_else(|| Table::of(moments, |name| name.trim_start_matches("CNT")).under());
    text.expect("short names fit beside the longest numbers") + &legend(moments)
}

fn legend(moments: &[Moment]) -> String {
    let all_known = moments.iter().all(|moment| moment.seen.lines.is_some());
    let unknown = if all_known { "" } else { UNKNOWN_LINES };
    LEGEND.to_string() + unknown
}

struct Row {
    goes_back: bool,
    /// Count, virtual count and TVAL.
    numbers: [String; 3],
    /// The lines as this moment turns them, and as they stand then.
    lines: String,
    standing: String,
    records: String,
    told: Vec<String>,
}

impl Row {
    fn heading(columns: &[Column]) -> Row {
        Row {
            goes_back: false,
            numbers: ["count", "virtual", "TVAL"].map(str::to_string),
            lines: joined(columns, Column::heading),
            standing: String::new(),
            records: "records".to_string(),
            told: Vec::new(),
        }
    }

    fn all_of(moments: &[Moment], columns: &[Column]) -> Vec<Row> {
        let row = |(moment, before): (&Moment, _)| Row {
            goes_back: moment.goes_back,
            numbers: [number(moment.count), virtual_count(moment), tval(moment)],
            lines: joined(columns, |column| column.turning(moment, before)),
            standing: joined(columns, |column| column.standing(moment)),
            records: records(moment),
            told: told(moment, cause(moment, before)),
        };
        with_lines_before(moments).map(row).collect()
    }
}

fn joined(columns: &[Column], part: impl Fn(&Column) -> String) -> String {
    let parts: Vec<String> = columns.iter().map(part).collect();
    parts.join(" ")
}

fn told(moment: &Moment, cause: String) -> Vec<String> {
    let moved = moved(moment).into_iter();
    let marked = moved.map(|change| format!("* {change}"));
    [cause].into_iter().chain(marked).collect()
}

struct Table {
    heading: Row,
    rows: Vec<Row>,
    /// Of the numbers.
    widths: [usize; 3],
}

impl Table {
    fn of(moments: &[Moment], name: impl Fn(&'static str) -> &'static str) -> Table {
        let columns: Vec<Column> = drawn(moments)
            .into_iter()
            .map(|timer| Column::of(timer, name(TIMERS[timer])))
            .collect();
        let mut table = Table {
            heading: Row::heading(&columns),
            rows: Row::all_of(moments, &columns),
            widths: [0; 3],
        };
        table.widths = [0, 1, 2].map(|place| table.widest(|row| row.numbers[place].len()));
        table
    }

    /// What is told of a moment stands at the right of its lines; none if there is no room.
    fn beside(&self) -> Option<String> {
        let records = self.widest(|row| row.records.len());
        let left = self.numbers_width() + 1 + self.heading.lines.len() + 2 + records + 2;
        let room = COLUMNS.checked_sub(left)?;
        let line = |numbers: &str, lines: &str, number: &str, told: &str| {
            let width = self.numbers_width();
            format!("{numbers:width$} {lines}  {number:records$}  {told}")
        };
        let row = |row: &Row| {
            let mut told = filled(&row.told, room).into_iter();
            let first = told.next().unwrap_or_default();
            let first = line(&self.numbers(row), &row.lines, &row.records, &first);
            let below = told.map(|told| line("", &row.standing, "", &told));
            [first].into_iter().chain(below).collect()
        };
        (self.longest_told() <= room).then(|| self.text(row))
    }

    /// What is told of a moment stands under its numbers; none if there is no room.
    fn under(&self) -> Option<String> {
        let width = self.numbers_width().max(self.longest_told());
        let row = |row: &Row| {
            let numbers = [format!("{:>width$} {}", self.numbers(row), row.lines)];
            let told = [from_ref(&row.records), &row.told].concat();
            let told = filled(&told, width).into_iter();
            let told = told.map(|told| format!("{told:width$} {}", row.standing));
            numbers.into_iter().chain(told).collect()
        };
        (width + 1 + self.heading.lines.len() <= COLUMNS).then(|| self.text(row))
    }

    /// The lines of all rows, under those of the heading.
    fn text(&self, lines_of: impl Fn(&Row) -> Vec<String>) -> String {
        let all = [&self.heading].into_iter().chain(&self.rows);
        let lines = all.flat_map(|row| {
            let back = row
                .goes_back
                .then(|| "-- the count goes back --".to_string());
            back.into_iter().chain(lines_of(row))
        });
        lines.map(|line| format!("{}\n", line.trim_end())).collect()
    }

    fn numbers(&self, row: &Row) -> String {
        let [a, b, c] = self.widths;
        let [count, virtual_count, tval] = &row.numbers;
        format!("{count:>a$} {virtual_count:>b$} {tval:>c$}")
    }

    fn numbers_width(&self) -> usize {
        self.numbers(&self.heading).len()
    }

    fn longest_told(&self) -> usize {
        self.widest(|row| row.told.iter().map(String::len).max().unwrap_or_default())
    }

    fn widest(&self, width: impl Fn(&Row) -> usize) -> usize {
        let all = self.rows.iter().chain([&self.heading]);
        all.map(width).max().unwrap_or_default()
    }
}

/// The parts one after the other, in as few lines as have room for them.
fn filled(parts: &[String], room: usize) -> Vec<String> {
    let mut lines: Vec<String> = Vec::new();
    for part in parts.iter().filter(|part| !part.is_empty()) {
        match lines.last_mut() {
            Some(line) if line.len() + 1 + part.len() <= room => *line += &format!(" {part}"),
            _ => lines.push(part.clone()),
        }
    }
    lines
}

#[cfg(test)]
mod tests {
    use super::*;
    use crate::timeline::desk::Reading;
    use crate::timeline::samples::{start, turn, widest, write};

    const MSR_CNTV_CVAL: u32 = 0xD51B_E341;

    fn drawn(moments: &[Moment]) -> String {
        let text = table(moments);
        assert!(text.ends_with(LEGEND));
        assert!(text.lines().all(|line| line.len() <= COLUMNS), "{text}");
        text.trim_end_matches(LEGEND).to_string()
    }

    /// A write that moves CNTV's deadline, and the count that raises its line.
    fn lease(count: u64, cval: u64) -> Vec<Moment> {
        let first = start(count);
        let mut state = first.seen.state;
        state.timers[1].cval = cval;
        let mut taken = write(&first, 1, MSR_CNTV_CVAL, state);
        taken.records = Some((1, 3));
        let over = turn(&taken, count + 10, &[1]);
        vec![first, taken, over]
    }

    #[test]
    fn what_is_told_stands_beside_the_lines() {
        assert_eq!(
            drawn(&lease(5, 15)),
            "count virtual TVAL CNTV  records\n    \
                 5       5    ? |              start\n    \
                 5       5    ? *     1-3      MSR CNTV_CVAL_EL0 * CNTV CVAL 15\n   \
                15      15    ? '--.           up: CNTV\n"
        );
    }

    #[test]
    fn what_does_not_fit_beside_them_goes_on_below() {
        assert_eq!(
            drawn(&lease(5, 1 << 63)),
            "count virtual TVAL CNTV  records\n    \
                 5       5    ? |              start\n    \
                 5       5    ? *     1-3      MSR CNTV_CVAL_EL0\n                   \
                                |              * CNTV CVAL 0x8000000000000000\n   \
                15      15    ? '--.           up: CNTV\n"
        );
    }

    #[test]
    fn what_has_no_room_beside_them_stands_under_the_numbers() {
        let mut moments = lease(1 << 63, 15);
        moments[2].seen.tval = Reading::Value(1 << 62);
        assert_eq!(
            drawn(&moments),
            "             count            virtual               TVAL CNTV\n\
             records\n\
             0x8000000000000000 0x8000000000000000                  ? |\n\
             start                                                    |\n\
             0x8000000000000000 0x8000000000000000                  ? *\n\
             1-3 MSR CNTV_CVAL_EL0 * CNTV CVAL 15                     |\n\
             0x800000000000000A 0x800000000000000A 0x4000000000000000 '--.\n\
             up: CNTV                                                    |\n"
        );
    }

    #[test]
    fn the_widest_there_is_fits_with_short_names() {
        let text = drawn(&widest());
        let heading = text.lines().next().expect("a heading");
        assert!(heading.ends_with("TVAL P   V   HP  HV  HPS HVS"), "{text}");
        assert_eq!(heading.len(), COLUMNS);
    }

    #[test]
    fn a_count_that_goes_back_is_told_in_words() {
        let first = start(9);
        let back = turn(&first, 5, &[]);
        let text = drawn(&[first, back]);
        assert!(
            text.contains("start\n-- the count goes back --\n    5 "),
            "{text}"
        );
    }

    #[test]
    fn a_line_that_is_not_known_is_in_the_legend_where_there_is_one() {
        let words = "? in a line's column: the state is impossible, and its lines are not known.";
        let mut moments = vec![start(1)];
        assert!(!table(&moments).contains(words));
        moments[0].seen.lines = None;
        let text = table(&moments);
        assert!(text.ends_with(&format!("{words}\n")), "{text}");
        assert!(text.lines().all(|line| line.len() <= COLUMNS), "{text}");
    }

    #[test]
    fn without_a_moment_there_is_no_table() {
        assert_eq!(table(&[]), "no record, so no timeline\n");
    }
}
