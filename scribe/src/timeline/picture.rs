//! The timeline as a picture: a column for each moment, time going right, and a track for each line.
//!
//! The columns are evenly spaced, since a lease may be a few ticks at a count of twenty digits. As
//! many as fit stand in a band, and the bands stand one below the other.

use crate::words::number;
use crate::written::Lines;

use super::labels::{
    drawn, left, moved_beside_timers, moved_of, records, turned, tval, virtual_count,
    with_lines_before,
};
use super::moments::{Cause, Moment};
use super::svg::Svg;
use super::track::Track;

const WIDTH: usize = 880;
const MARGIN: usize = 16;
/// Where the names of the rows end and the columns begin.
const LEFT: usize = 96;
const ROW: usize = 18;
const NARROWEST: usize = 64;
/// What is left free between two columns.
const BETWEEN: usize = 13;

const LEGEND: [&str; 3] = [
    "A column is a moment; they are evenly spaced, not to scale. Timers but CNTV that are never on, up or written are left out.",
    "virtual and TVAL are CNTVCT and CNTV_TVAL as a guest reads them at EL1: ? is unknown, - cannot be read there.",
    "High and filled: the line is up. Diamond or new value: a write changed that timer or register. Dashed: the count alone turned a line.",
];

/// A moment with the lines before it.
pub(super) type Step<'a> = (&'a Moment, &'a Lines);

/// Moments that stand side by side, each at its place, between the ends of the tracks.
pub(super) struct Band<'a> {
    pub(super) steps: &'a [Step<'a>],
    pub(super) places: Vec<usize>,
    pub(super) ends: (usize, usize),
}

/// The picture of those moments: the bytes of an SVG file.
pub fn picture(moments: &[Moment]) -> String {
    let last = moments
        .iter()
        .filter_map(|moment| moment.records)
        .next_back();
    let records = last.map(|(_, last)| last).unwrap_or_default();
    let title = match records {
        0 => "Timer lines over a journal without a record".to_string(),
        1 => "Timer lines over a journal of 1 record".to_string(),
        many => format!("Timer lines over a journal of {many} records"),
    };
    let mut sheet = Sheet::of(moments);
    sheet.words("title", &title);
    sheet.y += ROW / 2;
    for steps in bands(moments, sheet.columns_in_a_band()) {
        let band = sheet.laid_out(&steps);
        sheet.draw(&band);
    }
    for line in LEGEND {
        sheet.words("plain", line);
    }
    let size = (WIDTH, sheet.y + MARGIN / 2);
    sheet.svg.file(size, &title, &about(moments))
}

/// What the picture shows, in words.
fn about(moments: &[Moment]) -> String {
    let turns = with_lines_before(moments).filter(|(moment, before)| moment.seen.lines != **before);
    let told = turns.map(|(moment, before)| {
        let turned = turned(before, &moment.seen.lines);
        format!("at count {} {turned}", number(moment.count))
    });
    match told.collect::<Vec<_>>().as_slice() {
        [] => "No line turns.".to_string(),
        told => format!("Lines turn {}.", told.join("; ")),
    }
}

/// Bands of so many columns. Where the count goes back a new one begins.
fn bands(moments: &[Moment], columns: usize) -> Vec<Vec<Step<'_>>> {
    let mut bands: Vec<Vec<Step>> = Vec::new();
    for step in with_lines_before(moments) {
        match bands.last_mut() {
            Some(band) if band.len() < columns && !step.0.goes_back => band.push(step),
            _ => bands.push(vec![step]),
        }
    }
    bands
}

/// What is drawn so far, down to `y`, and what the bands have in common.
struct Sheet {
    svg: Svg,
    y: usize,
    column: usize,
    tracks: Vec<Track>,
    /// What a record changed beside the timers has a row.
    beside: Vec<&'static str>,
}

impl Sheet {
    fn of(moments: &[Moment]) -> Sheet {
        let timers = drawn(moments).into_iter();
        let tracks: Vec<Track> = timers.map(|timer| Track::of(timer, moments)).collect();
        Sheet {
            svg: Svg::default(),
            y: MARGIN,
            column: column_width(moments),
            tracks,
            beside: moved_beside_timers(moments),
        }
    }

    fn columns_in_a_band(&self) -> usize {
        ((WIDTH - MARGIN - LEFT) / self.column).max(1)
    }

    fn laid_out<'a>(&self, steps: &'a [Step<'a>]) -> Band<'a> {
        let middle = |index| LEFT + index * self.column + self.column / 2;
        Band {
            steps,
            places: (0..steps.len()).map(middle).collect(),
            ends: (LEFT, LEFT + steps.len() * self.column),
        }
    }

    fn words(&mut self, class: &str, words: &str) {
        self.y += ROW;
        self.svg.words(class, MARGIN, self.y - ROW / 4, words);
    }

    fn draw(&mut self, band: &Band) {
        if band.steps.iter().any(|(moment, _)| moment.goes_back) {
            self.words("plain", "The count goes back:");
        }
        self.row("records", "record", band, |moment| match moment.records {
            None if moment.cause == Cause::Start => "start".to_string(),
            _ => records(moment),
        });
        self.row("count", "count", band, |moment| number(moment.count));
        self.row("virtual", "value", band, virtual_count);
        self.row("TVAL", "value", band, tval);
        for register in self.beside.clone() {
            let moved = |moment: &Moment| moved_of(moment, register).join(" ");
            self.row(register, "note", band, moved);
        }
        self.y += ROW / 3;
        self.columns(band);
        for track in &self.tracks {
            let name = track.middle(self.y);
            self.svg.words("name", MARGIN, name, track.name());
            track.draw(&mut self.svg, self.y, band);
            self.y += track.height();
        }
        self.y += ROW;
    }

    fn row(&mut self, name: &str, class: &str, band: &Band, words: impl Fn(&Moment) -> String) {
        self.words("name", name);
        for (x, (moment, _)) in band.places.iter().zip(band.steps) {
            self.svg.words(class, *x, self.y - ROW / 4, &words(moment));
        }
    }

    fn columns(&mut self, band: &Band) {
        let tracks: usize = self.tracks.iter().map(Track::height).sum();
        for (&x, (moment, _)) in band.places.iter().zip(band.steps) {
            let class = match moment.cause {
                Cause::Count => "turn",
                _ => "moment",
            };
            self.svg.stroke(class, (x, self.y), (x, self.y + tracks));
        }
    }
}

/// Wide enough for the widest words of any moment, by the widest of the usual fonts.
fn column_width(moments: &[Moment]) -> usize {
    let values = moments.iter().flat_map(|moment| {
        let [count, seen, left] = [number(moment.count), virtual_count(moment), tval(moment)];
        [records(moment), count, seen, left]
    });
    let notes = moments
        .iter()
        .flat_map(|moment| moment.moved.iter().map(left));
    let longest = |words: &mut dyn Iterator<Item = String>| words.map(|words| words.len()).max();
    let values = longest(&mut { values }).unwrap_or_default() * 15 / 2;
    let notes = longest(&mut { notes }).unwrap_or_default() * 7;
    (values.max(notes) + BETWEEN).max(NARROWEST)
}

#[cfg(test)]
mod tests {
    use super::*;
    use crate::timeline::samples::{start, turn, widest, write};
    use crate::timeline::track::RISE;
    use crate::timeline::well_formed::fault_in;

    fn well_formed(moments: &[Moment]) -> String {
        let file = picture(moments);
        assert_eq!(fault_in(&file), None, "{file}");
        file
    }

    /// What stays free between two words.
    const LETTER: usize = 8;

    fn attribute(line: &str, name: &str) -> Option<usize> {
        let value = line.split_once(&format!(" {name}=\""))?.1;
        value.split_once('"')?.0.parse().ok()
    }

    /// Where each word that is centred begins and ends, with its height, by the widest font.
    fn centred(file: &str) -> Vec<(usize, usize, usize)> {
        let class = |line: &str| {
            ["value", "count", "record", "note"]
                .iter()
                .any(|class| line.starts_with(&format!("<text class=\"{class}\"")))
        };
        let place = |line: &str| {
            let words = line.split_once('>')?.1.strip_suffix("</text>")?;
            let letter = if line.contains("\"note\"") { 14 } else { 15 };
            let half = words.len() * letter / 4;
            let x: usize = attribute(line, "x")?;
            Some((attribute(line, "y")?, x - half, x + half))
        };
        file.lines()
            .filter(|line| class(line))
            .filter_map(place)
            .collect()
    }

    #[test]
    fn no_word_is_cut_off_or_runs_into_another() {
        let first = start(u64::MAX);
        let second = turn(&first, u64::MAX, &[1]);
        for moments in [widest(), vec![first, second], vec![start(1)]] {
            let mut places = centred(&well_formed(&moments));
            places.sort_unstable();
            assert!(places.len() >= 3);
            for pair in places.windows(2) {
                let ((y, _, end), (below, next, _)) = (pair[0], pair[1]);
                assert!(y < below || end + LETTER <= next, "{pair:?}");
            }
            assert!(places
                .iter()
                .all(|&(_, from, to)| LEFT <= from && to <= WIDTH));
        }
    }

    #[test]
    fn a_band_ends_where_it_is_full_and_where_the_count_goes_back() {
        let mut moments = vec![start(9)];
        for count in [10, 11, 12, 5, 6] {
            let before = moments.last().expect("one before");
            moments.push(turn(before, count, &[]));
        }
        let lengths = |columns| {
            bands(&moments, columns)
                .iter()
                .map(Vec::len)
                .collect::<Vec<_>>()
        };
        assert_eq!(lengths(10), [4, 2]);
        assert_eq!(lengths(3), [3, 1, 2]);
        assert!(well_formed(&moments).contains("The count goes back:"));
    }

    #[test]
    fn the_picture_says_in_words_what_turns() {
        let first = start(5);
        let over = turn(&first, 15, &[1]);
        let mut state = over.seen.state;
        state.timers[1].enable = true;
        let told = well_formed(&[first.clone(), over.clone(), write(&over, 1, 0, state)]);
        assert!(told.contains("<desc id=\"about\">Lines turn at count 15 up: CNTV.</desc>"));
        assert!(told.contains(">Timer lines over a journal of 1 record</title>"));
        assert!(well_formed(&[first]).contains("No line turns."));
        assert!(well_formed(&[]).contains("a journal without a record"));
    }

    #[test]
    fn a_control_register_that_a_write_changed_has_a_row() {
        let first = start(5);
        let mut state = first.seen.state;
        state.cntkctl = 0x301;
        let shut = write(&first, 1, 0, state);
        let file = well_formed(&[first.clone(), shut]);
        assert_eq!(height_of(&file, "CNTKCTL"), height_of(&file, "0x301"));
        assert!(!well_formed(&[first]).contains("CNTKCTL"));
    }

    fn height_of(file: &str, words: &str) -> usize {
        let end = format!(">{words}</text>");
        let line = file.lines().find(|line| line.ends_with(&end));
        line.and_then(|line| attribute(line, "y")).expect(words)
    }

    #[test]
    fn a_note_stands_close_above_its_line_and_covers_no_part_of_it() {
        let down = start(5);
        let up = turn(&down, 5, &[2]);
        let mut state = down.seen.state;
        state.timers[2].cval = 77;
        for (before, now, rise) in [
            (&down, &down, 0),
            (&down, &up, RISE),
            (&up, &up, RISE),
            (&up, &down, RISE),
        ] {
            let mut written = write(before, 1, 0, state);
            written.seen.lines = now.seen.lines;
            let file = well_formed(&[before.clone(), written]);
            let low = height_of(&file, "CNTHP") + RISE / 4;
            assert_eq!(low - rise - height_of(&file, "CVAL 77"), 9, "{file}");
        }
    }

    #[test]
    fn of_a_state_that_cannot_be_there_is_no_wave() {
        let mut unknown = start(1);
        unknown.seen.lines = None;
        let file = well_formed(&[unknown]);
        assert!(file.contains("the state is impossible (5)") && !file.contains("<polyline"));
    }
}
