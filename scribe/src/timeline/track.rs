//! The track of one timer in the picture: its line as a wave, and marks where a write changed it.

use crate::state::TIMERS;

use super::labels::{is_up, moved_of};
use super::moments::Moment;
use super::picture::Band;
use super::svg::Svg;

/// How far up a line goes.
pub(super) const RISE: usize = 22;
/// A line of notes above it.
const NOTE: usize = 13;
const GAP: usize = 12;

pub(super) struct Track {
    timer: usize,
    /// How many lines of notes the moment with the most of them has.
    notes: usize,
}

impl Track {
    pub(super) fn of(timer: usize, moments: &[Moment]) -> Track {
        let notes = moments
            .iter()
            .map(|moment| moved_of(moment, TIMERS[timer]).len());
        Track {
            timer,
            notes: notes.max().unwrap_or_default(),
        }
    }

    pub(super) fn name(&self) -> &'static str {
        TIMERS[self.timer]
    }

    pub(super) fn height(&self) -> usize {
        GAP + self.notes * NOTE + RISE
    }

    /// Where the name stands, of a track that begins at a height.
    pub(super) fn middle(&self, top: usize) -> usize {
        self.low(top) - RISE / 4
    }

    fn low(&self, top: usize) -> usize {
        top + self.height()
    }

    fn level(&self, top: usize, up: bool) -> usize {
        self.low(top) - if up { RISE } else { 0 }
    }

    /// Draws a band of it.
    pub(super) fn draw(&self, svg: &mut Svg, top: usize, band: &Band) {
        let lines = band.steps.iter().map(|(moment, _)| &moment.seen.lines);
        let known: Option<Vec<bool>> = lines.map(|lines| is_up(lines, self.timer)).collect();
        let Some(ups) = known else {
            return self.draw_nothing(svg, top, band);
        };
        let before = is_up(band.steps[0].1, self.timer).unwrap_or(ups[0]);
        self.draw_wave(svg, top, band.ends, &strokes(band, before, &ups));
        let befores = [before].into_iter().chain(ups.iter().copied());
        let places = band.places.iter().zip(befores.zip(&ups));
        for ((moment, _), (&x, (before, &up))) in band.steps.iter().zip(places) {
            let moved = moved_of(moment, TIMERS[self.timer]);
            if !moved.is_empty() {
                svg.diamond("mark", (x, self.level(top, up)));
                draw_notes(svg, (x, self.level(top, before || up)), &moved);
            }
        }
    }

    fn draw_nothing(&self, svg: &mut Svg, top: usize, band: &Band) {
        let why = "not to be asked, since the state is impossible (5)";
        let (left, right) = band.ends;
        let end = right.max(left + words_width(why));
        svg.area("paper", (left, top), (end, self.low(top)));
        svg.words("plain", left, self.middle(top), why);
    }

    fn draw_wave(&self, svg: &mut Svg, top: usize, ends: (usize, usize), strokes: &[Stroke]) {
        let low = self.low(top);
        svg.stroke("low", (ends.0, low), (ends.1, low));
        for stroke in strokes.iter().filter(|stroke| stroke.up) {
            svg.area("up", (stroke.from, self.level(top, true)), (stroke.to, low));
        }
        let points = strokes.iter().flat_map(|stroke| {
            let y = self.level(top, stroke.up);
            [(stroke.from, y), (stroke.to, y)]
        });
        svg.polyline("wave", &points.collect::<Vec<_>>());
    }
}

/// Notes close above a place, where they cover no part of the line that leads there or goes on.
fn draw_notes(svg: &mut Svg, (x, y): (usize, usize), notes: &[String]) {
    let bottom = y - GAP / 2;
    let top = bottom - NOTE * notes.len();
    let widths = notes.iter().map(|note| words_width(note));
    let half = widths.max().unwrap_or_default() / 2;
    // The column that goes down there would run through the words.
    svg.area("paper", (x - half, top), (x + half, bottom));
    for (line, note) in notes.iter().enumerate() {
        svg.words("note", x, top + NOTE * (line + 1) - 3, note);
    }
}

/// A piece of a line between two places.
struct Stroke {
    from: usize,
    to: usize,
    up: bool,
}

/// The line from end to end of a band, by whether it is up before and from each place on.
fn strokes(band: &Band, before: bool, ups: &[bool]) -> Vec<Stroke> {
    let (left, right) = band.ends;
    let from = [left].into_iter().chain(band.places.iter().copied());
    let to = band.places.iter().copied().chain([right]);
    let up = [before].into_iter().chain(ups.iter().copied());
    from.zip(to)
        .zip(up)
        .map(|((from, to), up)| Stroke { from, to, up })
        .collect()
}

/// What small words take at most.
fn words_width(words: &str) -> usize {
    words.len() * 7
}

#[cfg(test)]
mod tests {
    use super::*;

    #[test]
    fn a_line_stands_as_before_up_to_the_first_place() {
        let band = Band {
            steps: &[],
            places: vec![20, 30],
            ends: (10, 40),
        };
        let drawn = strokes(&band, true, &[false, true]);
        let drawn: Vec<_> = drawn.iter().map(|s| (s.from, s.to, s.up)).collect();
        assert_eq!(drawn, [(10, 20, true), (20, 30, false), (30, 40, true)]);
    }
}
