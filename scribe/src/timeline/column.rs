//! One timer's line, drawn from top to bottom: at the left of its column it is down, at the right up.

use crate::written::Lines;

use super::labels::{is_marked, is_up};
use super::moments::Moment;

pub(super) struct Column {
    timer: usize,
    name: &'static str,
    width: usize,
}

impl Column {
    pub(super) fn of(timer: usize, name: &'static str) -> Column {
        // Two sides, and something between them.
        let width = name.len().max(3);
        Column { timer, name, width }
    }

    pub(super) fn heading(&self) -> String {
        format!("{:width$}", self.name, width = self.width)
    }

    /// The line as a moment turns it, with a mark where a write changed its timer or the offset.
    pub(super) fn turning(&self, moment: &Moment, before: &Lines) -> String {
        let across = "-".repeat(self.width - 2);
        let marked = is_marked(moment, self.timer);
        let corner = if marked { "*" } else { "." };
        let now = is_up(&moment.seen.lines, self.timer);
        match (is_up(before, self.timer), now) {
            (Some(false), Some(true)) => format!("'{across}{corner}"),
            (Some(true), Some(false)) => format!("{corner}{across}'"),
            _ => self.stroke(now, if marked { "*" } else { "|" }),
        }
    }

    /// The line as it stands after a moment.
    pub(super) fn standing(&self, moment: &Moment) -> String {
        self.stroke(is_up(&moment.seen.lines, self.timer), "|")
    }

    fn stroke(&self, up: Option<bool>, stroke: &str) -> String {
        let width = self.width;
        match up {
            Some(true) => format!("{stroke:>width$}"),
            Some(false) => format!("{stroke:<width$}"),
            None => format!("{:width$}", "?"),
        }
    }
}

#[cfg(test)]
mod tests {
    use super::*;
    use crate::state::{State, TIMERS};
    use crate::timeline::samples::{start, turn, write};

    #[test]
    fn a_line_turns_from_side_to_side() {
        let column = Column::of(1, "CNTV");
        let down = start(1);
        let up = turn(&down, 2, &[1]);
        let drawn = |now: &Moment, before: &Moment| column.turning(now, &before.seen.lines);
        assert_eq!(drawn(&down, &down), "|   ");
        assert_eq!(drawn(&up, &down), "'--.");
        assert_eq!(drawn(&up, &up), "   |");
        assert_eq!(drawn(&down, &up), ".--'");
        assert_eq!(column.standing(&up), "   |");
        assert_eq!(Column::of(0, "P").turning(&up, &down.seen.lines), "|  ");
    }

    #[test]
    fn a_moved_deadline_is_marked_on_the_line_that_it_is_of() {
        let column = Column::of(1, "CNTV");
        let down = start(1);
        let mut state = down.seen.state;
        state.timers[1].cval = 5;
        let moved = write(&down, 1, 0, state);
        let mut raised = moved.clone();
        raised.seen.lines = turn(&down, 1, &[1]).seen.lines;
        let drawn = |now: &Moment, before: &Moment| column.turning(now, &before.seen.lines);
        assert_eq!(drawn(&moved, &down), "*   ");
        assert_eq!(drawn(&raised, &down), "'--*");
        assert_eq!(drawn(&raised, &raised), "   *");
        assert_eq!(drawn(&moved, &raised), "*--'");
        assert_eq!(Column::of(0, "CNTP").turning(&moved, &None), "|   ");
    }

    #[test]
    fn a_new_offset_is_marked_on_the_timer_whose_count_it_shifts() {
        let down = start(1);
        let drawn = |state: State, timer: usize| {
            let moved = write(&down, 1, 0, state);
            Column::of(timer, TIMERS[timer]).turning(&moved, &down.seen.lines)
        };
        let marked = |state: State| -> Vec<&str> {
            let timers = (0..TIMERS.len()).filter(|&timer| drawn(state, timer).contains('*'));
            timers.map(|timer| TIMERS[timer]).collect()
        };
        let mut state = down.seen.state;
        state.cntvoff += 1;
        assert_eq!(marked(state), ["CNTV"]);
        state = down.seen.state;
        state.cntpoff += 1;
        assert_eq!(marked(state), ["CNTP"]);
        state = down.seen.state;
        state.cnthctl ^= 1 << 12;
        assert_eq!(marked(state), ["CNTP"], "the offset is turned on");
        state = down.seen.state;
        state.cnthctl ^= 1;
        state.cntkctl ^= 1 << 12;
        assert!(marked(state).is_empty());
    }

    #[test]
    fn of_a_state_that_cannot_be_no_line_is_known() {
        let mut unknown = start(1);
        unknown.seen.lines = None;
        assert_eq!(Column::of(1, "CNTV").turning(&unknown, &None), "?   ");
    }
}
