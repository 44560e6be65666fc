//! Where a line may change while no record comes. Only where to ask is said here; what is drawn
//! there is for the desk to say.

use crate::state::{State, Timer};

/// The counts between two others at which to ask, in their order: where a timer that can raise its
/// line has its deadline, by whichever offset, and where a count with an offset begins anew.
pub(super) fn proposed(state: &State, after: u64, before: u64) -> Vec<u64> {
    let offsets = [0, state.cntvoff, state.cntpoff];
    let raising = |timer: &&Timer| timer.enable && !timer.imask;
    let deadlines = state.timers.iter().filter(raising).map(|timer| timer.cval);
    let mut counts: Vec<u64> = deadlines
        .chain([0])
        .flat_map(|deadline| offsets.map(|offset| deadline.wrapping_add(offset)))
        .filter(|count| after < *count && *count < before)
        .collect();
    counts.sort_unstable();
    counts.dedup();
    counts
}

#[cfg(test)]
mod tests {
    use super::*;

    fn with_cntv(cval: u64, enable: bool, imask: bool) -> State {
        let mut state = State::bench();
        state.timers[1] = Timer {
            cval,
            enable,
            imask,
        };
        state
    }

    #[test]
    fn a_deadline_is_proposed_by_each_offset() {
        let mut state = with_cntv(1100, true, false);
        state.cntpoff = 50;
        assert_eq!(proposed(&state, 1000, 2000), [1100, 1150, 1500]);
        assert_eq!(proposed(&state, 1100, 1500), [1150]);
    }

    #[test]
    fn a_deadline_may_wrap_and_a_count_may_begin_anew() {
        let state = with_cntv(u64::MAX, true, false);
        assert_eq!(proposed(&state, 300, 500), [399, 400]);
        assert_eq!(proposed(&State::bench(), 300, 500), [400]);
    }

    #[test]
    fn a_timer_that_cannot_raise_its_line_has_no_deadline() {
        for state in [with_cntv(600, false, false), with_cntv(600, true, true)] {
            assert_eq!(proposed(&state, 500, 2000), []);
        }
    }

    #[test]
    fn nothing_lies_between_a_count_and_one_that_is_not_later() {
        let state = with_cntv(1100, true, false);
        assert_eq!(proposed(&state, 1500, 1500), []);
        assert_eq!(proposed(&state, 2000, 1000), []);
    }
}
