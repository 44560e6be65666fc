//! The end of a run in words: what it changed, and the lines.

use crate::fields::Change;
use crate::show::lines as in_lines;
use crate::state::TIMERS;
use crate::written::Lines;

use super::field::held_in;
use super::number::number;

/// What a run changed, a line for each field.
pub fn changes(changes: &[Change]) -> String {
    if changes.is_empty() {
        return "the final state is the first\n".to_string();
    }
    let change = |change: &Change| {
        let [before, after] =
            [change.before, change.after].map(|value| held_in(&change.name, value));
        format!("  {}: {before} -> {after}", change.name)
    };
    let told = in_lines(changes.iter().map(change));
    format!("the final state, where it differs from the first:\n{told}")
}

/// The answer to the lines question at a count.
pub fn lines(lines: &Lines, count: u64) -> String {
    let said = match lines {
        Some(lines) => up(lines),
        None => "refused, 5: the state is impossible".to_string(),
    };
    format!("lines at count {}: {said}\n", number(count))
}

fn up(lines: &[bool; TIMERS.len()]) -> String {
    let up = TIMERS.into_iter().zip(lines);
    let up: Vec<&str> = up.filter(|(_, up)| **up).map(|(name, _)| name).collect();
    match up.as_slice() {
        [] => "none is up".to_string(),
        up => format!("up: {}", up.join(", ")),
    }
}

#[cfg(test)]
mod tests {
    use super::*;

    #[test]
    fn lines_are_named() {
        let two = Some([true, false, false, false, false, true]);
        assert_eq!(lines(&two, 7), "lines at count 7: up: CNTP, CNTHVS\n");
        assert_eq!(
            lines(&Some([false; 6]), u64::MAX),
            "lines at count 0xFFFFFFFFFFFFFFFF: none is up\n"
        );
        assert_eq!(
            lines(&None, 0),
            "lines at count 0: refused, 5: the state is impossible\n"
        );
    }
}
