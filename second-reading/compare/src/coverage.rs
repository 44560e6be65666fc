//! The coverage table: how often each clause of the paper decided.

use reading::{Cell, Clause, Scope, Tally};

/// One line for each clause: how often it decided, and where it did so least often.
pub fn coverage_table(tally: &Tally) -> String {
    Clause::ALL
        .iter()
        .map(|&clause| row(tally, clause) + "\n")
        .collect()
}

fn row(tally: &Tally, clause: Clause) -> String {
    let words = clause.to_string();
    let total = tally.total(clause);
    match (clause.scope(), least(tally, clause)) {
        (Scope::OutsideJournals, _) => format!("{words:<56} {:>8}", "outside"),
        (Scope::Once, _) | (_, None) => format!("{words:<56} {total:>8}"),
        (_, Some((count, cell))) => {
            format!("{words:<56} {total:>8}  least {count:>6}: {}", place(cell))
        }
    }
}

fn least(tally: &Tally, clause: Clause) -> Option<(u64, Cell)> {
    let cells = clause.scope().cells().into_iter();
    cells
        .map(|cell| (tally.count(clause, cell), cell))
        .min_by_key(|&(count, _)| count)
}

fn place(cell: Cell) -> String {
    match cell {
        Cell::Whole => String::new(),
        Cell::Call(register, direction) => {
            format!("{direction:?} {}", register.name()).to_uppercase()
        }
        Cell::Timer(timer) => timer.name().to_string(),
    }
}

#[cfg(test)]
mod tests {
    use super::*;

    #[test]
    fn a_clause_never_met_stands_with_zero() {
        let table = coverage_table(&Tally::default());
        let rows: Vec<&str> = table.lines().collect();
        assert_eq!(rows.len(), Clause::ALL.len());
        let tval = rows.iter().find(|row| row.starts_with("TVAL write"));
        assert!(tval.is_some_and(|row| row.ends_with("0  least      0: CNTP")));
        let level = rows.iter().find(|row| row.contains("level above 3"));
        assert!(level.is_some_and(|row| row.ends_with("outside")));
    }
}
