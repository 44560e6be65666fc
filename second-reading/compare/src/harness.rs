//! What the comparisons share that run without the test harness: how they end, how much they have
//! to compare, and that they catch every slip.

use std::process::ExitCode;

use slips::Slip;

/// The exit code of a comparison; a failure is told first.
pub fn ended(compared: Result<(), String>) -> ExitCode {
    match compared {
        Ok(()) => ExitCode::SUCCESS,
        Err(report) => {
            eprintln!("FAILED: {report}");
            ExitCode::FAILURE
        }
    }
}

/// The least that a stretch has to compare to count.
#[derive(Clone, Copy, Debug)]
pub struct Least {
    pub states: usize,
    pub records: usize,
}

impl Least {
    pub fn met_by(self, states: usize, records: usize) -> Result<(), String> {
        if states >= self.states && records >= self.records {
            return Ok(());
        }
        Err(format!(
            "too little was compared: {} states and {} records are due",
            self.states, self.records
        ))
    }
}

/// Every slip has to make a difference; `catches` has the place of the first case that shows one.
pub fn catch_each(slips: &[Slip], catches: impl Fn(&Slip) -> Option<usize>) -> Result<(), String> {
    println!("{} slips, and the case that catches each", slips.len());
    let mut missed = Vec::new();
    for slip in slips {
        let words = slip.to_string();
        match catches(slip) {
            Some(place) => println!("{words:<72} case {place:>4}"),
            None => missed.push(words),
        }
    }
    match missed.as_slice() {
        [] => Ok(()),
        missed => Err(format!("slips not caught: {missed:#?}")),
    }
}

#[cfg(test)]
mod tests {
    use super::*;

    #[test]
    fn one_too_few_is_too_little() {
        let least = Least {
            states: 3,
            records: 40,
        };
        assert_eq!(least.met_by(3, 40), Ok(()));
        assert!(least.met_by(2, 40).is_err());
        assert!(least.met_by(3, 39).is_err());
    }

    #[test]
    fn a_slip_that_makes_no_difference_is_named() {
        let slips = slips::of_the_buffer();
        let words: Vec<String> = slips.iter().map(Slip::to_string).collect();
        assert_eq!(catch_each(&slips, |_| Some(3)), Ok(()));
        let missed = catch_each(&slips, |slip| (slip.to_string() != words[1]).then_some(3));
        assert!(
            missed.is_err_and(|missed| missed.contains(&words[1]) && !missed.contains(&words[0]))
        );
    }
}
