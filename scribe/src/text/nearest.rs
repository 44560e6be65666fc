//! The names that a misspelt one is nearest to.

/// More names than this say nothing.
const TOLD: usize = 3;

/// The nearest names as the end of a message; nothing where none is near.
pub(super) fn told_nearest(word: &str, names: &[&str]) -> String {
    match nearest(word, names).as_slice() {
        [] => String::new(),
        names => format!("; nearest: {}", names.join(", ")),
    }
}

/// Those of the names that the fewest edits of a letter lead to, in their order. Where one is the
/// other's beginning, as CNTV is of CNTV_CVAL_EL0, that is near however much follows.
fn nearest<'a>(word: &str, names: &[&'a str]) -> Vec<&'a str> {
    let word = word.to_uppercase();
    let edits = |name: &str| edits(&word, &name.to_uppercase());
    let begins_alike = |name: &str| word.starts_with(name) || name.starts_with(&word);
    let is_near = |name: &str| edits(name) * 2 < word.len();
    let mut found: Vec<&str> = names.to_vec();
    match names.iter().any(|name| begins_alike(name)) {
        true => found.retain(|name| begins_alike(name)),
        false => found.retain(|name| is_near(name)),
    }
    let fewest = found.iter().map(|name| edits(name)).min();
    found.retain(|name| Some(edits(name)) == fewest);
    found.truncate(TOLD);
    found
}

/// How many letters have to be put in, taken out or changed.
fn edits(from: &str, to: &str) -> usize {
    let to: Vec<char> = to.chars().collect();
    let mut row: Vec<usize> = (0..=to.len()).collect();
    for letter in from.chars() {
        let mut above_left = row[0];
        row[0] += 1;
        for (place, wanted) in to.iter().enumerate() {
            let above = row[place + 1];
            let changed = above_left + usize::from(letter != *wanted);
            row[place + 1] = changed.min(above + 1).min(row[place] + 1);
            above_left = above;
        }
    }
    row[to.len()]
}

#[cfg(test)]
mod tests {
    use super::*;

    #[test]
    fn edits_are_counted_by_the_letter() {
        assert_eq!(edits("CNTV", "CNTV"), 0);
        assert_eq!(edits("CNTX", "CNTV"), 1);
        assert_eq!(edits("CNT", "CNTV"), 1);
        assert_eq!(edits("CNTVV", "CNTV"), 1);
        assert_eq!(edits("", "CNTV"), 4);
        assert_eq!(edits("VTNC", "CNTV"), 4);
    }

    #[test]
    fn the_nearest_are_all_that_are_equally_near() {
        let names = ["CNTP", "CNTV", "CNTHP", "CNTVOFF"];
        assert_eq!(nearest("cntvof", &names), ["CNTVOFF"]);
        assert_eq!(nearest("CNTX", &names), ["CNTP", "CNTV"]);
        let many = ["CNTA", "CNTB", "CNTC", "CNTD"];
        assert_eq!(nearest("CNTX", &many), ["CNTA", "CNTB", "CNTC"]);
    }

    #[test]
    fn a_name_that_begins_alike_goes_before_one_with_fewer_edits() {
        let names = ["CNTHP", "CNTHPS", "CNTKCTL", "CNTVCT_EL0"];
        assert_eq!(nearest("CNTHP_CTL", &names), ["CNTHP"]);
        assert_eq!(nearest("CNTHPS_CTL", &names), ["CNTHPS"]);
        assert_eq!(nearest("CNTVCT", &names), ["CNTVCT_EL0"]);
    }

    #[test]
    fn what_is_far_from_all_is_near_to_none() {
        let names = ["CNTP", "CNTV"];
        assert!(nearest(";", &names).is_empty());
        assert!(nearest("CXYV", &names).is_empty());
    }
}
