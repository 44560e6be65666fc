//! The slips are as many as the comparison is said to catch, and none stands twice.

use std::collections::HashSet;

use slips::Slip;

fn words(slips: &[Slip]) -> HashSet<String> {
    slips.iter().map(Slip::to_string).collect()
}

#[test]
fn no_slip_stands_twice() {
    let (of_journals, of_the_buffer) = (slips::of_journals(), slips::of_the_buffer());
    assert_eq!((of_journals.len(), of_the_buffer.len()), (267, 5));
    let all = &words(&of_journals) | &words(&of_the_buffer);
    assert_eq!(all.len(), 272);
}
