//! Work that is shared out among the cores of the machine.

use std::num::NonZero;
use std::sync::atomic::{AtomicUsize, Ordering};
use std::thread;

/// What the work came to on each item, in the order of the items.
pub(crate) fn shared_out<I: Sync, T: Send>(
    items: &[I],
    work: impl Fn(&I) -> Result<T, String> + Sync,
) -> Result<Vec<T>, String> {
    let workers = thread::available_parallelism().map_or(1, NonZero::get);
    let next = AtomicUsize::new(0);
    let take_turns = || in_turn(items, &next, &work);
    let parts: Result<Vec<_>, String> = thread::scope(|scope| {
        let workers: Vec<_> = (0..workers).map(|_| scope.spawn(take_turns)).collect();
        let panicked = || Err("a worker panicked".to_string());
        workers
            .into_iter()
            .map(|worker| worker.join().unwrap_or_else(|_| panicked()))
            .collect()
    });
    let mut done: Vec<(usize, T)> = parts?.into_iter().flatten().collect();
    done.sort_by_key(|&(place, _)| place);
    Ok(done.into_iter().map(|(_, done)| done).collect())
}

/// One item after the other, each the next that no worker has taken, with its place.
fn in_turn<I, T>(
    items: &[I],
    next: &AtomicUsize,
    work: impl Fn(&I) -> Result<T, String>,
) -> Result<Vec<(usize, T)>, String> {
    let mut done = Vec::new();
    loop {
        let place = next.fetch_add(1, Ordering::Relaxed);
        match items.get(place) {
            Some(item) => done.push((place, work(item)?)),
            None => return Ok(done),
        }
    }
}

#[cfg(test)]
mod tests {
    use super::*;

    #[test]
    fn what_was_done_stands_in_the_order_of_the_items() {
        let items: Vec<u64> = (0..1000).collect();
        let doubled = shared_out(&items, |item| Ok(2 * item)).expect("nothing fails");
        assert!(doubled
            .iter()
            .zip(items)
            .all(|(done, item)| *done == 2 * item));
        assert_eq!(doubled.len(), 1000);
    }

    #[test]
    fn one_failure_is_a_failure_of_the_whole() {
        let failing = |item: &u64| match item {
            617 => Err("at 617".to_string()),
            _ => Ok(()),
        };
        let items: Vec<u64> = (0..1000).collect();
        assert_eq!(shared_out(&items, failing), Err("at 617".to_string()));
    }
}
