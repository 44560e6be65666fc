//! What a page comes to.

use crate::clause::Clause;

/// The way that an access takes.
#[derive(Clone, Copy, Debug, PartialEq, Eq)]
pub(crate) enum Way<T> {
    Undefined,
    TrapToEl1,
    TrapToEl2,
    TrapToEl3,
    Allowed(T),
}

/// The way, with the clause that decided.
pub(crate) type Ruling<T> = (Clause, Way<T>);
