//! What a field of a state holds, as it is shown.

use crate::control::bits_of;
use crate::fields::FieldName;

use super::number::{digits, number};

pub(crate) fn held_in(name: &FieldName, value: u64) -> String {
    match bits_of(name.register, false) {
        Some(_) => digits(value),
        None => number(value),
    }
}
