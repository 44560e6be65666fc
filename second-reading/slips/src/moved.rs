//! A control bit looked for one place too high.

use reading::{AsWritten, Control, Paper};

use crate::Slip;

pub(crate) fn slips() -> Vec<Slip> {
    Control::ALL.iter().copied().map(moved).collect()
}

fn moved(control: Control) -> Slip {
    Slip::new(
        &format!("looked for one bit higher: {control}"),
        Moved(control),
    )
}

struct Moved(Control);

impl Paper for Moved {
    fn place(&self, control: Control) -> u32 {
        AsWritten.place(control) + u32::from(control == self.0)
    }
}
