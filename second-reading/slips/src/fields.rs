//! A field of a control register that a write drops, and a reserved bit that it keeps.

use reading::{AsWritten, Field, Layout, Paper};

use crate::Slip;

pub(crate) fn slips() -> Vec<Slip> {
    let each = |layout: Layout| {
        let fields = layout.fields(true).map(move |field| dropped(layout, field));
        let reserved = (0..32).filter(move |place| layout.bits(false) >> place & 1 == 0);
        fields.chain(reserved.map(move |place| kept(layout, place)))
    };
    Layout::ALL.into_iter().flat_map(each).collect()
}

fn dropped(layout: Layout, field: &Field) -> Slip {
    let slip = Stored {
        layout,
        dropped: field.bits(),
        kept: 0,
    };
    Slip::new(
        &format!("dropped by a write: {} of {layout}", field.name),
        slip,
    )
}

fn kept(layout: Layout, place: u32) -> Slip {
    let slip = Stored {
        layout,
        dropped: 0,
        kept: 1 << place,
    };
    let without_ecv = if layout.bits(true) >> place & 1 == 1 {
        ", without ECV"
    } else {
        ""
    };
    let words = format!("kept by a write: bit {place} of {layout}{without_ecv}");
    Slip::new(&words, slip)
}

struct Stored {
    layout: Layout,
    dropped: u32,
    kept: u32,
}

impl Paper for Stored {
    fn stored_bits(&self, layout: Layout, ecv: bool) -> u32 {
        let bits = AsWritten.stored_bits(layout, ecv);
        if layout == self.layout {
            bits & !self.dropped | self.kept
        } else {
            bits
        }
    }
}
