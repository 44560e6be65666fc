//! What a write stores and what a read gives.

use reading::Register::{Cnthctl, Cntkctl, Cntpoff, Cntvct};
use reading::{Access, Answer, ControlName, Reading, Register, State};

use crate::common::{Bench, RT};
use crate::{with_e2h, with_ecv, words};

#[test]
fn cntpoff_is_read_and_written_whole() {
    for level in [2, 3] {
        let before = with_ecv(true);
        let mut bench = Bench::of(before);
        assert_eq!(bench.read(Cntpoff, level, 0).value, 100);
        let cntpoff = 0xFEDC_BA98_7654_3210;
        let written = bench.write(Cntpoff, level, cntpoff, 0);
        assert_eq!(written, Answer::number(0, RT));
        assert_eq!(bench.reading.state, State { cntpoff, ..before });
        assert_eq!(bench.read(Cntpoff, level, 0).value, cntpoff);
    }
}

/// The register and the level of a write, the facts that pick the bits, and the bits stored.
struct Stored {
    writes: (Register, u8),
    e2h: bool,
    ecv: bool,
    reached: ControlName,
    bits: u32,
}

const fn stored(
    writes: (Register, u8),
    (e2h, ecv): (bool, bool),
    reached: ControlName,
    bits: u32,
) -> Stored {
    Stored {
        writes,
        e2h,
        ecv,
        reached,
        bits,
    }
}

const STORED: [Stored; 14] = [
    stored((Cntkctl, 1), (false, false), ControlName::Cntkctl, 0x3FF),
    stored((Cntkctl, 1), (false, true), ControlName::Cntkctl, 0x203FF),
    stored((Cntkctl, 1), (true, false), ControlName::Cntkctl, 0x3FF),
    stored((Cntkctl, 1), (true, true), ControlName::Cntkctl, 0x203FF),
    stored((Cntkctl, 2), (false, false), ControlName::Cntkctl, 0x3FF),
    stored((Cntkctl, 2), (false, true), ControlName::Cntkctl, 0x203FF),
    stored((Cntkctl, 2), (true, false), ControlName::Cnthctl, 0xFFF),
    stored((Cntkctl, 2), (true, true), ControlName::Cnthctl, 0x3FFFF),
    stored((Cnthctl, 2), (false, false), ControlName::Cnthctl, 0xFF),
    stored((Cnthctl, 2), (false, true), ControlName::Cnthctl, 0x3F0FF),
    stored((Cnthctl, 2), (true, false), ControlName::Cnthctl, 0xFFF),
    stored((Cnthctl, 2), (true, true), ControlName::Cnthctl, 0x3FFFF),
    stored((Cntkctl, 3), (true, true), ControlName::Cntkctl, 0x203FF),
    stored((Cnthctl, 3), (true, true), ControlName::Cnthctl, 0x3FFFF),
];

impl Stored {
    fn before(&self) -> State {
        State {
            e2h: self.e2h,
            ecv: self.ecv,
            ..State::bench()
        }
    }

    /// What a write of the operand leaves, over nothing and over reserved bits that were held.
    fn after(&self, operand: u64) -> u32 {
        let reserved = 0xFFF8_0000;
        let [fresh, held] = [0, reserved].map(|held| {
            let mut before = self.before();
            *before.control_mut(self.reached) = held;
            let mut bench = Bench::of(before);
            let (register, level) = self.writes;
            assert_eq!(bench.write(register, level, operand, 0).number, 0);
            let after = bench.reading.state.control(self.reached);
            *before.control_mut(self.reached) = after;
            assert_eq!(bench.reading.state, before, "nothing else moves");
            after
        });
        assert_eq!(fresh, held, "a reserved bit is stored as 0");
        fresh
    }
}

#[test]
fn a_write_stores_the_bits_of_arms_pages() {
    for row in &STORED {
        let (register, level) = row.writes;
        let head = format!(
            "{register:?} at EL{level}, E2H {}, ECV {}",
            row.e2h, row.ecv
        );
        assert_eq!(row.after(u64::MAX), row.bits, "{head}");
        assert_eq!(row.after(0xFFFF_FFFF_0000_0000), 0, "{head}");
        for place in 0..64 {
            let bit = 1u64 << place;
            let kept = u64::from(row.bits) & bit;
            assert_eq!(u64::from(row.after(bit)), kept, "{head}, bit {place}");
        }
    }
}

#[test]
fn no_write_makes_a_context_that_5_refuses() {
    for e2h in [false, true] {
        for (register, level) in [(Cntkctl, 1), (Cntkctl, 2), (Cnthctl, 2), (Cnthctl, 3)] {
            let mut bench = Bench::of(with_e2h(e2h));
            assert_eq!(bench.write(register, level, u64::MAX, 0).number, 0);
            assert_eq!(bench.read(Cntvct, 1, 1000).value, 600);
            assert_eq!(bench.reading.lines(0).number, 0);
        }
    }
}

#[test]
fn a_read_gives_the_32_bits_held_also_reserved_ones() {
    for e2h in [false, true] {
        let state = State {
            e2h,
            ecv: true,
            cntkctl: 0xFFFF_FFFF,
            cnthctl: 0x8FFC_0F00,
            ..State::bench()
        };
        let value = |register, level| Bench::of(state).read(register, level, 0);
        let at_el2 = if e2h { 0x8FFC_0F00 } else { 0xFFFF_FFFF };
        let expected = [
            ((Cntkctl, 1), 0xFFFF_FFFF),
            ((Cntkctl, 2), at_el2),
            ((Cntkctl, 3), 0xFFFF_FFFF),
            ((Cnthctl, 2), 0x8FFC_0F00),
            ((Cnthctl, 3), 0x8FFC_0F00),
        ];
        for ((register, level), held) in expected {
            let read = value(register, level);
            assert_eq!((read.number, read.value, read.mask), (0, held, 0));
        }
    }
}

#[test]
fn rt_31_writes_zero_to_each() {
    let state = State {
        cntkctl: 0x303,
        cnthctl: 3,
        ..with_ecv(true)
    };
    let rt_31 = |word: u32| Access {
        word: word | 31,
        level: 2,
        operand: u64::MAX,
        count: 0,
    };
    let mut reading = Reading::new(state);
    for word in [
        words::CNTKCTL_WRITTEN,
        words::CNTHCTL_WRITTEN,
        words::CNTPOFF_WRITTEN,
    ] {
        assert_eq!(reading.access(&rt_31(word)), Answer::number(0, 31));
    }
    let zeroed = State {
        cntkctl: 0,
        cnthctl: 0,
        cntpoff: 0,
        ..state
    };
    assert_eq!(reading.state, zeroed);
}
