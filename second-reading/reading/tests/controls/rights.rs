//! What one record writes, the next ones meet: rights opened and closed, and the offset.

use reading::Register::{Cnthctl, Cntkctl, Cntp, Cntpct, Cntpctss, Cntv, Cntvct, Cntvctss};
use reading::{Part, Register, State};

use crate::common::Bench;
use crate::{answers, record, with_ecv, words};

/// What a control bit guards: the write that turns it and an access from below.
struct Guarded {
    state: State,
    writes: (Register, u8),
    open: u64,
    shut: u64,
    asks: (Register, u8),
    trap: u8,
}

/// A guest's kernel opens its own gates for EL0.
fn by_the_kernel(open: u64, shut: u64, asked: Register) -> Guarded {
    Guarded {
        state: State {
            cnthctl: 3,
            ..with_ecv(false)
        },
        writes: (Cntkctl, 1),
        open,
        shut,
        asks: (asked, 0),
        trap: 2,
    }
}

/// A hypervisor opens gates for its guest at EL1.
fn by_the_hypervisor(e2h: bool, open: u64, shut: u64, asked: Register) -> Guarded {
    Guarded {
        state: State {
            e2h,
            ..with_ecv(false)
        },
        writes: (Cnthctl, 2),
        open,
        shut,
        asks: (asked, 1),
        trap: 3,
    }
}

/// A host opens gates for its programs at EL0, by the name that its kernel knows.
fn by_the_host(open: u64, shut: u64, asked: Register) -> Guarded {
    Guarded {
        state: State {
            e2h: true,
            tge: true,
            ..with_ecv(false)
        },
        writes: (Cntkctl, 2),
        open,
        shut,
        asks: (asked, 0),
        trap: 3,
    }
}

impl Guarded {
    fn numbers(&self) -> Vec<u8> {
        let mut bench = Bench::of(self.state);
        let ((written, writer), (asked, level)) = (self.writes, self.asks);
        let turns = [self.shut, self.open, self.shut, self.open];
        let number = |control| {
            assert_eq!(bench.write(written, writer, control, 0).number, 0);
            bench.read(asked, level, 1000).number
        };
        turns.map(number).to_vec()
    }
}

#[test]
fn each_right_is_opened_and_closed_by_writes() {
    let guarded = [
        by_the_kernel(0b01, 0b10, Cntpct),
        by_the_kernel(0b01, 0x302, Cntpctss),
        by_the_kernel(0b10, 0b01, Cntvct),
        by_the_kernel(0b10, 0x301, Cntvctss),
        by_the_kernel(1 << 8, 0x203, Cntv(Part::Cval)),
        by_the_kernel(1 << 9, 0x103, Cntp(Part::Cval)),
        by_the_hypervisor(false, 0b01, 0b10, Cntpct),
        by_the_hypervisor(false, 0b10, 0b01, Cntp(Part::Ctl)),
        by_the_hypervisor(true, 1 << 10, 0xBFF, Cntpct),
        by_the_hypervisor(true, 1 << 11, 0x7FF, Cntp(Part::Ctl)),
        by_the_hypervisor(false, 0x5000, 0x2000, Cntv(Part::Ctl)),
        by_the_hypervisor(true, 0x3000, 0x4000, Cntvct),
        by_the_host(0b01, 0b10, Cntpct),
        by_the_host(0b10, 0b01, Cntvct),
        by_the_host(1 << 8, 0xEFF, Cntv(Part::Cval)),
        by_the_host(1 << 9, 0xDFF, Cntp(Part::Cval)),
    ];
    for right in guarded {
        let trap = right.trap;
        assert_eq!(right.numbers(), [trap, 0, trap, 0], "{:?}", right.asks);
    }
}

#[test]
fn event_fields_open_and_close_nothing() {
    let events = 0x200FC;
    for (open, numbers) in [(0, [2, 2, 3, 0]), (3, [0, 0, 0, 0])] {
        let mut bench = Bench::of(with_ecv(false));
        bench.write(Cnthctl, 2, events | open, 0);
        bench.write(Cntkctl, 1, events | open, 0);
        let asks = [(Cntpct, 0), (Cntvct, 0), (Cntpct, 1), (Cntvct, 1)];
        let found = asks.map(|(register, level)| bench.read(register, level, 1000).number);
        assert_eq!(found, numbers);
    }
}

#[test]
fn an_offset_is_set_and_switched_on_within_one_journal() {
    let state = State {
        cnthctl: 3,
        ..with_ecv(true)
    };
    let cntpct = record(0xD53B_E020, 1, 0);
    let found = answers(
        state,
        &[
            cntpct,
            record(words::CNTHCTL_WRITTEN, 2, 0x1003),
            cntpct,
            record(words::CNTPOFF_WRITTEN, 2, 1 << 32),
            cntpct,
            record(words::CNTPOFF_WRITTEN | 31, 3, 77),
            cntpct,
            record(words::CNTPOFF_WRITTEN, 3, 300),
            cntpct,
            record(words::CNTHCTL_WRITTEN, 3, 3),
            cntpct,
        ],
    );
    let values: Vec<u64> = found.iter().step_by(2).map(|answer| answer.value).collect();
    let below_zero = 1000u64.wrapping_sub(1 << 32);
    assert_eq!(values, [1000, 900, below_zero, 1000, 700, 1000]);
    assert!(found.iter().all(|answer| answer.number == 0));
}

#[test]
fn a_trap_shut_by_one_record_is_met_by_the_next() {
    let cntvct_at_el0 = record(0xD53B_E040, 0, 0);
    let found = answers(
        State::bench(),
        &[
            cntvct_at_el0,
            record(words::CNTKCTL_WRITTEN, 1, 0x301),
            cntvct_at_el0,
            record(words::CNTKCTL_READ, 1, 0),
            record(words::CNTKCTL_WRITTEN, 0, 0x303),
            record(words::CNTHCTL_WRITTEN, 1, 0x303),
            cntvct_at_el0,
            record(words::CNTKCTL_WRITTEN, 3, 2),
            cntvct_at_el0,
        ],
    );
    let numbers: Vec<u8> = found.iter().map(|answer| answer.number).collect();
    assert_eq!(numbers, [0, 0, 2, 0, 1, 1, 2, 0, 0]);
    let values: Vec<u64> = found.iter().map(|answer| answer.value).collect();
    assert_eq!(values, [600, 0, 0, 0x301, 0, 0, 0, 0, 600]);
}
