//! Document 02, request 1: the control registers by access, with the gates, redirection and stored
//! bits of Arm's pages.

#[path = "../common/mod.rs"]
mod common;
mod gates;
mod rights;
mod stored;

use reading::{Access, Answer, Reading, Record, State};

mod words {
    pub const CNTKCTL_READ: u32 = 0xD538_E100;
    pub const CNTKCTL_WRITTEN: u32 = 0xD518_E100;
    pub const CNTHCTL_READ: u32 = 0xD53C_E100;
    pub const CNTHCTL_WRITTEN: u32 = 0xD51C_E100;
    pub const CNTPOFF_READ: u32 = 0xD53C_E0C0;
    pub const CNTPOFF_WRITTEN: u32 = 0xD51C_E0C0;
    pub const CNTKCTL_EL12_READ: u32 = 0xD53D_E100;
    pub const CNTKCTL_EL12_WRITTEN: u32 = 0xD51D_E100;
}

fn with_ecv(ecven: bool) -> State {
    State {
        ecv: true,
        ecven,
        cntpoff: 100,
        ..State::bench()
    }
}

fn with_e2h(e2h: bool) -> State {
    State {
        e2h,
        cntkctl: 0x101,
        cnthctl: 0x802,
        ..State::bench()
    }
}

fn answers(state: State, records: &[Record]) -> Vec<Answer> {
    let journal: Vec<u8> = records.iter().flat_map(Record::pack).collect();
    let mut answers = vec![0; journal.len()];
    assert_eq!(Reading::new(state).run(&journal, &mut answers), 0);
    let (answers, _) = answers.as_chunks();
    answers.iter().map(Answer::unpack).collect()
}

fn record(word: u32, level: u8, operand: u64) -> Record {
    Record {
        access: Access {
            word,
            level,
            operand,
            count: 1000,
        },
        reserved: 0,
    }
}
