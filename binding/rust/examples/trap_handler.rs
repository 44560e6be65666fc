//! A trap handler over the answer desk. A guest's access to a timer register has trapped to the
//! hypervisor with exception class 0x18; the handler takes the word from the syndrome, the
//! level, the operand register and the count, calls, and acts on the number. `main` lets a guest
//! arm its virtual timer for 50 ticks, and shut its counters to EL0.
//!
//!     tools/library "$(uname -m)"
//!     cargo run -p elsterkabel --features link --example trap_handler

use std::process::ExitCode;

use elsterkabel::{number, version, word_of, Access, Controls, Features, State, VERSION};

/// What a hypervisor keeps of a guest. XZR, which is register 31, has no place.
struct Guest {
    x: [u64; 31],
    pc: u64,
    timers: State,
}

/// What is left to do once the desk has answered.
#[derive(Clone, Copy)]
enum Todo {
    Resume,
    InjectUndefined,
    InjectTrapToEl1,
    /// For the guest's own EL2, or the hypervisor's policy where the guest has none.
    TrapToEl2,
    /// For the guest's own EL3, likewise; no guest at EL0 and EL1 comes to it.
    TrapToEl3,
    /// For another of the hypervisor's devices.
    NotATimer,
    /// The state or the level cannot be: the hypervisor's own mistake.
    ImpossibleContext,
}

impl Todo {
    fn words(self) -> &'static str {
        match self {
            Todo::Resume => "resume",
            Todo::InjectUndefined => "inject Undefined",
            Todo::InjectTrapToEl1 => "inject a trap to EL1",
            Todo::TrapToEl2 => "trap to EL2",
            Todo::TrapToEl3 => "trap to EL3",
            Todo::NotATimer => "ask another device",
            Todo::ImpossibleContext => "impossible context",
        }
    }
}

const EL0: u8 = 0;
const EL1: u8 = 1;
const EL2: u8 = 2;

impl Guest {
    /// A Non-secure guest whose physical counter and timer are trapped, with its virtual count
    /// 400 behind.
    fn new() -> Guest {
        let features = Features {
            vhe: true,
            sel2: true,
            ..Features::default()
        };
        let controls = Controls {
            ns: true,
            cntkctl: 0x303,
            ..Controls::default()
        };
        let timers = State {
            features,
            controls,
            cntvoff: 400,
            ..State::default()
        };
        Guest {
            x: [0; 31],
            pc: 0,
            timers,
        }
    }

    fn handle(&mut self, iss: u32, level: u8, count: u64) -> Todo {
        let (mrs, rt) = (iss & 1 == 1, (iss >> 5 & 31) as usize);
        // Where the guest's own MSR CNTKCTL_EL1 reaches the core, which does not trap it, the core's
        // CNTKCTL_EL1 goes into the state here.
        let answer = self.timers.access(Access {
            word: word_of(iss),
            level,
            operand: self.x.get(rt).copied().unwrap_or(0),
            count,
        });
        // Where that MSR comes here instead, as by an HVC in its place, the state's CNTKCTL goes into
        // the core's here.
        match answer.number {
            number::DONE => self.done(mrs, rt, answer.value),
            number::UNDEFINED => Todo::InjectUndefined,
            number::TRAP_TO_EL1 => Todo::InjectTrapToEl1,
            number::TRAP_TO_EL2 => Todo::TrapToEl2,
            number::TRAP_TO_EL3 => Todo::TrapToEl3,
            number::NOT_A_TIMER_ACCESS => Todo::NotATimer,
            _ => Todo::ImpossibleContext,
        }
    }

    fn done(&mut self, mrs: bool, rt: usize, value: u64) -> Todo {
        if let (true, Some(x)) = (mrs, self.x.get_mut(rt)) {
            *x = value;
        }
        self.pc += 4;
        Todo::Resume
    }

    fn line_at(&self, count: u64) -> &'static str {
        if self.timers.lines(count).cntv {
            "up"
        } else {
            "down"
        }
    }
}

/// The ISS of an access to a timer register: op0 is 3 and CRn is 14 in all.
fn iss_of(mrs: bool, op1: u32, crm: u32, op2: u32, rt: u32) -> u32 {
    3 << 20 | op2 << 17 | op1 << 14 | 14 << 10 | rt << 5 | crm << 1 | u32::from(mrs)
}

fn main() -> ExitCode {
    if version() != VERSION {
        eprintln!(
            "the archive is of interface {}, and the binding of {VERSION}",
            version()
        );
        return ExitCode::FAILURE;
    }
    let mut guest = Guest::new();

    let todo = guest.handle(iss_of(true, 3, 0, 2, 0), EL1, 1000).words();
    let x0 = guest.x[0];
    println!("MRS X0, CNTVCT_EL0 at 1000: {todo}, X0 is {x0}");

    guest.x[1] = 50;
    let todo = guest.handle(iss_of(false, 3, 3, 0, 1), EL1, 1000).words();
    let cval = guest.timers.timers.cntv.cval;
    println!("MSR CNTV_TVAL_EL0, X1 at 1000: {todo}, CVAL is {cval}");

    guest.x[2] = 1;
    let todo = guest.handle(iss_of(false, 3, 3, 1, 2), EL1, 1000).words();
    println!("MSR CNTV_CTL_EL0, X2 at 1000: {todo}");

    println!("the CNTV line at 1049: {}", guest.line_at(1049));
    println!("the CNTV line at 1050: {}", guest.line_at(1050));

    let todo = guest.handle(iss_of(true, 3, 0, 1, 3), EL1, 1050).words();
    let x3 = guest.x[3];
    println!("MRS X3, CNTPCT_EL0 at 1050: {todo}, X3 is {x3}");

    guest.x[4] = 0;
    let todo = guest.handle(iss_of(false, 0, 1, 0, 4), EL1, 1050).words();
    let cntkctl = guest.timers.controls.cntkctl;
    println!("MSR CNTKCTL_EL1, X4 at 1050: {todo}, CNTKCTL is {cntkctl}");
    let todo = guest.handle(iss_of(true, 3, 0, 2, 0), EL0, 1050).words();
    println!("MRS X0, CNTVCT_EL0 from EL0 at 1050: {todo}");

    // As if it had an EL2 too, which its EL3 does not let at the offset that came with ECV.
    guest.timers.features.ecv = true;
    let todo = guest.handle(iss_of(true, 4, 0, 6, 5), EL2, 1050).words();
    println!("MRS X5, CNTPOFF_EL2 from EL2 at 1050: {todo}");
    println!("resumed {} times", guest.pc / 4);
    ExitCode::SUCCESS
}
