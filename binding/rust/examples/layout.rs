//! Prints the constants and how the types lie in memory, to be held against what C says of the
//! header's. It calls nothing, so that it links on any machine.

use core::mem::{align_of, offset_of, size_of};

use elsterkabel::{
    number, Access, Answer, Controls, Features, Lines, State, Timer, Timers, RECORD_BYTES,
    RECORD_LIMIT, VERSION,
};

macro_rules! numbers {
    ($($name:ident),+) => {
        $(println!("{} {}", stringify!($name), number::$name);)+
    };
}

macro_rules! layout {
    ($name:ident: $($field:ident),+) => {
        let (size, align) = (size_of::<$name>(), align_of::<$name>());
        println!("{} size {size} align {align}", stringify!($name));
        $(
            let at = offset_of!($name, $field);
            println!("{}.{} at {at}", stringify!($name), stringify!($field));
        )+
    };
}

fn main() {
    println!("VERSION {VERSION}");
    println!("RECORD_BYTES {RECORD_BYTES}");
    println!("RECORD_LIMIT {RECORD_LIMIT}");
    numbers!(
        DONE,
        UNDEFINED,
        TRAP_TO_EL1,
        TRAP_TO_EL2,
        NOT_A_TIMER_ACCESS,
        IMPOSSIBLE_CONTEXT,
        RESERVED_BIT_SET,
        BAD_JOURNAL,
        BUFFER_TOO_SHORT,
        TRAP_TO_EL3
    );
    layout!(Features: vhe, sel2, ecv);
    layout!(Controls: ns, eel2, ecven, e2h, tge, cntkctl, cnthctl);
    layout!(Timer: cval, enable, imask);
    layout!(Timers: cntp, cntv, cnthp, cnthv, cnthps, cnthvs);
    layout!(State: features, controls, cntvoff, cntpoff, timers);
    layout!(Access: word, level, operand, count);
    layout!(Answer: number, rt, value, mask);
    layout!(Lines: number, cntp, cntv, cnthp, cnthv, cnthps, cnthvs);
}
