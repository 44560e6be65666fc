//! A record as the text that packs to it.

use crate::instruction::{Direction, Instruction, XZR};
use crate::record::Record;

use super::number::{digits, number};

pub fn record(record: &Record) -> String {
    let level = format!("EL{}", record.level);
    let instruction = Instruction::of(record.word);
    let asked = match instruction {
        Some(instruction) => format!("{level} {}", asked(instruction)),
        None => format!("WORD {:#010X} {level}", record.word),
    };
    let reads = instruction.is_some_and(|i| i.direction == Direction::Mrs);
    let is_control = instruction.is_some_and(|i| i.register.is_control());
    let operand = match record.operand {
        0 if reads => String::new(),
        bits if is_control => format!(" = {}", digits(bits)),
        other => format!(" = {}", number(other)),
    };
    let reserved = match record.reserved {
        0 => String::new(),
        bits => format!(" RESERVED {}", number(u64::from(bits))),
    };
    format!("{asked}{operand} @ {}{reserved}", number(record.count))
}

fn asked(instruction: Instruction) -> String {
    let name = instruction.register.name;
    let rt = match instruction.rt {
        XZR => "XZR".to_string(),
        rt => format!("X{rt}"),
    };
    match instruction.direction {
        Direction::Mrs => format!("MRS {rt}, {name}"),
        Direction::Msr => format!("MSR {name}, {rt}"),
    }
}
