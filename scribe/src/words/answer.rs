//! An answer in words. What does not belong in it stands in brackets behind, so that nothing is
//! hidden.

use crate::answer::Answer;
use crate::instruction::{rt_of, Direction, Instruction};

use super::number::{digits, number, value};

/// The bits of a CTL, from bit 0 on.
const CTL_BITS: [&str; 3] = ["ENABLE", "IMASK", "ISTATUS"];

/// An answer to a record of that word.
pub fn answer(answer: &Answer, word: u32) -> String {
    let rt_due = if gives_rt(answer) { rt_of(word) } else { 0 };
    let rt = if answer.rt == rt_due {
        String::new()
    } else {
        odd_rt(answer)
    };
    verdict(answer, Instruction::of(word)) + &rt + &padding(answer)
}

/// An answer whose record is not at hand.
pub fn lone_answer(answer: &Answer) -> String {
    let rt = match answer.rt {
        rt if gives_rt(answer) => format!(", Rt {rt}"),
        0 => String::new(),
        _ => odd_rt(answer),
    };
    verdict(answer, None) + &rt + &padding(answer)
}

/// Only what is done, Undefined or a trap gives the word's Rt.
fn gives_rt(answer: &Answer) -> bool {
    matches!(answer.number, 0..=3 | 10)
}

fn odd_rt(answer: &Answer) -> String {
    format!(" [Rt {}]", answer.rt)
}

fn padding(answer: &Answer) -> String {
    match answer.padding {
        0 => String::new(),
        bits => format!(" [padding {}]", number(bits)),
    }
}

fn verdict(answer: &Answer, instruction: Option<Instruction>) -> String {
    let meaning = match answer.number {
        0 => return done(answer, instruction),
        1 => "Undefined".to_string(),
        2 => "trap to EL1, class 0x18".to_string(),
        3 => "trap to EL2, class 0x18".to_string(),
        4 => "refused, 4: not MRS or MSR, or not in the name table".to_string(),
        5 => "refused, 5: impossible context".to_string(),
        6 => "refused, 6: reserved bit set".to_string(),
        10 => "trap to EL3, class 0x18".to_string(),
        other => format!("number {other}, which no record is answered with"),
    };
    match (answer.value, answer.mask) {
        (0, 0) => meaning,
        (value, mask) => format!("{meaning} [value {}, mask {}]", number(value), number(mask)),
    }
}

fn done(answer: &Answer, instruction: Option<Instruction>) -> String {
    let written = instruction.is_some_and(|i| i.direction == Direction::Msr);
    let is_ctl = instruction.is_some_and(|i| i.register.is_ctl());
    let is_control = instruction.is_some_and(|i| i.register.is_control());
    let value = if is_control { digits } else { value };
    match (answer.value, answer.mask) {
        (0, 0) if written => "done".to_string(),
        (0, u64::MAX) => "done, all 64 bits unknown".to_string(),
        (shown, mask) => {
            let flags = flags(shown, is_ctl);
            let unknown = unknown(mask, is_ctl);
            format!("done {}{flags}{unknown}", value(shown))
        }
    }
}

/// The names of a CTL value's bits, if it has any and no others.
fn flags(value: u64, is_ctl: bool) -> String {
    if !is_ctl || !(1..8).contains(&value) {
        return String::new();
    }
    let set = (0..CTL_BITS.len()).filter(|bit| value >> bit & 1 == 1);
    let named: Vec<&str> = set.map(|bit| CTL_BITS[bit]).collect();
    format!(" ({})", named.join(", "))
}

fn unknown(mask: u64, is_ctl: bool) -> String {
    let runs: Vec<String> = runs_of_bits(mask)
        .into_iter()
        .map(|run| run_words(run, is_ctl))
        .collect();
    match runs.as_slice() {
        [] => String::new(),
        runs => format!(", unknown: {}", runs.join(", ")),
    }
}

fn run_words((low, high): (usize, usize), is_ctl: bool) -> String {
    match CTL_BITS.get(low) {
        _ if low != high => format!("bits {low} to {high}"),
        Some(name) if is_ctl => name.to_string(),
        _ => format!("bit {low}"),
    }
}

/// The runs of set bits, each as its lowest and highest place.
fn runs_of_bits(mask: u64) -> Vec<(usize, usize)> {
    let set = |bit: usize| bit < 64 && mask >> bit & 1 == 1;
    let lows = (0..64).filter(|&bit| set(bit) && (bit == 0 || !set(bit - 1)));
    lows.map(|low| {
        let length = (low..64).take_while(|&bit| set(bit)).count();
        (low, low + length - 1)
    })
    .collect()
}

#[cfg(test)]
mod tests {
    use super::*;

    const CNTVCT: u32 = 0xD53B_E040;
    const CNTV_CTL: u32 = 0xD53B_E320;
    const CNTV_TVAL_WRITTEN: u32 = 0xD51B_E300;
    const CNTPOFF: u32 = 0xD53C_E0C0;
    const CNTKCTL: u32 = 0xD538_E100;

    fn done_with(value: u64, mask: u64) -> Answer {
        Answer {
            value,
            mask,
            ..Answer::default()
        }
    }

    fn number_only(number: u8) -> Answer {
        Answer {
            number,
            ..Answer::default()
        }
    }

    #[test]
    fn answers_read_as_the_paper_speaks() {
        let said = |given: Answer, word| answer(&given, word);
        assert_eq!(said(done_with(600, 0), CNTVCT), "done 600");
        assert_eq!(
            said(done_with(0xFFFF_FFFF_FFFF_FF9C, 0), CNTVCT),
            "done 0xFFFFFFFFFFFFFF9C (-100)"
        );
        assert_eq!(
            said(done_with(7, 0), CNTV_CTL),
            "done 7 (ENABLE, IMASK, ISTATUS)"
        );
        assert_eq!(said(done_with(7, 0), CNTVCT), "done 7");
        assert_eq!(said(done_with(8, 0), CNTV_CTL), "done 8");
        assert_eq!(said(done_with(0, 4), CNTV_CTL), "done 0, unknown: ISTATUS");
        assert_eq!(
            said(done_with(0, u64::MAX), CNTVCT),
            "done, all 64 bits unknown"
        );
        assert_eq!(
            said(done_with(0, 0xF1), CNTVCT),
            "done 0, unknown: bit 0, bits 4 to 7"
        );
        assert_eq!(said(done_with(0, 0), CNTV_TVAL_WRITTEN), "done");
        assert_eq!(said(done_with(771, 0), CNTKCTL), "done 0x303");
        assert_eq!(said(done_with(771, 0), CNTPOFF), "done 771");
        assert_eq!(said(number_only(1), CNTVCT), "Undefined");
        assert_eq!(said(number_only(3), CNTVCT), "trap to EL2, class 0x18");
        assert_eq!(said(number_only(10), CNTPOFF), "trap to EL3, class 0x18");
        assert_eq!(
            said(number_only(5), CNTVCT),
            "refused, 5: impossible context"
        );
    }

    #[test]
    fn what_does_not_belong_in_an_answer_is_not_hidden() {
        let odd = Answer {
            number: 4,
            rt: 3,
            padding: 9,
            value: 1,
            mask: 2,
        };
        assert_eq!(
            answer(&odd, 0),
            "refused, 4: not MRS or MSR, or not in the name table [value 1, mask 2] [Rt 3] [padding 9]"
        );
        assert_eq!(
            lone_answer(&odd),
            "refused, 4: not MRS or MSR, or not in the name table [value 1, mask 2] [Rt 3] [padding 9]"
        );
        assert_eq!(answer(&done_with(5, 0), CNTVCT | 7), "done 5 [Rt 0]");
        assert_eq!(
            answer(&number_only(10), CNTPOFF | 7),
            "trap to EL3, class 0x18 [Rt 0]"
        );
        assert!(answer(&number_only(9), 0).contains("number 9"));
    }

    #[test]
    fn an_answer_alone_has_its_rt() {
        assert_eq!(lone_answer(&done_with(600, 0)), "done 600, Rt 0");
        assert_eq!(
            lone_answer(&number_only(10)),
            "trap to EL3, class 0x18, Rt 0"
        );
        assert_eq!(lone_answer(&number_only(6)), "refused, 6: reserved bit set");
    }
}
