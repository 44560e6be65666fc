//! Lines of text to journal records.
//!
//! A line is a record, a comment after `#`, or blank:
//!
//! ```text
//! EL1 MRS X0, CNTVCT_EL0 @ 1000
//! EL1 MSR CNTV_TVAL_EL0, X1 = 0xFFFFFFFF @ 1000
//! WORD 0xD53BE000 EL1 = 0 @ 1000 RESERVED 0x1
//! ```
//!
//! `= operand` may be left out of a read, of a write from XZR and of a `WORD` line, and is 0 then;
//! an operand may be negative. `RESERVED bits` sets the reserved bits of any record.

use crate::instruction::{Direction, Instruction, XZR};
use crate::record::Record;
use crate::register::Register;

use super::fault::{Fault, Parsed};
use super::line::Line;
use super::lines::lines;
use super::nearest::told_nearest;
use super::token::comment;

/// A record of a text, with the comment that stands behind it in its line.
#[derive(Clone, Debug, PartialEq, Eq)]
pub struct Entry<'a> {
    pub record: Record,
    pub comment: Option<&'a str>,
}

/// The records that a text describes.
pub fn entries(text: &str) -> Result<Vec<Entry<'_>>, Fault> {
    let mut entries = Vec::new();
    for (index, line) in lines(text).enumerate() {
        let record = record_of(line).map_err(|fault| fault.at(index))?;
        let comment = comment(line);
        entries.extend(record.map(|record| Entry { record, comment }));
    }
    Ok(entries)
}

/// The journal of those records.
pub fn journal_of(entries: &[Entry]) -> Vec<u8> {
    let packed = entries.iter().flat_map(|entry| entry.record.pack());
    packed.collect()
}

/// The journal that a text describes.
pub fn pack(text: &str) -> Result<Vec<u8>, Fault> {
    entries(text).map(|entries| journal_of(&entries))
}

fn record_of(text: &str) -> Parsed<Option<Record>> {
    let mut line = Line::of(text);
    if line.is_over() {
        return Ok(None);
    }
    let record = if line.skip("WORD") {
        raw_record(&mut line)?
    } else {
        named_record(&mut line)?
    };
    line.end()?;
    Ok(Some(record))
}

fn named_record(line: &mut Line) -> Parsed<Record> {
    let level = level(line)?;
    let instruction = instruction(line)?;
    let may_lack_operand = instruction.direction == Direction::Mrs || instruction.rt == XZR;
    let operand = operand(line, may_lack_operand)?;
    record(line, instruction.word(), level, operand)
}

fn raw_record(line: &mut Line) -> Parsed<Record> {
    let word = line.number("an instruction word", 32)? as u32;
    let level = level(line)?;
    let operand = operand(line, true)?;
    record(line, word, level, operand)
}

fn record(line: &mut Line, word: u32, level: u8, operand: u64) -> Parsed<Record> {
    line.sign("@")?;
    let count = line.number("a physical count", 64)?;
    let reserved = if line.skip("RESERVED") {
        line.number("the reserved bits", 30)? as u32
    } else {
        0
    };
    Ok(Record {
        word,
        level,
        reserved,
        operand,
        count,
    })
}

fn level(line: &mut Line) -> Parsed<u8> {
    let wanted = "EL0, EL1, EL2 or EL3";
    let token = line.next(wanted)?;
    (0..4)
        .find(|level| token.is(&format!("EL{level}")))
        .ok_or_else(|| token.fault(wanted))
}

fn instruction(line: &mut Line) -> Parsed<Instruction> {
    let wanted = "MRS or MSR";
    let token = line.next(wanted)?;
    if token.is("MRS") {
        let rt = rt(line)?;
        line.sign(",")?;
        let register = register(line)?;
        Ok(Instruction {
            direction: Direction::Mrs,
            register,
            rt,
        })
    } else if token.is("MSR") {
        let register = register(line)?;
        line.sign(",")?;
        let rt = rt(line)?;
        Ok(Instruction {
            direction: Direction::Msr,
            register,
            rt,
        })
    } else {
        Err(token.fault(wanted))
    }
}

fn rt(line: &mut Line) -> Parsed<u8> {
    let wanted = "X0 to X30 or XZR";
    let token = line.next(wanted)?;
    if token.is("XZR") {
        return Ok(XZR);
    }
    (0..XZR)
        .find(|rt| token.is(&format!("X{rt}")))
        .ok_or_else(|| token.fault(wanted))
}

fn register(line: &mut Line) -> Parsed<Register> {
    let wanted = "the name of a timer register";
    let token = line.next(wanted)?;
    let unknown = || {
        let names = Register::names();
        token.fault(wanted).with(&told_nearest(token.text, &names))
    };
    Register::named(token.text).ok_or_else(unknown)
}

fn operand(line: &mut Line, may_be_left_out: bool) -> Parsed<u64> {
    if may_be_left_out && !line.next_is("=") {
        return Ok(0);
    }
    line.sign("=")?;
    line.signed_number("an operand")
}

#[cfg(test)]
mod tests {
    use super::*;

    fn one(text: &str) -> Record {
        let journal = pack(text).expect(text);
        Record::unpack(journal.as_slice().try_into().expect("one record"))
    }

    fn record(word: u32, level: u8, operand: u64, count: u64) -> Record {
        Record {
            word,
            level,
            reserved: 0,
            operand,
            count,
        }
    }

    fn fault(text: &str) -> (usize, usize) {
        let fault = pack(text).expect_err(text);
        (fault.line, fault.column)
    }

    #[test]
    fn reads_and_writes_are_packed() {
        assert_eq!(
            one("EL1 MSR CNTV_TVAL_EL0, X1 = 0xFFFFFFFF @ 1000"),
            record(0xD51B_E301, 1, 0xFFFF_FFFF, 1000)
        );
        assert_eq!(
            one("EL1 MRS X0, CNTVCT_EL0 @ 1000"),
            record(0xD53B_E040, 1, 0, 1000)
        );
        assert_eq!(
            one("el1 msr cntv_tval_el0,xzr@0X3e8"),
            record(0xD51B_E31F, 1, 0, 1000)
        );
        assert_eq!(
            one("EL3 MRS X30, CNTHVS_CVAL_EL2 = 7 @ 18446744073709551615"),
            record(0xD53C_E45E, 3, 7, u64::MAX)
        );
    }

    #[test]
    fn words_outside_the_table_have_a_raw_form() {
        assert_eq!(
            one("WORD 0xD53BE000 EL1 = 5 @ 1000"),
            record(0xD53B_E000, 1, 5, 1000)
        );
        assert_eq!(
            one("WORD 0 EL2 @ 0 RESERVED 0x3FFFFFFF"),
            Record {
                reserved: 0x3FFF_FFFF,
                ..record(0, 2, 0, 0)
            }
        );
    }

    #[test]
    fn an_operand_may_be_negative() {
        let five_ago = one("EL1 MSR CNTV_TVAL_EL0, X1 = -5 @ 1000");
        assert_eq!(five_ago.operand, u64::MAX - 4);
        assert_eq!(one("WORD 0 EL0 = -1 @ 0").operand, u64::MAX);
    }

    #[test]
    fn comments_and_blank_lines_make_no_record() {
        let text = "# a title\n\n  \nEL0 MRS X0, CNTVCT_EL0 @ 1 # at the end\n";
        assert_eq!(entries(text).map(|records| records.len()), Ok(1));
        assert_eq!(pack(""), Ok(vec![]));
    }

    #[test]
    fn what_stands_behind_any_end_of_a_line_is_packed() {
        let record = pack("WORD 0 EL0 @ 1").expect("a record");
        for end in ["\n", "\r", "\r\n"] {
            let text = format!("# a title{end}WORD 0 EL0 @ 1{end}");
            assert_eq!(pack(&text).as_ref(), Ok(&record), "{end:?}");
            let fault = fault(&format!("# a title{end}WORD{end}"));
            assert_eq!(fault, (2, 5), "{end:?}");
        }
    }

    #[test]
    fn a_mark_before_the_text_is_no_fault() {
        assert_eq!(one("\u{FEFF}WORD 0 EL0 @ 1").count, 1);
        assert_eq!(fault("\u{FEFF}EL4"), (1, 1));
    }

    #[test]
    fn a_comment_stays_with_the_record_of_its_line() {
        let text = "# a title\nWORD 0 EL0 @ 1 # first\nWORD 0 EL0 @ 2\nWORD 0 EL0 @ 3 # last";
        let kept = entries(text).expect("three records");
        let kept: Vec<_> = kept
            .iter()
            .map(|entry| (entry.record.count, entry.comment))
            .collect();
        assert_eq!(kept, [(1, Some("# first")), (2, None), (3, Some("# last"))]);
    }

    #[test]
    fn a_fault_has_its_line_and_column() {
        assert_eq!(fault("EL4 MRS X0, CNTVCT_EL0 @ 1"), (1, 1));
        assert_eq!(fault("\nEL1 MOV X0"), (2, 5));
        assert_eq!(fault("EL1 MRS X31, CNTVCT_EL0 @ 1"), (1, 9));
        assert_eq!(fault("EL1 MRS X01, CNTVCT_EL0 @ 1"), (1, 9));
        assert_eq!(fault("EL1 MRS X0 CNTVCT_EL0 @ 1"), (1, 12));
        assert_eq!(fault("EL1 MRS X0, CNTVCT @ 1"), (1, 13));
        assert_eq!(fault("EL1 MRS X0, CNTVCT_EL0"), (1, 23));
        assert_eq!(fault("EL1 MRS X0, CNTVCT_EL0 @ # 1"), (1, 25));
        assert_eq!(fault("EL1 MRS X0, CNTVCT_EL0 @ 1k"), (1, 26));
        assert_eq!(fault("EL1 MRS X0, CNTVCT_EL0 @ 1 2"), (1, 28));
        assert_eq!(fault("EL1 MSR CNTV_CTL_EL0, X1 @ 1"), (1, 26));
        assert_eq!(fault("WORD 0x100000000 EL1 @ 1"), (1, 6));
        assert_eq!(fault("WORD 0 EL1 @ 1 RESERVED 0x40000000"), (1, 25));
    }

    #[test]
    fn odd_numbers_are_faults() {
        for number in ["0x", "+1", "-1", "1_0", "18446744073709551616", "0xG"] {
            let text = format!("EL1 MRS X0, CNTVCT_EL0 @ {number}");
            assert_eq!(fault(&text), (1, 26), "{number}");
        }
    }

    #[test]
    fn the_message_says_what_was_expected_and_found() {
        let fault = pack("EL1 MRS X0, CNTX_EL0 @ 1").expect_err("no such register");
        assert_eq!(
            fault.to_string(),
            "1:13: expected the name of a timer register, found `CNTX_EL0`; \
             nearest: CNTPCT_EL0, CNTVCT_EL0"
        );
        let fault = pack("EL2 MRS X0, CNTKCTL_EL12 @ 1").expect_err("not in the table");
        assert_eq!(
            fault.to_string(),
            "1:13: expected the name of a timer register, found `CNTKCTL_EL12`; nearest: CNTKCTL_EL1"
        );
    }

    #[test]
    fn what_was_found_is_cut_where_it_is_long_and_shown_where_it_cannot_be_seen() {
        let found = |text: &str| {
            let said = pack(text).expect_err(text).to_string();
            let (_, found) = said.split_once("found ").expect("what was found");
            found.to_string()
        };
        assert_eq!(found("EL4"), "`EL4`");
        assert_eq!(
            found("\u{1B}[2J\u{7F}\u{200B}"),
            r"`\u{1b}[2J\u{7f}\u{200b}`"
        );
        assert_eq!(found("\"it's\""), "`\"it's\"`");
        assert_eq!(found(&"a".repeat(40)), format!("`{}`", "a".repeat(40)));
        assert_eq!(
            found(&"\u{e4}".repeat(41)),
            format!("`{}..`", "\u{e4}".repeat(40))
        );
    }
}
