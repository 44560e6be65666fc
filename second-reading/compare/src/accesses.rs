//! Records: every register in both directions at every level, every control bit turned, and odd
//! ones.

use reading::{
    Access, Control, ControlName, Direction, Instruction, Level, Reading, Record, Register, State,
    TimerName,
};

use crate::aim::{due, likely_control, likely_timer};
use crate::controls;
use crate::dice::Dice;
use crate::gates::{guarded, writers};
use crate::numbers::Numbers;
use crate::words::{is_ctl, odd_word, word};

/// What a record asks, before its numbers are drawn.
#[derive(Clone, Copy)]
enum Plan {
    Of(Register, Direction, Level),
    /// The bit is written, what it guards is asked, and the same again with the bit turned.
    Turned(Control),
    Odd,
}

impl Plan {
    fn records(&self) -> usize {
        match self {
            Plan::Of(..) | Plan::Odd => 1,
            Plan::Turned(_) => 4,
        }
    }
}

/// Draws the records of one journal, following the state they bring about.
pub(crate) struct Author<'a> {
    dice: &'a mut Dice,
    numbers: &'a mut Numbers,
    guide: Reading<'static>,
    records: Vec<Record>,
}

impl<'a> Author<'a> {
    pub(crate) fn new(dice: &'a mut Dice, numbers: &'a mut Numbers, start: State) -> Self {
        Author {
            dice,
            numbers,
            guide: Reading::new(start),
            records: Vec::new(),
        }
    }

    /// The records in a shuffled order: every register, direction and level and every control bit
    /// as often as three quarters of the journal hold, and odd ones for the rest.
    pub(crate) fn records(mut self, length: usize) -> Vec<Record> {
        let round = one_round();
        let in_a_round: usize = round.iter().map(Plan::records).sum();
        let rounds = length * 3 / 4 / in_a_round;
        let odd = length - rounds * in_a_round;
        let mut plans = [round.repeat(rounds), vec![Plan::Odd; odd]].concat();
        self.dice.shuffle(&mut plans);
        for plan in plans {
            self.carry_out(plan);
        }
        self.aim_at_a_line();
        self.records
    }

    fn carry_out(&mut self, plan: Plan) {
        match plan {
            Plan::Of(register, direction, level) => {
                let word = word(self.dice, register, direction);
                let record = self.drawn(word, level as u8);
                self.write_down(record);
            }
            Plan::Turned(control) => self.turn(control),
            Plan::Odd => {
                let record = self.odd_record();
                self.write_down(record);
            }
        }
    }

    fn turn(&mut self, control: Control) {
        let mut write = self.control_write(control.register());
        self.write_down(write);
        let asked = self.guarded_access(control);
        self.write_down(asked);
        write.access.operand ^= 1 << control.place();
        self.write_down(write);
        self.write_down(asked);
    }

    fn write_down(&mut self, record: Record) {
        if record.reserved == 0 {
            self.guide.access(&record.access);
        }
        self.records.push(record);
    }

    /// A write that reaches the register, with bits that permit.
    fn control_write(&mut self, name: ControlName) -> Record {
        let (register, level) = self.dice.pick(&writers(&self.guide.state, name));
        let instruction = Instruction {
            direction: Direction::Msr,
            register,
            // Not 31, which would write 0.
            rt: self.dice.below(31) as u8,
        };
        let access = Access {
            word: instruction.word(),
            level: level as u8,
            operand: controls::permitting_operand(self.dice, name),
            count: self.numbers.count(self.dice),
        };
        Record {
            access,
            reserved: 0,
        }
    }

    /// An access that looks at the bit.
    fn guarded_access(&mut self, control: Control) -> Record {
        let (registers, levels) = guarded(control);
        let register = self.dice.pick(&registers);
        let level = self.dice.pick(levels);
        let direction = match register.part() {
            Some(_) => self.dice.pick(&Direction::ALL),
            // A counter is not there to be written.
            None => Direction::Mrs,
        };
        let word = word(self.dice, register, direction);
        self.drawn(word, level as u8)
    }

    fn odd_record(&mut self) -> Record {
        let level = self.dice.below(4) as u8;
        let kind = self.dice.below(9);
        let word = odd_word(self.dice, kind);
        let mut record = self.drawn(word, level);
        if kind == 0 || self.dice.percent(5) {
            record.reserved = self.reserved();
        }
        record
    }

    fn drawn(&mut self, word: u32, level: u8) -> Record {
        let count = self.count(word, level);
        let operand = match self.control_operand(word, level) {
            Some(operand) => operand,
            None => self.operand(word, count),
        };
        Record {
            access: Access {
                word,
                level,
                operand,
                count,
            },
            reserved: 0,
        }
    }

    /// The count; for most status reads at or next to the moment the status changes.
    fn count(&mut self, word: u32, level: u8) -> u64 {
        let status_read = |instruction: &Instruction| {
            is_ctl(&instruction.register) && instruction.direction == Direction::Mrs
        };
        let state = &self.guide.state;
        let timer = Instruction::of(word)
            .ok()
            .filter(status_read)
            .and_then(|instruction| likely_timer(state, instruction, level));
        match timer {
            Some(timer) if self.dice.percent(60) => due(self.dice, state, timer),
            _ => self.numbers.count(self.dice),
        }
    }

    /// The operand for a control register, which goes by what that holds.
    fn control_operand(&mut self, word: u32, level: u8) -> Option<u64> {
        let register = Instruction::of(word).ok()?.register;
        let state = &self.guide.state;
        let name = likely_control(state, register, level)?;
        Some(controls::operand(self.dice, name, state.control(name)))
    }

    /// The operand; for many writes of a CTL one that enables the timer.
    fn operand(&mut self, word: u32, count: u64) -> u64 {
        let ctl = Instruction::of(word).is_ok_and(|i| is_ctl(&i.register));
        let operand = if ctl && self.dice.percent(50) {
            self.dice.any() | 1
        } else {
            self.numbers.operand(self.dice)
        };
        let signed = i64::from(operand as i32) as u64;
        self.numbers.remember(self.dice, operand);
        self.numbers.remember(self.dice, count.wrapping_add(signed));
        operand
    }

    /// The lines are asked at the last record's count.
    fn aim_at_a_line(&mut self) {
        let Some(last) = self.records.last_mut() else {
            return;
        };
        if self.dice.percent(90) {
            let timer = self.dice.pick(&TimerName::ALL);
            last.access.count = due(self.dice, &self.guide.state, timer);
        }
    }

    /// Reserved bits: one of the thirty, or many.
    fn reserved(&mut self) -> u32 {
        let one = 1 << self.dice.below(30);
        if self.dice.percent(70) {
            one
        } else {
            one | self.dice.any() as u32 >> 2
        }
    }
}

fn one_round() -> Vec<Plan> {
    let mut plans: Vec<Plan> = Control::ALL.iter().copied().map(Plan::Turned).collect();
    for register in Register::all() {
        for direction in Direction::ALL {
            plans.extend(Level::ALL.map(|level| Plan::Of(register, direction, level)));
        }
    }
    plans
}
