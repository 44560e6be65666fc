//! Document 01, 'What the desk answers', with document 02's later number: one access, from the
//! refusals to its answer.

use crate::access::{Access, Answer, Call};
use crate::clause::Clause::{ReservedBit, Rt31Read};
use crate::instruction::Direction;
use crate::pages::{Ruling, Way};
use crate::reading::Reading;
use crate::record::Record;
use crate::refusal::{named, Refusal};
use crate::register::{Part, Register};
use crate::state::{ControlName, TimerName};
use crate::tally::Cell;
use crate::values::Masked;

impl Reading<'_> {
    /// Answers one access, changing the state if it is a permitted write.
    pub fn access(&mut self, access: &Access) -> Answer {
        self.record(&Record {
            access: *access,
            reserved: 0,
        })
    }

    pub(crate) fn record(&mut self, record: &Record) -> Answer {
        let paper = self.paper;
        paper.answer(self, record)
    }

    pub(crate) fn answer_by_the_rules(&mut self, record: &Record) -> Answer {
        match self.admitted(record) {
            Ok(call) => self.answer(&call),
            Err(refusal) => {
                self.note(refusal.clause, Cell::Whole);
                Answer::number(refusal.number, 0)
            }
        }
    }

    /// The access of a record that is refused with none of 6, 4 and 5.
    fn admitted(&self, record: &Record) -> Result<Call, Refusal> {
        let access = &record.access;
        let unreserved = self.unless(&[(ReservedBit, record.reserved != 0, 6)]);
        let asked = self.both(named(access.word), self.possible(access.level));
        let ((), (instruction, level)) = self.both(unreserved, asked)?;
        Ok(Call {
            instruction,
            level,
            operand: access.operand,
            count: access.count,
        })
    }

    fn answer(&mut self, call: &Call) -> Answer {
        use Register::*;
        let (instruction, level) = (call.instruction, call.level);
        if instruction.rt == 31 && instruction.direction == Direction::Mrs {
            self.note(Rt31Read, instruction);
        }
        match instruction.register {
            Cntpct | Cntpctss => self.counter(call, self.cntpct(level), Reading::cntpct_value),
            Cntvct | Cntvctss => self.counter(call, self.cntvct(level), Reading::cntvct_value),
            Cntp(part) => self.timer(call, part, self.cntp(level)),
            Cntv(part) => self.timer(call, part, self.cntv(level)),
            Cntvoff => self.offset(
                call,
                self.cntvoff(level),
                Reading::read_cntvoff,
                Reading::write_cntvoff,
            ),
            Cnthp(part) => self.timer(call, part, self.cnthp(level)),
            Cnthvs(part) => self.timer(call, part, self.cnthvs(level)),
            Cntkctl => self.control(call, self.cntkctl(level)),
            Cnthctl => self.control(call, self.cnthctl(level)),
            Cntpoff => self.offset(
                call,
                self.cntpoff(level),
                Reading::read_cntpoff,
                Reading::write_cntpoff,
            ),
        }
    }

    fn counter(
        &mut self,
        call: &Call,
        ruling: Ruling<()>,
        value: fn(&mut Self, &Call) -> u64,
    ) -> Answer {
        let ruling = self.undefined_counter(call).unwrap_or(ruling);
        self.settle(call, ruling, |reading, ()| {
            Masked::known(value(reading, call))
        })
    }

    fn timer(&mut self, call: &Call, part: Part, ruling: Ruling<TimerName>) -> Answer {
        let paper = self.paper;
        let reached = |named| paper.reached(call.instruction.register, named);
        self.either_way(
            call,
            ruling,
            |reading, named| reading.read_timer(call, part, reached(named)),
            |reading, named| reading.write_timer(call, part, reached(named)),
        )
    }

    fn control(&mut self, call: &Call, ruling: Ruling<ControlName>) -> Answer {
        let (paper, state) = (self.paper, self.state);
        let asked = call.instruction.register;
        let reached = |named| paper.control_reached(&state, asked, call.level, named);
        self.either_way(
            call,
            ruling,
            |reading, named| reading.read_control(call, reached(named)),
            |reading, named| reading.write_control(call, reached(named)),
        )
    }

    fn offset(
        &mut self,
        call: &Call,
        ruling: Ruling<()>,
        read: fn(&mut Self) -> Masked,
        write: fn(&mut Self, &Call),
    ) -> Answer {
        self.either_way(
            call,
            ruling,
            |reading, ()| read(reading),
            |reading, ()| write(reading, call),
        )
    }

    /// Reads or writes what a page allows. A write answers value and mask 0.
    fn either_way<T>(
        &mut self,
        call: &Call,
        ruling: Ruling<T>,
        read: impl FnOnce(&mut Self, T) -> Masked,
        write: impl FnOnce(&mut Self, T),
    ) -> Answer {
        self.settle(call, ruling, |reading, target| {
            match call.instruction.direction {
                Direction::Mrs => read(reading, target),
                Direction::Msr => {
                    write(reading, target);
                    Masked::default()
                }
            }
        })
    }

    /// Follows the way that a page came to. 0 to 3 give the word's Rt, and so does a later trap.
    fn settle<T>(
        &mut self,
        call: &Call,
        (clause, way): Ruling<T>,
        access: impl FnOnce(&mut Self, T) -> Masked,
    ) -> Answer {
        self.note(clause, call.instruction);
        let rt = call.instruction.rt;
        match way {
            Way::Undefined => Answer::number(1, rt),
            Way::TrapToEl1 => Answer::number(2, rt),
            Way::TrapToEl2 => Answer::number(3, rt),
            Way::TrapToEl3 => Answer::number(10, rt),
            Way::Allowed(target) => {
                let Masked { value, mask } = access(self, target);
                Answer {
                    value,
                    mask,
                    ..Answer::number(0, rt)
                }
            }
        }
    }
}
