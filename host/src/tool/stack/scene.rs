//! A scene: a step of one kind, made on a board that is ready for it, and what the step must do. A row that says what was not
//! measured is an error.

use super::caller::Stack;
use super::functions::Function;
use crate::tool::fixture::{fixture, Fixture};
use joyce::{Board, Refusal, Reply, StepNumbers, BLOCK};
use joyce_host::model::BoardRules;

/// Blocks of RAM that each scene is measured with: few, and as many as there may be. Both have some past the standard RAM.
const TOTALS: [u8; 2] = [9, 128];
const RATES: [u8; 2] = [50, 60];

pub struct Scene {
    pub name: &'static str,
    /// Makes a fixture ready; it is of 50 or 60 Hz, out of boot mode, and has the standard screen and no dirty line.
    pub set: fn(&mut Fixture),
    /// The steps, each made from the same fixture.
    pub steps: fn(&Fixture) -> Vec<StepNumbers>,
    /// Whether a step did what the name says.
    pub holds: fn(&Made) -> bool,
}

/// A step that was made.
pub struct Made<'a> {
    pub before: &'a Fixture,
    pub after: &'a Fixture,
    pub step: StepNumbers,
    pub reply: Reply,
}

/// The RAM's index that an address reaches. The fixture's maps are plain: each names one block for reads and writes.
pub fn index(fixture: &Fixture, address: u32) -> usize {
    let map = fixture.board.paging.maps[address as usize >> 14];
    (map & 0x7F) as usize * BLOCK + (address as usize & 0x3FFF)
}

/// The most bytes of stack that a step of the scene uses.
pub fn measure(stack: &mut Stack, function: &Function, scene: &Scene) -> Result<usize, String> {
    let mut most = 0;
    for (total, rate) in TOTALS.into_iter().flat_map(|total| RATES.map(|rate| (total, rate))) {
        let mut before = fixture(total);
        before.board.rate = rate;
        (scene.set)(&mut before);
        let mut after = before.clone();
        for step in (scene.steps)(&before) {
            // SAFETY: this is joyce_step, lent a record and memory that live and do not overlap.
            let measured = unsafe { stack.measure(function, || lend(function, &before, &mut after, step))? };
            let made = Made { before: &before, after: &after, step, reply: Reply(measured.reply) };
            if !(scene.holds)(&made) {
                let (name, reply) = (scene.name, made.reply);
                return Err(format!("stack: not what its row says: {name}, {rate} Hz, {step:?} gave {reply:?}"));
            }
            most = most.max(measured.used);
        }
    }
    Ok(most)
}

/// Makes the memory as it was before and gives the arguments of a step on it.
fn lend(function: &Function, before: &Fixture, lent: &mut Fixture, step: StepNumbers) -> Result<Vec<u64>, String> {
    lent.board = before.board;
    lent.ram.clone_from(&before.ram);
    let unknown = |name: &str| format!("{}: the scenes do not know its parameter {name}", function.name);
    let mut words = Vec::new();
    for (_, name) in function.parameters {
        words.push(word(lent, step, name).ok_or_else(|| unknown(name))?);
    }
    Ok(words)
}

/// The argument of a name.
fn word(fixture: &mut Fixture, step: StepNumbers, name: &str) -> Option<u64> {
    Some(match name {
        "board" => &mut fixture.board as *mut Board as u64,
        "kind" => step.kind as u64,
        "number" => step.number as u64,
        "value" => step.value as u64,
        "ram" => fixture.ram.as_mut_ptr() as u64,
        "ram_len" => fixture.ram.len() as u64,
        "boot" => fixture.boot.as_ptr() as u64,
        "boot_len" => fixture.boot.len() as u64,
        _ => return None,
    })
}

impl Made<'_> {
    pub fn accepted(&self) -> bool {
        self.reply.refusal() == 0
    }

    /// Whether it gave the byte that stands in the RAM.
    pub fn gave_ram(&self) -> bool {
        self.accepted() && self.reply.value() == self.before.ram[index(self.before, self.step.number)] as u16
    }

    /// Whether the RAM has its value at an index, and nothing else altered.
    fn stored(&self, at: usize) -> bool {
        let (before, after) = (&self.before.ram, &self.after.ram);
        let rest = before[..at] == after[..at] && before[at + 1..] == after[at + 1..];
        self.accepted() && rest && after[at] as u32 == self.step.value
    }

    /// Whether it altered the byte at an index, and how many lines came to be dirty, of none before.
    pub fn altered(&self, at: usize) -> Option<u16> {
        let altered = self.stored(at) && self.before.ram[at] != self.after.ram[at];
        let none_before = self.before.board.dirty.count() == 0;
        (altered && none_before).then(|| self.after.board.dirty.count())
    }

    /// Whether it stored the byte that stood at an index already, so that nothing is dirty.
    pub fn unaltered(&self, at: usize) -> bool {
        self.stored(at) && self.before.ram == self.after.ram && self.after.board.dirty.count() == 0
    }

    /// Whether it was accepted and left memory and record as they were.
    pub fn did_nothing(&self) -> bool {
        self.accepted() && self.unchanged()
    }

    /// Whether it was refused with a number, and changed nothing.
    pub fn refused(&self, refusal: Refusal) -> bool {
        self.reply.refusal() == refusal.0 && self.unchanged()
    }

    fn unchanged(&self) -> bool {
        self.before.board == self.after.board && self.before.ram == self.after.ram
    }

    /// Whether all shown lines are dirty now, of none before.
    pub fn dirtied_all(&self) -> bool {
        self.before.board.dirty.count() == 0 && self.after.board.dirty == self.after.board.shown()
    }
}

#[cfg(test)]
mod tests {
    use super::super::functions::FUNCTIONS;
    use super::*;
    use joyce::Step;

    /// A step that does something else than its row says is not measured.
    #[test]
    fn a_row_says_what_was_measured() {
        let step = FUNCTIONS.iter().find(|function| function.name == "joyce_step").expect("a step");
        let mut scene =
            Scene { name: "read", set: |_| {}, steps: |_| vec![Step::Read(5).into()], holds: |made| made.gave_ram() };
        assert!(measure(&mut Stack::new(), step, &scene).expect("measured") > 8);
        scene.steps = |_| vec![Step::Read(5).into(), Step::PortIn(0xF9).into()];
        let error = measure(&mut Stack::new(), step, &scene).expect_err("refused with 5, and no read");
        assert!(error.starts_with("stack: not what its row says: read, 50 Hz, StepNumbers { kind: 4"), "{error}");
    }

    #[test]
    fn a_new_parameter_is_not_passed_over() {
        let step = FUNCTIONS.iter().find(|function| function.name == "joyce_step").expect("a step");
        let other = Function { parameters: FUNCTIONS[1].parameters, ..*step };
        let mut before = fixture(8);
        let mut lent = before.clone();
        assert!(lend(step, &before, &mut lent, Step::Scan.into()).is_ok());
        before.board.rate = 60;
        let error = lend(&other, &before, &mut lent, Step::Scan.into()).expect_err("another function");
        assert_eq!(error, "joyce_step: the scenes do not know its parameter internal");
        assert_eq!(lent.board.rate, 60);
    }
}
