//! The differential test: lists of calls made on the library and on the model alike.
//!
//! A run is cut into episodes, each from its own seed, so that a failing one can be made again by
//! itself and cut down to few calls.

mod archives;
mod call;
mod edges;
mod fill;
mod generate;
mod lines;
mod pair;
mod rng;
mod shrink;
mod sweep;
mod unusual;

use crate::machine::Machine;
pub use archives::Tally as ArchiveTally;
use call::{Call, Fill, Setup};
use generate::Generator;
use pair::Pair;
pub use pair::Tally;
pub use rng::Rng;
use std::fmt;
pub use unusual::{any_board, good_board};

/// Calls in one episode.
const EPISODE: u64 = 500;
/// Calls between two comparisons of the whole RAM.
const WHOLE_RAM_EVERY: u32 = 16;

pub struct Options {
    pub calls: u64,
    pub seed: u64,
    /// The episode to begin with.
    pub first_episode: u64,
    pub sweep: bool,
    pub archive_sweep: bool,
}

pub struct Passed {
    pub sweep_calls: u64,
    pub calls: u64,
    pub tally: Tally,
    pub archives: Archives,
}

/// What the calls on archives met.
#[derive(Default)]
pub struct Archives {
    pub sweep: ArchiveTally,
    pub lists: ArchiveTally,
}

/// A difference, with the shortest list that was found to show it.
pub struct Failure {
    seed: u64,
    episode: u64,
    calls_before: u64,
    setup: String,
    list: Vec<String>,
    difference: String,
}

impl Failure {
    fn in_sweep(seed: u64, difference: String) -> Box<Failure> {
        Box::new(Failure { seed, episode: 0, calls_before: 0, setup: String::new(), list: Vec::new(), difference })
    }

    pub fn calls_before(&self) -> u64 {
        self.calls_before
    }

    pub fn list_length(&self) -> usize {
        self.list.len()
    }
}

impl fmt::Display for Failure {
    fn fmt(&self, f: &mut fmt::Formatter<'_>) -> fmt::Result {
        writeln!(f, "DIFFERENCE after {} calls, seed {}, episode {}", self.calls_before, self.seed, self.episode)?;
        if self.list.is_empty() {
            return writeln!(f, "in the sweep: {}", self.difference);
        }
        writeln!(f, "{}", self.setup)?;
        for (index, call) in self.list.iter().enumerate() {
            writeln!(f, "{:4}. {call}", index + 1)?;
        }
        writeln!(f, "then differs: {}", self.difference)?;
        writeln!(f, "again with: joyce fuzz --seed {} --episode {} --calls {EPISODE}", self.seed, self.episode)
    }
}

/// Runs the test; `progress` gets the number of calls made so far, now and then.
pub fn run(library: &dyn Machine, options: &Options, mut progress: impl FnMut(u64)) -> Result<Passed, Box<Failure>> {
    let mut passed = Passed { sweep_calls: 0, calls: 0, tally: Tally::default(), archives: Archives::default() };
    let in_sweep = |difference| Failure::in_sweep(options.seed, difference);
    if options.sweep {
        passed.sweep_calls = sweep::sweep(library).map_err(in_sweep)?;
    }
    if options.archive_sweep {
        passed.archives.sweep = archives::sweep(library).map_err(in_sweep)?;
    }
    let mut episode = options.first_episode;
    while passed.calls < options.calls {
        let length = EPISODE.min(options.calls - passed.calls);
        let after = |mut failure: Box<Failure>| {
            failure.calls_before += passed.calls;
            failure
        };
        passed.tally.add(&run_episode(library, options.seed, episode, length).map_err(after)?);
        passed.archives.lists.add(&archives::episode(library, options.seed, episode).map_err(after)?);
        passed.calls += length;
        episode += 1;
        progress(passed.calls);
    }
    Ok(passed)
}

fn run_episode(library: &dyn Machine, seed: u64, episode: u64, length: u64) -> Result<Tally, Box<Failure>> {
    let mut generator = Generator::new(Rng::episode(seed, episode));
    let setup = generator.setup;
    let mut pair = Pair::new(library, &setup, WHOLE_RAM_EVERY);
    let mut list = Vec::with_capacity(length as usize);
    let mut outcome = Ok(());
    while outcome.is_ok() && (list.len() as u64) < length {
        let call = generator.next(&pair);
        outcome = pair.make(&call);
        list.push(call);
    }
    match outcome.and_then(|()| pair.compare_all()) {
        Ok(()) => Ok(pair.tally),
        Err(difference) => {
            let calls_before = list.len() as u64;
            let (setup, list, difference) = cut_down(library, setup, list, difference);
            let setup = format!("{setup}; record of zeros");
            let list = list.iter().map(Call::to_string).collect();
            Err(Box::new(Failure { seed, episode, calls_before, setup, list, difference }))
        }
    }
}

/// The first difference of a list that is made again, everything compared after each call.
fn run_again(library: &dyn Machine, setup: &Setup, list: &[Call]) -> Result<(), String> {
    let mut pair = Pair::new(library, setup, 1);
    list.iter().try_for_each(|call| pair.make(call))
}

fn cut_down(library: &dyn Machine, setup: Setup, list: Vec<Call>, difference: String) -> (Setup, Vec<Call>, String) {
    let fails = |setup: &Setup, list: &[Call]| run_again(library, setup, list).is_err();
    if !fails(&setup, &list) {
        // Differs only when made in one go: the whole list is all there is to show.
        return (setup, list, difference);
    }
    let plain = Setup { fill: Fill::Zero, ..setup };
    let setup = if fails(&plain, &list) { plain } else { setup };
    let list = shrink::shrink(&list, |tried| fails(&setup, tried));
    let difference = run_again(library, &setup, &list).err().unwrap_or(difference);
    (setup, list, difference)
}

#[cfg(test)]
mod tests {
    use super::*;
    use crate::model_c::C_MODEL;

    /// The archives that the library is timed beside are those of the plain model.
    #[test]
    fn fast_archives_are_the_plain_ones() {
        let swept = archives::sweep(&C_MODEL).unwrap_or_else(|difference| panic!("{difference}"));
        assert!([0, 2, 10, 11, 12].iter().all(|&refusal| swept.refusals[refusal] > 10), "{:?}", swept.refusals);
        (0..200).for_each(|episode| {
            archives::episode(&C_MODEL, 3, episode).unwrap_or_else(|failure| panic!("{failure}"));
        });
    }
}

#[cfg(all(test, feature = "standin"))]
mod fault_tests {
    use super::*;
    use crate::standin::{faults, Faulty, BOARD_FAULTS};

    fn options(calls: u64, seed: u64) -> Options {
        Options { calls, seed, first_episode: 0, sweep: true, archive_sweep: true }
    }

    /// Without a fault, and with code that can have faults of archives but has none.
    #[test]
    fn finds_nothing_where_nothing_is() {
        for none in [0, faults().len() as u8 + 1] {
            let passed = run(&Faulty(none), &options(50_000, 1), |_| {}).unwrap_or_else(|failure| panic!("{failure}"));
            assert_eq!(passed.calls, 50_000);
        }
    }

    #[test]
    fn finds_every_fault() {
        for (index, name) in BOARD_FAULTS.iter().enumerate() {
            // Some faults show in the sweep already; the lists must find them too.
            let options = Options { sweep: false, archive_sweep: false, ..options(200_000, 7) };
            match run(&Faulty(index as u8 + 1), &options, |_| {}) {
                Ok(_) => panic!("not found: {name}"),
                Err(failure) => {
                    println!("{name}:\n{failure}");
                    assert!(failure.list_length() <= 8, "{name}: {failure}");
                }
            }
        }
    }

    /// Faults of lines show in every pointer drawn, or in stores near the ends of blocks.
    #[test]
    fn sweep_finds_faults_of_lines() {
        for fault in [3, 17, 18, 19] {
            assert!(lines::every_pointer(&Faulty(fault)).is_err(), "{}", BOARD_FAULTS[fault as usize - 1]);
        }
        assert!(lines::block_ends(&Faulty(15)).is_err());
    }

    #[test]
    fn finds_every_fault_of_archives() {
        for (index, name) in faults().iter().enumerate().skip(BOARD_FAULTS.len()) {
            match archives::sweep(&Faulty(index as u8 + 1)) {
                Ok(_) => panic!("not found: {name}"),
                Err(difference) => println!("{name}:\n{difference}"),
            }
        }
    }

    /// Not every fault shows in archives of a few frames, and some in few lists; what is found is cut down.
    #[test]
    fn lists_find_faults_of_archives() {
        let named = faults();
        let found = (BOARD_FAULTS.len()..named.len()).filter(|&index| {
            let machine = Faulty(index as u8 + 1);
            let failure = (0..2_000).find_map(|episode| archives::episode(&machine, 7, episode).err());
            failure.iter().for_each(|failure| {
                println!("{}:\n{failure}", named[index]);
                assert!(failure.list_length() <= 6, "{}: {failure}", named[index]);
            });
            failure.is_some()
        });
        let found: Vec<usize> = found.collect();
        assert!(found.len() >= 35, "found {found:?}");
    }
}
