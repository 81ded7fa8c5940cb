//! `joyce bench`: each operation of the library beside the model's, both through the C interface, on the same inputs. A last
//! column has the model called from Rust itself, where it may be inlined: what the interface costs.

mod archives;

use super::args::Args;
use super::fixture::{fixture, lay_table, Fixture};
use super::out;
use super::timing::{black_box, keep, nanoseconds};
use joyce::{Access, Lines, Paging, PowerOn, Sizes, Step, StepNumbers, BLOCK, LINE_BYTES, WIDE_LINE_BYTES};
use joyce_host::machine::{Machine, Model};
use joyce_host::model::LineSets;
use joyce_host::model_c::C_MODEL;
use std::cell::{Cell, RefCell};
use std::time::{Duration, Instant};

/// The library's nanoseconds.
type Timed = Result<f64, String>;

/// How often the whole table is gone through. What else the machine does for a while meets a row once or twice, not every time.
const PASSES: u32 = 6;

struct Bench<'m> {
    library: &'m dyn Machine,
    /// For each machine and row, in one pass.
    budget: Duration,
    /// The best of each row so far: library, model, model inlined, and in some rows one more.
    best: RefCell<Vec<Vec<f64>>>,
    /// The row that comes next, and whether this pass prints.
    next: Cell<usize>,
    last: Cell<bool>,
}

impl Bench<'_> {
    /// Writes a line in the last pass.
    fn line(&self, text: &str) -> Result<(), String> {
        if self.last.get() {
            out::line(text)
        } else {
            Ok(())
        }
    }

    /// What a row took: the best of this pass and those before.
    fn best<const N: usize>(&self, taken: [f64; N]) -> [f64; N] {
        let mut best = self.best.borrow_mut();
        let row = self.next.get();
        self.next.set(row + 1);
        match best.get_mut(row) {
            Some(found) => found.iter_mut().zip(taken).for_each(|(found, taken)| *found = found.min(taken)),
            None => best.push(taken.to_vec()),
        }
        std::array::from_fn(|which| best[row][which])
    }

    /// Writes a row of the table.
    fn print(&self, name: &str, [library, model, inlined]: [f64; 3]) -> Result<(), String> {
        self.line(&format!("{name:<44}{library:>11.1}{model:>11.1}{:>8.2}{inlined:>11.1}", library / model))
    }

    /// Times the work on each machine from a copy of the same fixture.
    fn row(&self, name: &str, fixture: &Fixture, work: impl Fn(&dyn Machine, &mut Fixture, u64)) -> Timed {
        let machines: [&dyn Machine; 3] = [self.library, &C_MODEL, &Model];
        let mut fixtures = [fixture.clone(), fixture.clone(), fixture.clone()];
        let mut turns = [0; 3];
        let taken = self.best(nanoseconds(self.budget, |which, calls| {
            let (machine, fixture) = (black_box(machines[which]), &mut fixtures[which]);
            let first = turns[which] + 1;
            turns[which] += calls;
            let start = Instant::now();
            for turn in first..first + calls {
                work(machine, fixture, turn);
            }
            start.elapsed()
        }));
        self.print(name, taken)?;
        Ok(taken[0])
    }

    /// Times one step, made over and over; `step` may depend on the turn.
    fn step(&self, name: &str, fixture: &Fixture, step: impl Fn(u64) -> Step) -> Timed {
        self.row(name, fixture, |machine, fixture, turn| {
            let step = black_box(StepNumbers::from(step(turn)));
            keep(machine.step(&mut fixture.board, step, &mut fixture.ram, &fixture.boot));
        })
    }
}

pub fn run(library: &dyn Machine, args: &Args) -> Result<bool, String> {
    args.expect_words(0, "flags only")?;
    let ms = args.number("--ms", 60)?;
    if !(1..=10_000).contains(&ms) {
        return Err("--ms: 1 to 10000".to_string());
    }
    let budget = Duration::from_millis(ms) / PASSES;
    let bench = Bench { library, budget, best: RefCell::default(), next: Cell::default(), last: Cell::default() };
    for pass in 1..=PASSES {
        out::note(&format!("pass {pass} of {PASSES}\n"));
        bench.next.set(0);
        bench.last.set(pass == PASSES);
        table(&bench)?;
    }
    Ok(true)
}

fn table(bench: &Bench) -> Result<(), String> {
    bench.line(&format!(
        "{:<44}{:>11}{:>11}{:>8}{:>11}",
        "nanoseconds a call", "library", "model", "ratio", "inlined"
    ))?;
    steps(bench)?;
    stores(bench)?;
    pictures(bench)?;
    numbers(bench)?;
    growth(bench)?;
    archives::rows(bench)
}

fn steps(bench: &Bench) -> Result<(), String> {
    let fixture = fixture(8);
    let mut booting = fixture.clone();
    booting.board.boot.mode = 1;
    bench.row("fetch from the boot stream", &booting, |machine, fixture, _| {
        fixture.board.boot.at = 7;
        keep(machine.step(&mut fixture.board, Step::Fetch(0).into(), &mut fixture.ram, &fixture.boot));
    })?;
    bench.step("fetch from RAM", &fixture, |turn| Step::Fetch(turn as u16))?;
    bench.step("data read", &fixture, |turn| Step::Read(turn as u16))?;
    bench.step("port in F8", &fixture, |_| Step::PortIn(0xF8))?;
    bench.step("port in F4", &fixture, |_| Step::PortIn(0xF4))?;
    bench.step("port in, forwarded", &fixture, |_| Step::PortIn(0x01))?;
    bench.step("port out F0", &fixture, |turn| Step::PortOut(0xF0, turn as u8))?;
    bench.step("port out F6, makes every line dirty", &fixture, |turn| Step::PortOut(0xF6, turn as u8))?;
    bench.step("port out F8", &fixture, |turn| Step::PortOut(0xF8, turn as u8 & 15))?;
    bench.step("scan", &fixture, |_| Step::Scan)?;
    bench.step("disc line", &fixture, |turn| Step::DiscLine(turn & 1 == 1))?;
    bench.step("external line", &fixture, |turn| Step::ExternalLine(turn & 1 == 1))?;
    bench.step("refused with 5", &fixture, |_| Step::PortIn(0xF9))?;
    Ok(())
}

fn stores(bench: &Bench) -> Result<(), String> {
    let fixture = fixture(16);
    let unaltered = fixture.ram[BLOCK + 0x1930];
    bench.step("data write, alters nothing", &fixture, |_| Step::Write(0x5930, unaltered))?;
    bench.step("data write, alters a shown byte", &fixture, |turn| Step::Write(0x5930, turn as u8))?;
    // The first byte of block 2 is of row 13, which starts in block 1.
    bench.step("data write, a shown byte past a block's end", &fixture, |turn| Step::Write(0x8000, turn as u8))?;
    bench.step("data write, alters a byte no line shows", &fixture, |turn| Step::Write(0x0000, turn as u8))?;
    bench.step("data write, alters a byte past block 7", &fixture, |turn| Step::Write(0xC000, turn as u8))?;
    bench.step("data write, alters a pointer", &fixture, |turn| Step::Write(0xB600, turn as u8))?;
    bench.step("keyboard word, altered", &fixture, |turn| Step::Keyboard(0, turn as u8))?;
    Ok(())
}

fn pictures(bench: &Bench) -> Result<(), String> {
    let fixture = fixture(8);
    let full = bench.row("draw", &fixture, |machine, fixture, _| {
        keep(machine.draw(&fixture.board, &fixture.ram, &mut fixture.picture));
    })?;
    let mut ends = fixture.clone();
    lay_table(&mut ends.ram, |line| 7 * BLOCK + 0x3E00 + line / 8 * 16 + line % 8);
    bench.row("draw, every line from the end of block 7", &ends, |machine, fixture, _| {
        keep(machine.draw(&fixture.board, &fixture.ram, &mut fixture.picture));
    })?;
    for dirty in [0, 1, 16, 256] {
        let lines = if dirty == 1 { "line" } else { "lines" };
        let time = bench.row(&format!("refresh, {dirty} {lines} dirty"), &fixture, |machine, fixture, _| {
            fixture.board.dirty = Lines::first(black_box(dirty));
            keep(machine.refresh(&mut fixture.board, &fixture.ram, &mut fixture.picture));
        })?;
        bench.line(&format!("    of the library's full draw: {:.1} %", 100.0 * time / full))?;
    }
    let mut far = fixture.clone();
    far.board.dirty = Lines::single(255);
    bench.row("next dirty line, the last", &far, |machine, fixture, _| {
        keep(machine.next_dirty(&fixture.board, black_box(0)));
    })?;
    let other = fixture.picture.clone();
    bench.row("first difference, equal pictures", &fixture, |machine, fixture, _| {
        keep(machine.first_difference(&fixture.picture, black_box(&other)));
    })?;
    bench.row("widen", &fixture, |machine, fixture, _| {
        let (line, out) = fixture.picture.split_at_mut(LINE_BYTES);
        keep(machine.widen(line, &mut out[..WIDE_LINE_BYTES]));
    })?;
    Ok(())
}

fn numbers(bench: &Bench) -> Result<(), String> {
    let fixture = fixture(8);
    let on = PowerOn { sizes: Sizes { internal: 8, total: 8 }, rate: 50, ..PowerOn::default() };
    bench
        .row("power-on", &fixture, |machine, fixture, _| keep(machine.power_on(&mut fixture.board, black_box(&on))))?;
    bench.row("make pointer", &fixture, |machine, _, turn| keep(machine.make_pointer(turn as u32 & 7, 16)))?;
    bench.row("read pointer", &fixture, |machine, _, turn| keep(machine.read_pointer(turn as u16)))?;
    bench.row("roll", &fixture, |machine, _, turn| keep(machine.roll(turn as u8, 7)))?;
    let access = Access { sizes: on.sizes, paging: Paging { maps: [0x25; 4], lock: 0x10 }, address: 0 };
    bench.row("reach", &fixture, |machine, _, turn| keep(machine.reach(&Access { address: turn as u16, ..access })))?;
    Ok(())
}

/// No operation may take longer because there is more RAM.
fn growth(bench: &Bench) -> Result<(), String> {
    for total in [8, 32, 128] {
        let fixture = fixture(total);
        let name = |what: &str| format!("{what}, {total} blocks");
        bench.step(&name("data read"), &fixture, |turn| Step::Read(turn as u16))?;
        bench.step(&name("data write, alters a shown byte"), &fixture, |turn| Step::Write(0x5930, turn as u8))?;
        bench.row(&name("draw"), &fixture, |machine, fixture, _| {
            keep(machine.draw(&fixture.board, &fixture.ram, &mut fixture.picture));
        })?;
        bench.row(&name("refresh, 16 lines dirty"), &fixture, |machine, fixture, _| {
            fixture.board.dirty = Lines::first(black_box(16));
            keep(machine.refresh(&mut fixture.board, &fixture.ram, &mut fixture.picture));
        })?;
    }
    Ok(())
}
