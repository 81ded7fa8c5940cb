//! Every kind of step, as scenes.

use super::scene::{index, Made, Scene};
use crate::tool::fixture::{lay_table, Fixture, TABLE};
use joyce::{Refusal, Step, StepNumbers, BLOCK, ROUTE_NMI};
use joyce_host::model::{BoardRules, STANDARD_RAM};

/// Where keyboard words go: block 3, 3FF0h.
const KEYBOARD: usize = 3 * BLOCK + 0x3FF0;
/// Any addresses that the fixture has some other byte than 0 at.
const ANY: [u16; 3] = [0x0123, 0x5930, 0xFFFF];
/// Addresses that the fixture's screen shows: its first byte, and one past a block's end.
const SHOWN: [u16; 2] = [0x5930, 0x8000];
/// Addresses in standard RAM that it does not: before the screen, behind it, and in another block.
const UNSHOWN: [u16; 3] = [0x4000, 0xBF00, 0x0000];

pub fn all() -> Vec<Scene> {
    [reads(), writes(), ins(), outs(), clock(), keyboard(), lines(), refusals()].into_iter().flatten().collect()
}

/// A scene of the fixture as it is.
fn plain(name: &'static str, steps: fn(&Fixture) -> Vec<StepNumbers>, holds: fn(&Made) -> bool) -> Scene {
    Scene { name, set: |_| {}, steps, holds }
}

/// Steps as a call takes them.
fn numbers(steps: impl IntoIterator<Item = Step>) -> Vec<StepNumbers> {
    steps.into_iter().map(StepNumbers::from).collect()
}

fn reads() -> Vec<Scene> {
    vec![
        plain("fetch", |_| numbers(ANY.map(Step::Fetch)), |made| made.gave_ram()),
        Scene {
            name: "fetch in boot mode",
            set: |fixture| fixture.board.boot.mode = 1,
            steps: |_| numbers([Step::Fetch(0)]),
            holds: |made| {
                let (at, next) = (made.before.board.boot.at, made.after.board.boot.at);
                made.accepted() && next == at + 1 && made.reply.value() == made.before.boot[at as usize] as u16
            },
        },
        Scene {
            name: "fetch past the boot stream's end",
            set: |fixture| {
                fixture.board.boot.mode = 1;
                fixture.board.boot.at = fixture.boot.len() as u16;
            },
            steps: |_| numbers([Step::Fetch(0)]),
            holds: |made| made.refused(Refusal::STREAM_ENDED),
        },
        plain("read", |_| numbers(ANY.map(Step::Read)), |made| made.gave_ram()),
    ]
}

/// Writes of other values than those that stand there.
fn altering(fixture: &Fixture, addresses: &[u16]) -> Vec<StepNumbers> {
    numbers(addresses.iter().map(|&address| Step::Write(address, !fixture.ram[index(fixture, address as u32)])))
}

/// The index that a write reached, with the lines that came to be dirty by the altered byte.
fn altered(made: &Made) -> Option<(usize, u16)> {
    let at = index(made.before, made.step.number);
    made.altered(at).map(|dirty| (at, dirty))
}

fn in_table(at: usize) -> bool {
    (TABLE..TABLE + 512).contains(&at)
}

fn writes() -> Vec<Scene> {
    vec![
        plain(
            "write that alters nothing",
            |fixture| numbers(ANY.map(|address| Step::Write(address, fixture.ram[index(fixture, address as u32)]))),
            |made| made.unaltered(index(made.before, made.step.number)),
        ),
        plain(
            "write that alters an unshown byte",
            |fixture| altering(fixture, &UNSHOWN),
            |made| matches!(altered(made), Some((at, 0)) if at < STANDARD_RAM),
        ),
        plain(
            "write that alters a shown byte",
            |fixture| altering(fixture, &SHOWN),
            |made| matches!(altered(made), Some((at, 1..)) if !in_table(at)),
        ),
        Scene {
            name: "write that alters a byte of every line",
            set: |fixture| lay_table(&mut fixture.ram, |_| BLOCK + 0x1930),
            steps: |fixture| altering(fixture, &SHOWN[..1]),
            holds: |made| matches!(altered(made), Some((at, 1..)) if !in_table(at)) && made.dirtied_all(),
        },
        plain(
            "write that alters a pointer byte",
            |fixture| altering(fixture, &[0xB600, 0xB601]),
            |made| matches!(altered(made), Some((at, 1..)) if in_table(at)),
        ),
        plain(
            "write past standard RAM",
            |fixture| altering(fixture, &[0xC000]),
            |made| matches!(altered(made), Some((STANDARD_RAM.., 0))),
        ),
    ]
}

fn ins() -> Vec<Scene> {
    vec![
        Scene {
            name: "in of a port of the board",
            set: |fixture| fixture.board.clock.counter = 5,
            steps: |_| numbers([0xF4, 0xF8].map(Step::PortIn)),
            holds: |made| made.accepted() && !made.reply.forwarded() && made.reply.value() & 15 == 5,
        },
        plain(
            "in, forwarded",
            |_| numbers([0x00, 0x01, 0x80, 0xEF, 0xFC, 0xFD].map(Step::PortIn)),
            |made| made.did_nothing() && made.reply.forwarded(),
        ),
        plain(
            "in, refused with 5",
            |_| numbers([0x02, 0xF0, 0xF9, 0xFF].map(Step::PortIn)),
            |made| made.refused(Refusal::NO_PORT),
        ),
    ]
}

/// Outs of the same value.
fn outs_of(ports: &[u8], value: u8) -> Vec<StepNumbers> {
    numbers(ports.iter().map(|&port| Step::PortOut(port, value)))
}

fn outs() -> Vec<Scene> {
    let mut scenes = vec![
        plain(
            "out to F0 to F3",
            |_| outs_of(&[0xF0, 0xF1, 0xF2, 0xF3], 0x25),
            |made| made.accepted() && made.after.board.paging.maps[made.step.number as usize - 0xF0] == 0x25,
        ),
        plain("out to F4", |_| outs_of(&[0xF4], 0x70), |made| made.accepted() && made.after.board.paging.lock == 0x70),
    ];
    scenes.extend(video_outs());
    scenes.extend([
        plain(
            "out to F8, every value",
            |_| numbers((0..=255).map(|value| Step::PortOut(0xF8, value))),
            |made| made.accepted(),
        ),
        plain("out to FA and FB", |_| outs_of(&[0xFA, 0xFB], 1), |made| made.did_nothing()),
        plain(
            "out, forwarded",
            |_| outs_of(&[0x01, 0x80, 0xEF, 0xFC, 0xFD], 1),
            |made| made.did_nothing() && made.reply.forwarded(),
        ),
        plain("out, refused with 5", |_| outs_of(&[0x00, 0xF9, 0xFF], 1), |made| made.refused(Refusal::NO_PORT)),
    ]);
    scenes
}

fn video_outs() -> Vec<Scene> {
    vec![
        plain(
            "out to F5",
            |_| outs_of(&[0xF5], 0x60),
            |made| made.accepted() && made.after.board.video.table == 0x60 && made.dirtied_all(),
        ),
        plain(
            "out to F6",
            |_| outs_of(&[0xF6], 8),
            |made| made.accepted() && made.after.board.video.top == 8 && made.dirtied_all(),
        ),
        plain(
            "out to F7",
            |_| numbers([0x00, 0x41, 0xC0].map(|value| Step::PortOut(0xF7, value))),
            |made| made.accepted() && made.after.board.video.control as u32 == made.step.value,
        ),
    ]
}

/// A scan from a beam that `set` chooses, and what it must make of beam and counter.
fn scan(name: &'static str, set: fn(&mut Fixture), holds: fn(&Made) -> bool) -> Scene {
    Scene { name, set, steps: |_| numbers([Step::Scan]), holds }
}

fn clock() -> Vec<Scene> {
    vec![
        scan("scan", |_| {}, |made| made.accepted() && clock_after(made) == (1, 0)),
        scan(
            "scan with a tick",
            |fixture| fixture.board.clock.beam = 1,
            |made| made.accepted() && clock_after(made) == (2, 1),
        ),
        scan(
            "scan that ends a frame",
            |fixture| fixture.board.clock.beam = fixture.board.frame() - 1,
            |made| made.accepted() && clock_after(made) == (0, 0),
        ),
    ]
}

/// Beam and counter.
fn clock_after(made: &Made) -> (u16, u8) {
    (made.after.board.clock.beam, made.after.board.clock.counter)
}

fn keyboard() -> Vec<Scene> {
    vec![
        plain(
            "keyboard word that alters nothing",
            |fixture| numbers([Step::Keyboard(0, fixture.ram[KEYBOARD])]),
            |made| made.unaltered(KEYBOARD),
        ),
        plain(
            "keyboard word that alters an unshown byte",
            |fixture| numbers([Step::Keyboard(0, !fixture.ram[KEYBOARD])]),
            |made| made.altered(KEYBOARD) == Some(0),
        ),
        Scene {
            name: "keyboard word that alters a shown byte",
            set: |fixture| lay_table(&mut fixture.ram, |_| KEYBOARD),
            steps: |fixture| numbers([Step::Keyboard(0, !fixture.ram[KEYBOARD])]),
            holds: |made| matches!(made.altered(KEYBOARD), Some(1..)),
        },
    ]
}

fn lines() -> Vec<Scene> {
    vec![
        plain(
            "disc line",
            |_| numbers([true, false].map(Step::DiscLine)),
            |made| made.accepted() && made.after.board.disc.line as u32 == made.step.value,
        ),
        Scene {
            name: "disc line that shows NMI",
            set: |fixture| fixture.board.disc.route = ROUTE_NMI,
            steps: |_| numbers([Step::DiscLine(true)]),
            holds: |made| made.accepted() && made.reply.nmi(),
        },
        plain(
            "external line",
            |_| numbers([true, false].map(Step::ExternalLine)),
            |made| made.accepted() && made.after.board.external as u32 == made.step.value,
        ),
    ]
}

/// A step of each kind, none of them wrong in itself.
fn each_kind(_: &Fixture) -> Vec<StepNumbers> {
    numbers([
        Step::Fetch(0),
        Step::Read(0),
        Step::Write(0x5930, 1),
        Step::PortIn(0xF8),
        Step::PortOut(0xF8, 0),
        Step::Scan,
        Step::Keyboard(0, 1),
        Step::DiscLine(true),
        Step::ExternalLine(true),
    ])
}

/// A step of each kind, and of two that are none, wrong in itself.
fn wrong_numbers(_: &Fixture) -> Vec<StepNumbers> {
    let wrong = [(0, 0), (65_536, 0), (0, 1), (0, 256), (256, 0), (0xF8, 256), (1, 0), (16, 0), (0, 2), (1, 0), (0, 0)];
    (0..).zip(wrong).map(|(kind, (number, value))| StepNumbers::new(kind, number, value)).collect()
}

fn refusals() -> Vec<Scene> {
    vec![
        Scene {
            name: "refused with 1",
            set: |fixture| fixture.board.rate = 55,
            steps: each_kind,
            holds: |made| made.refused(Refusal::BAD_RECORD),
        },
        Scene {
            name: "refused with 2, for the RAM",
            set: |fixture| fixture.ram.truncate(8 * BLOCK),
            steps: each_kind,
            holds: |made| made.refused(Refusal::BAD_LENGTH),
        },
        Scene {
            name: "refused with 2, for the boot stream",
            set: |fixture| fixture.boot.push(0),
            steps: each_kind,
            holds: |made| made.refused(Refusal::BAD_LENGTH),
        },
        plain("refused with 3", wrong_numbers, |made| made.refused(Refusal::BAD_NUMBER)),
    ]
}
