//! Sessions of runs: every reason to stop, from every line and to lengths about each bound, and scenes in
//! which sprite 0 often hits.

use crate::call::{Call, Kind};
use crate::random::Random;
use crate::scenery::{self, next_line};
use crate::systematic::{refill, unit_at_line};
use crate::trial::{Stop, Trial, REASONS};
use crate::world::Name;
use second::calls::{RUN_ALL, UNTIL_HIT, UNTIL_NMI};

const SWITCHES: u8 = 0x18;
const HIT: u8 = 0x40;

/// Scenes from each line in which a hit is waited for.
const SCENES: usize = 8;

/// What a run says of itself.
#[derive(Clone, Copy, Debug, PartialEq, Eq)]
struct Ran {
    lines: u16,
    met: bool,
}

/// What a run changes: the record and both buffers.
#[derive(Clone, PartialEq, Eq)]
struct State(Vec<Vec<u8>>);

const CHANGED: [Name; 3] = [Name::Unit, Name::Line, Name::Colours];

impl State {
    fn of(trial: &Trial) -> State {
        State(CHANGED.iter().map(|&name| trial.of(name)[..name.longest()].to_vec()).collect())
    }

    fn restore(&self, trial: &mut Trial) {
        CHANGED.iter().zip(&self.0).for_each(|(&name, bytes)| trial.set(name, bytes));
    }
}

/// A number that is a reason to stop.
pub fn known_reason(random: &mut Random) -> u8 {
    random.below(REASONS) as u8
}

/// A reason to stop, seldom an unknown one.
pub fn some_reason(random: &mut Random) -> u8 {
    if random.one_in(32) {
        random.byte()
    } else {
        known_reason(random)
    }
}

/// A run of one line, which does the same whatever its reason.
pub fn one_line(random: &mut Random) -> Call {
    Call::run(1, known_reason(random))
}

/// Lines from a unit's next line to another line, both of them counted.
fn lines_to(unit: &[u8; 16], line: u16) -> u16 {
    (line + 262 - next_line(unit)) % 262 + 1
}

/// What documents 01 and 02 say of a run by the record alone; nothing for a hit, which the picture decides.
fn due(unit: &[u8; 16], most: u16, reason: u8) -> Option<Ran> {
    let stop = lines_to(unit, 241);
    match reason {
        UNTIL_HIT => None,
        UNTIL_NMI if unit[0] & 0x80 != 0 && stop <= most => Some(Ran { lines: stop, met: true }),
        _ => Some(Ran { lines: most, met: false }),
    }
}

/// A run that is to be done; what its record and answer must say of each other does hold.
fn ran(trial: &mut Trial, most: u16, reason: u8) -> Result<Ran, Stop> {
    let before = trial.unit();
    let answer = trial.call(&Call::run(most, reason))?;
    let after = trial.unit();
    let ran = Ran { lines: (answer >> 32) as u16, met: answer >> 17 & 1 == 1 };
    let what = format!("a run of {most}, reason {reason}, from line {}: {ran:?}", next_line(&before));
    let nmi = u64::from(after[0] & after[2] & 0x80) << 9;
    assert_eq!(answer, u64::from(ran.lines) << 32 | u64::from(ran.met) << 17 | nmi, "{what}");
    let goes = u32::from(next_line(&before)) + u32::from(ran.lines);
    assert_eq!(u32::from(next_line(&after)), goes % 262, "{what}");
    if let Some(due) = due(&before, most, reason) {
        assert_eq!(ran, due, "{what}");
    }
    if reason == UNTIL_HIT {
        let is_set = after[2] & HIT != 0;
        let waits = before[2] & HIT != 0 && ran.lines <= lines_to(&before, 261);
        assert!(ran.lines <= most && (ran.met || ran.lines == most), "{what}");
        assert!(if ran.met { is_set && !waits } else { !is_set || waits }, "{what}: bit 6 is {is_set}");
    }
    Ok(ran)
}

/// Runs from every line, of lengths about each bound, with each reason, control bit 7 set and not.
pub fn bounds(trial: &mut Trial, random: &mut Random, part: usize) -> Result<(), Stop> {
    for line in (part as u16..262).step_by(8) {
        refill(trial, random);
        let stop = lines_to(&unit_at_line(random, line), 241);
        let others = [random.within(241, 263), random.below(700)].map(|most| most as u16);
        let bounds = [0, 1, 2, stop - 1, stop, stop + 1, 241, 242, 261, 262, 263, 523, 524, 525];
        for most in bounds.into_iter().chain(others) {
            for round in 0..2 * REASONS {
                let mut unit = unit_at_line(random, line);
                unit[0] = unit[0] & 0x7F | (round as u8 & 1) << 7;
                if !random.one_in(12) {
                    unit[1] &= !SWITCHES;
                }
                trial.set(Name::Unit, &unit);
                ran(trial, most, round as u8 / 2)?;
            }
        }
    }
    longest(trial, random, part)
}

/// Runs of very many lines, of each reason by turns; two of the most that can be asked for, drawn.
fn longest(trial: &mut Trial, random: &mut Random, part: usize) -> Result<(), Stop> {
    for (turn, most) in [1000, 32767, 32768, 65534, 65535].into_iter().enumerate() {
        let mut unit = scenery::unit(random);
        unit[0] = unit[0] & 0x7F | (part as u8 & 1) << 7;
        unit[1] &= !SWITCHES;
        trial.set(Name::Unit, &unit);
        ran(trial, most, ((part + turn) % REASONS) as u8)?;
    }
    if part < 2 {
        // With sprites off no line hits.
        let (on, reason) = [(SWITCHES, RUN_ALL), (0x08, UNTIL_HIT)][part];
        let mut unit = scenery::unit(random);
        unit[1] = unit[1] & !SWITCHES | on;
        trial.set(Name::Unit, &unit);
        ran(trial, 65535, reason)?;
    }
    Ok(())
}

/// Patterns, nametables and sprites with which sprite 0 often hits on or some lines after a line.
fn set_scene(trial: &mut Trial, random: &mut Random, line: u16) {
    for name in [Name::Left, Name::Right] {
        let (many, mut table) = (random.pick(&[1, 1, 2, 4, 16]), [0; 4096]);
        table.iter_mut().for_each(|row| *row = if random.one_in(many) { random.byte() | 1 } else { 0 });
        trial.set(name, &table);
    }
    trial.set(Name::Nametables, &scenery::nametables(random));
    let mut oam = scenery::oam(random, line);
    // Lines behind the picture: the next one is waited for.
    let near = (line + random.below(16) as u16).saturating_sub(6);
    let (low, any) = (random.below(16) as u8, random.byte());
    oam[0] = if near < 240 { near as u8 } else { random.pick(&[low, low, low, 239, 255]) };
    oam[3] = random.pick(&[any, any, any, 0, 1, 7, 8, 247, 249, 254, 255]);
    trial.set(Name::Oam, &oam);
}

/// A unit for such a scene, with status bit 6 as told.
fn watching_unit(random: &mut Random, line: u16, is_set: bool) -> [u8; 16] {
    let mut unit = unit_at_line(random, line);
    let on = random.pick(&[0x18, 0x18, 0x18, 0x1E, 0x1E, 0x1E, 0x1A, 0x1C, 0x08, 0x10, 0x00]);
    unit[1] = unit[1] & !0x1E | on;
    unit[2] = unit[2] & !HIT | u8::from(is_set) << 6;
    unit
}

/// Runs to a hit from every line, sprite 0 being about it, with status bit 6 clear and set.
pub fn hits(trial: &mut Trial, random: &mut Random, part: usize) -> Result<(), Stop> {
    let (mut scenes, mut met) = (0, 0);
    for line in (part as u16..262).step_by(8) {
        refill(trial, random);
        for scene in 0..SCENES {
            let is_set = scene == 0 || line > 220 && scene % 2 == 0;
            let is_far = is_set || line > 220 || scene == 1;
            let most = random.pick(if is_far { &[262, 263, 300, 524] } else { &[20, 24, 30, 40] });
            set_scene(trial, random, line);
            trial.set(Name::Unit, &watching_unit(random, line, is_set));
            scenes += 1;
            met += usize::from(about_a_hit(trial, most)?);
        }
    }
    assert!(3 * met > scenes, "sprite 0 hits in {met} of {scenes} scenes");
    assert!(trial.tally.runs[usize::from(UNTIL_HIT)].are_of_each_kind(), "the runs to a hit of part {part}");
    Ok(())
}

/// A run to a hit, then runs about the line that met it, all from the same start; whether it is met.
fn about_a_hit(trial: &mut Trial, most: u16) -> Result<bool, Stop> {
    let start = State::of(trial);
    let first = ran(trial, most, UNTIL_HIT)?;
    let end = State::of(trial);
    // The same lines for no reason, which leave the same behind.
    start.restore(trial);
    ran(trial, first.lines, RUN_ALL)?;
    assert!(State::of(trial) == end, "{} lines with no reason leave something else", first.lines);
    if !first.met {
        return Ok(false);
    }
    for most in [0, 1, first.lines - 1, first.lines, first.lines + 1, 65535] {
        start.restore(trial);
        let due = Ran { lines: most.min(first.lines), met: most >= first.lines };
        assert_eq!(ran(trial, most, UNTIL_HIT)?, due, "at most {most} lines");
        assert!(!due.met || State::of(trial) == end, "at most {most} lines leave something else");
    }
    // One by one, only the last of them meets it.
    start.restore(trial);
    for line in 1..=first.lines {
        let met = ran(trial, 1, UNTIL_HIT)?.met;
        assert_eq!(met, line == first.lines, "line {line} of {}", first.lines);
    }
    Ok(true)
}

/// Every number of a reason; the record, a memory or none of a wrong length; the record malformed or not.
pub fn reasons(trial: &mut Trial, random: &mut Random, _: usize) -> Result<(), Stop> {
    refill(trial, random);
    for reason in 0..=255 {
        for wrong in 0..4 {
            for &name in Kind::Run.lent() {
                let off = (wrong & 1 == 1).then_some(name);
                reason_and_wrongs(trial, random, reason, off, wrong & 2 == 2)?;
            }
        }
    }
    Ok(())
}

/// A run with that reason, a memory of a wrong length or none, and a record that is well formed or not: 5 for
/// the reason, 2 for the record, 3, 2 for memory.
fn reason_and_wrongs(
    trial: &mut Trial,
    random: &mut Random,
    reason: u8,
    off: Option<Name>,
    malformed: bool,
) -> Result<(), Stop> {
    let mut unit = scenery::unit(random);
    if malformed {
        scenery::spoil(random, &mut unit);
    }
    trial.set(Name::Unit, &unit);
    let due = match (reason <= UNTIL_HIT, off, malformed) {
        (false, _, _) => 5,
        (_, Some(Name::Unit), _) => 2,
        (_, _, true) => 3,
        (_, Some(_), _) => 2,
        _ => 0,
    };
    let most = random.below(if due == 0 { 4 } else { 65536 }) as u16;
    let mut call = Call::run(most, reason);
    if let Some(name) = off {
        call = call.with_length(name, random.pick(&trial.wrong_lengths(name)));
    }
    let answer = trial.call(&call)?;
    assert_eq!(answer & 255, due, "{call:?}");
    assert!(due == 0 || answer == due, "a refusal is its number: {answer:X}");
    Ok(())
}

/// Runs for every reason in scenes in which sprite 0 often hits, record and memory carried along.
pub fn session(trial: &mut Trial, random: &mut Random, calls: usize) -> Result<(), Stop> {
    refill(trial, random);
    for _ in 0..calls {
        change(trial, random)?;
        let (most, reason) = (some_length(trial, random), some_reason(random));
        if reason <= UNTIL_HIT {
            ran(trial, most, reason)?;
        } else {
            assert_eq!(trial.call(&Call::run(most, reason))?, 5, "reason {reason}");
        }
    }
    Ok(())
}

/// Often another scene, bit 6 mostly clear; now and then what a program or a restored record changes.
fn change(trial: &mut Trial, random: &mut Random) -> Result<(), Stop> {
    let mut unit = trial.unit();
    let (next, any) = (next_line(&unit), random.below(240) as u16);
    let line = random.pick(&[next, next, any, any, any, 0, 1, 230, 239, 241, 255, 260, 261]);
    match random.below(16) {
        0 => {
            refill(trial, random);
            return Ok(());
        }
        1..=10 => {
            set_scene(trial, random, line);
            let is_set = random.one_in(6);
            unit = watching_unit(random, line, is_set);
        }
        11 => unit[0] ^= 0x80,
        12 => unit[2] ^= HIT,
        13 => return trial.call(&Call::read(0x2002)).map(drop),
        _ => {}
    }
    trial.set(Name::Unit, &unit);
    Ok(())
}

/// Mostly few lines; a frame or some hundreds now and then; up to 65,535 where nothing is drawn.
fn some_length(trial: &Trial, random: &mut Random) -> u16 {
    let (drawn, any) = (trial.unit()[1] & SWITCHES != 0, random.below(65536));
    let lines = match random.below(128) {
        0 if !drawn => random.pick(&[65535, 65534, 32768, any]),
        1 | 2 => random.below(700),
        3..=8 => random.within(241, 263),
        9..=12 => 0,
        13..=32 => 1,
        _ => random.below(40),
    };
    lines as u16
}
