//! The reload of one of two units: two quiet logs of it from the same start, the other unit's calls anywhere among them
//! and within the reload, leave its record and memory equal, and all that comes after.

use crate::call::{Call, Kind};
use crate::machine::Machine;
use crate::random::Random;
use crate::runs::known_reason;
use crate::scenery::{self, next_line};
use crate::shared::refill;
use crate::systematic::some_call;
use crate::trial::{Stop, Trial};
use crate::world::{Name, OWN};
use second::calls::RUN_ALL;

/// Pairs of logs of a session, and calls after each reload.
const PAIRS: usize = 25;
const FURTHER: usize = 12;

/// The seven steps, as accesses of a port; those that write are marked.
const STEPS: [(u16, bool); 9] =
    [(2, false), (0, true), (1, true), (3, true), (6, true), (6, true), (7, false), (5, true), (5, true)];

/// One of the mirrors of a port.
fn mirror(random: &mut Random, port: u16) -> u16 {
    0x2000 + 8 * random.below(1024) as u16 + port
}

/// An access that is no data write, or a data write or sprite DMA that is refused.
fn quiet_call(trial: &Trial, random: &mut Random, which: u8) -> Call {
    let (any, quiet, data) = (random.below(8) as u16, random.pick(&[0, 1, 2, 3, 5, 6]), random.pick(&[4, 7]));
    let off = |random: &mut Random, name: Name| random.pick(&trial.wrong_lengths(name.of_unit(which)));
    let call = match random.below(8) {
        0..=2 => Call::read(mirror(random, any)),
        3..=5 => Call::write(mirror(random, quiet), random.byte()),
        6 => Call::write(mirror(random, data), random.byte())
            .with_length(Name::Nametables, off(random, Name::Nametables)),
        _ => Call::dma().with_length(Name::Oam, off(random, Name::Oam)),
    };
    call.by(which)
}

/// Some calls of the other unit, of any kind; it may have been changed before.
fn meddle(trial: &mut Trial, random: &mut Random, other: u8) -> Result<(), Stop> {
    if random.one_in(6) {
        trial.set(Name::Unit.of_unit(other), &scenery::unit(random));
    }
    for _ in 0..random.below(3) {
        let kind = random.pick(&[Kind::Read, Kind::Write, Kind::Write, Kind::Dma, Kind::Run]);
        let call = some_call(trial, random, kind).by(other);
        trial.call(&call)?;
    }
    Ok(())
}

/// A quiet log of the unit that runs so many lines, and calls of the other unit among its own.
fn quiet_log(trial: &mut Trial, random: &mut Random, which: u8, lines: u64) -> Result<(), Stop> {
    let mut rest = lines;
    for _ in 0..random.below(16) {
        meddle(trial, random, 1 - which)?;
        if random.one_in(4) {
            let most = random.within(0, rest as usize) as u16;
            rest -= trial.call(&Call::run(most, known_reason(random)).by(which))? >> 32;
        } else {
            let call = quiet_call(trial, random, which);
            trial.call(&call)?;
        }
    }
    let last = trial.call(&Call::run(rest as u16, RUN_ALL).by(which))? >> 32;
    assert_eq!(last, rest, "the lines of a quiet log");
    Ok(())
}

/// The reload of the unit with those bytes, calls of the other unit among its own.
fn reload(trial: &mut Trial, random: &mut Random, which: u8, bytes: &[u8; 9]) -> Result<(), Stop> {
    for ((port, writes), &byte) in STEPS.into_iter().zip(bytes) {
        meddle(trial, random, 1 - which)?;
        let address = mirror(random, port);
        let call = if writes { Call::write(address, byte) } else { Call::read(address) };
        assert_eq!(trial.call(&call.by(which))? & 255, 0, "port {port} of the reload");
    }
    meddle(trial, random, 1 - which)
}

fn is_equal(trial: &Trial, twin: &Machine, which: u8) -> bool {
    OWN.iter().map(|name| name.of_unit(which)).all(|name| trial.of(name) == twin.of(name))
}

/// Further calls of the unit, the same on both machines, with the same answers, memory and pictures.
fn go_on(trial: &mut Trial, random: &mut Random, twin: &mut Machine, which: u8) -> Result<(), Stop> {
    for _ in 0..FURTHER {
        meddle(trial, random, 1 - which)?;
        trial.on(twin, |trial| meddle(trial, random, 1 - which))?;
        let kind = random.pick(&[Kind::Read, Kind::Write, Kind::Dma, Kind::Run, Kind::Run]);
        let call = some_call(trial, random, kind).by(which);
        let answer = trial.call(&call)?;
        assert_eq!(trial.on(twin, |trial| trial.call(&call))?, answer, "{call:?} after the reload");
        assert!(is_equal(trial, twin, which), "{call:?} after the reload leaves another unit or memory");
        if kind == Kind::Run && answer & 255 == 0 {
            for name in [Name::Line, Name::Colours] {
                assert!(trial.of(name) == twin.of(name), "{call:?} after the reload shows another picture");
            }
        }
    }
    Ok(())
}

/// Two logs from the same start, the reload after each, and what follows.
fn pair(trial: &mut Trial, random: &mut Random, which: u8) -> Result<(), Stop> {
    let mut unit = scenery::sharing_unit(random);
    unit[12..14].copy_from_slice(&(random.within(240, 260) as u16).to_le_bytes());
    unit[14] = 1;
    trial.set(Name::Unit.of_unit(which), &unit);
    let mut twin = trial.machine().clone();
    let lines = random.below(261 - usize::from(next_line(&unit))) as u64;
    quiet_log(trial, random, which, lines)?;
    trial.on(&mut twin, |trial| quiet_log(trial, random, which, lines))?;
    let differ = !is_equal(trial, &twin, which);
    let bytes = std::array::from_fn(|_| random.byte());
    reload(trial, random, which, &bytes)?;
    trial.on(&mut twin, |trial| reload(trial, random, which, &bytes))?;
    assert!(is_equal(trial, &twin, which), "a reload of unit {which} leaves another unit or memory");
    trial.tally.isolation.reloads += 1;
    trial.tally.isolation.reloads_of_different += u64::from(differ);
    go_on(trial, random, &mut twin, which)
}

pub fn session(trial: &mut Trial, random: &mut Random) -> Result<(), Stop> {
    for number in 0..PAIRS {
        refill(trial, random);
        pair(trial, random, number as u8 % 2)?;
    }
    Ok(())
}

/// Reloads that are always made.
pub fn first(trial: &mut Trial, random: &mut Random, _: usize) -> Result<(), Stop> {
    session(trial, random)
}
