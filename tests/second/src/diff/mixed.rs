//! Random sessions: long ones with the record and the memory carried along, and drawn lines.

use crate::call::{Call, Kind};
use crate::random::Random;
use crate::runs::one_line;
use crate::scenery;
use crate::systematic::{refill, some_call};
use crate::trial::{Stop, Trial};
use crate::world::{Name, SLACK};

use Kind::*;

/// What a session mostly does.
const HABITS: [&[Kind]; 6] = [
    &[Read, Read, Read, Write, Write, Write, Write, Dma],
    &[Read, Write, Write, Run, Run, Run, Run, Dma],
    &[Read, Write, Run, Search, Search, Search, Dma],
    &[Read, Read, Write, Write, Write, Run, Run, Dma],
    &[Write, Run, Run, Run, Run],
    &[Play, Play, Play, Play, Play, Play, Run, Dma],
];

pub fn session(trial: &mut Trial, random: &mut Random, calls: usize) -> Result<(), Stop> {
    refill(trial, random);
    let habit = random.pick(&HABITS);
    for _ in 0..calls {
        disturb(trial, random);
        let kind = if random.one_in(200) { Fresh } else { random.pick(habit) };
        let mut call = some_call(trial, random, kind);
        if random.one_in(40) {
            mislength(trial, random, &mut call);
        }
        if kind == Run {
            call.most = run_length(trial, random);
        }
        if kind == Play && random.one_in(6) {
            let [high, low] = run_length(trial, random).to_be_bytes();
            trial.set(Name::Log, &[2, high, low, 0]);
        }
        if kind == Dma && random.one_in(2) {
            scatter_sprites(trial, random, Name::Page);
        }
        if kind == Write && random.one_in(8) {
            follow_up(trial, random, &call)?;
        }
        trial.call(&call)?;
    }
    Ok(())
}

/// Lines searched and drawn, each with a unit of its own and sprites about it.
pub fn pictures(trial: &mut Trial, random: &mut Random, calls: usize) -> Result<(), Stop> {
    for number in 0..calls {
        if number % 50 == 0 {
            refill(trial, random);
        }
        let mut unit = scenery::unit(random);
        let line = random.below(240) as u16;
        unit[1] |= random.pick(&[0x08, 0x10, 0x18, 0x18, 0x1E]);
        unit[12..14].copy_from_slice(&line.to_le_bytes());
        trial.set(Name::Unit, &unit);
        scatter_sprites(trial, random, Name::Oam);
        trial.call(&Call::search(line))?;
        trial.call(&one_line(random))?;
    }
    Ok(())
}

/// Now and then something that no call did: a new unit, another line, other sprites.
fn disturb(trial: &mut Trial, random: &mut Random) {
    let mut unit = trial.unit();
    match random.below(64) {
        0 => trial.set(Name::Unit, &scenery::unit(random)),
        1 => {
            scenery::spoil(random, &mut unit);
            trial.set(Name::Unit, &unit);
        }
        2 | 3 => {
            unit[12..14].copy_from_slice(&(random.below(262) as u16).to_le_bytes());
            trial.set(Name::Unit, &unit);
        }
        4..=11 => scatter_sprites(trial, random, Name::Oam),
        12 => trial.set(Name::Left, &scenery::table(random)),
        13 => trial.set(Name::Right, &scenery::table(random)),
        14 => trial.set(Name::Nametables, &scenery::nametables(random)),
        15 => {
            unit[14] = 1;
            trial.set(Name::Unit, &unit);
        }
        16..=19 => {
            unit[1] ^= random.pick(&[0x01, 0x02, 0x04, 0x06, 0x08, 0x10, 0x18, 0x20, 0x40, 0x80]);
            trial.set(Name::Unit, &unit);
        }
        20 => {
            // Off, with v in the palette: backdrop override.
            unit[1] &= !0x18;
            unit[5] |= 0x3F;
            trial.set(Name::Unit, &unit);
        }
        21 => trial.set_at(Name::Palette, random.below(32), &[random.byte()]),
        _ => {}
    }
    let malformed = second::unit::Unit::from_record(&trial.unit()).is_none();
    if malformed && random.one_in(3) {
        trial.set(Name::Unit, &scenery::unit(random));
    }
}

/// Sprites that have to do with the next line, into OAM or the page for sprite DMA.
fn scatter_sprites(trial: &mut Trial, random: &mut Random, name: Name) {
    let line = scenery::next_line(&trial.unit()).min(261);
    trial.set(name, &scenery::oam(random, line));
}

/// Another length for a memory that the call is lent, or for some.
pub fn mislength(trial: &Trial, random: &mut Random, call: &mut Call) {
    loop {
        let name = random.pick(call.kind.lent());
        call.lengths[name as usize] = Some(match random.below(4) {
            0 => random.within(0, name.longest() + SLACK),
            _ => random.pick(&trial.wrong_lengths(name)),
        });
        if !random.one_in(4) {
            break;
        }
    }
}

/// A single line, or else short runs where pixels are drawn and any where they are not.
fn run_length(trial: &Trial, random: &mut Random) -> u16 {
    let drawn = trial.unit()[1] & 0x18 != 0;
    if random.one_in(2) {
        return 1;
    }
    match random.below(if drawn { 80 } else { 8 }) {
        0 => random.below(300) as u16,
        1 if !drawn => random.below(3000) as u16,
        _ => random.below(12) as u16,
    }
}

/// The pairs of writes that programs make: scroll, address, then data.
fn follow_up(trial: &mut Trial, random: &mut Random, call: &Call) -> Result<(), Stop> {
    let mut write = |port: u16, byte: u8| trial.call(&Call { address: 0x2000 + port, byte, ..call.clone() });
    match random.below(3) {
        0 => {
            write(5, random.byte())?;
            write(5, random.byte())?;
        }
        1 => {
            write(6, random.byte())?;
            write(6, random.byte())?;
            for _ in 0..random.below(20) {
                write(7, random.byte())?;
            }
        }
        _ => {
            write(0, random.byte())?;
            write(1, random.byte())?;
        }
    }
    Ok(())
}
