//! Sessions of the search for overflow: through all values of what it looks at, and lines beside it.

use crate::call::Call;
use crate::random::Random;
use crate::runs::one_line;
use crate::scenery::{self, crowd, in_range, is_in_range, out_of_range, sprite_height};
use crate::systematic::{random_slots, refill, unit_at_line};
use crate::trial::{Stop, Trial};
use crate::world::Name;
use second::calls::RUN_ALL;

const SPRITES: usize = 64;
const OVERFLOW: u8 = 0x20;
const SWITCHES: u8 = 0x18;

/// How many sprites a search that is done looks at; its answer has nothing else but the NMI level.
fn looked(trial: &mut Trial, line: u16) -> Result<u64, Stop> {
    let answer = trial.call(&Call::search(line))?;
    let unit = trial.unit();
    let nmi = u64::from(unit[0] & unit[2] & 0x80) << 9;
    assert_eq!(answer & !(255 << 24), nmi, "the answer of a search on line {line}");
    Ok(answer >> 24)
}

/// Draws the line that is next with status bit 5 clear; whether the line sets it.
fn is_set_by_line(trial: &mut Trial, random: &mut Random) -> Result<bool, Stop> {
    let mut unit = trial.unit();
    unit[1] = unit[1] & !SWITCHES | random.pick(&[0x08, 0x10, 0x18]);
    unit[2] &= !OVERFLOW;
    trial.set(Name::Unit, &unit);
    trial.call(&one_line(random))?;
    Ok(trial.unit()[2] & OVERFLOW != 0)
}

fn unit_of_height(random: &mut Random, line: u16, height: u16) -> [u8; 16] {
    let mut unit = unit_at_line(random, line);
    unit[0] = unit[0] & !0x20 | (height as u8 & 16) << 1;
    unit
}

/// Every line number, with sprites about it, both heights.
pub fn scanlines(trial: &mut Trial, random: &mut Random, part: usize) -> Result<(), Stop> {
    refill(trial, random);
    for line in part * 4096..part * 4096 + 4096 {
        let (line, about) = (line as u16, (line % 240) as u16);
        for height in [8, 8, 16, 16] {
            let next = random.below(262) as u16;
            trial.set(Name::Unit, &unit_of_height(random, next, height));
            trial.set(Name::Oam, &crowd(random, about, height));
            if line < 240 {
                looked(trial, line)?;
            } else {
                assert_eq!(trial.call(&Call::search(line))?, 5, "a search on line {line}");
            }
        }
    }
    Ok(())
}

/// Every byte on every line, both heights, as the Y byte of the eighth sprite and in the five places that
/// are looked at first after it.
pub fn y_bytes(trial: &mut Trial, random: &mut Random, part: usize) -> Result<(), Stop> {
    refill(trial, random);
    for line in (part as u16..240).step_by(16) {
        for height in [8, 16] {
            trial.set(Name::Unit, &unit_of_height(random, line, height));
            for y in 0..=255 {
                y_byte(trial, random, line, y)?;
            }
        }
    }
    Ok(())
}

fn y_byte(trial: &mut Trial, random: &mut Random, line: u16, y: u8) -> Result<(), Stop> {
    let unit = trial.unit();
    let is_in = is_in_range(y, line, sprite_height(&unit));
    let eight = |at: usize| if at % 4 == 0 && at / 4 < 8 { line as u8 } else { 0xFF };
    for (sprite, byte) in [(8, 0), (9, 1), (10, 2), (11, 3), (12, 0)] {
        let mut oam = std::array::from_fn::<u8, 256, _>(eight);
        oam[4 * sprite + byte] = y;
        trial.set(Name::Oam, &oam);
        let due = if is_in { sprite as u64 + 1 } else { 64 };
        assert_eq!(looked(trial, line)?, due, "line {line}, {y} in byte {byte} of sprite {sprite}");
    }
    // As the eighth, with two more behind it: the first of them sets the bit, or is the eighth itself.
    let mut oam = std::array::from_fn::<u8, 256, _>(eight);
    oam[4 * 7] = y;
    oam[4 * 8] = line as u8;
    oam[4 * 9] = line as u8;
    trial.set(Name::Oam, &oam);
    assert_eq!(looked(trial, line)?, if is_in { 9 } else { 10 }, "line {line}, {y} in sprite 7");
    if random.one_in(16) {
        assert!(is_set_by_line(trial, random)?, "line {line}, {y} in sprite 7");
        trial.set(Name::Unit, &unit);
    }
    Ok(())
}

/// The eighth sprite at every place, and after it each byte of each sprite in range by itself: only one byte
/// of a sprite is looked at. Then these alone out of range, all others in range, up to each sprite in turn.
pub fn places(trial: &mut Trial, random: &mut Random, part: usize) -> Result<(), Stop> {
    for eighth in (7 + part..SPRITES).step_by(8) {
        refill(trial, random);
        for height in [8, 16] {
            for last in eighth + 1..=SPRITES {
                for byte in 0..4 {
                    let is_looked_at = byte == (last - eighth - 1) % 4;
                    let ends = is_looked_at && last < SPRITES;
                    let at = |sprite: usize, b: usize| sprite == last && b == byte;
                    search_after(trial, random, (eighth, height), ends.then_some(last), at)?;
                }
                let beside = |sprite: usize, b: usize| (b == (sprite - eighth - 1) % 4) == (sprite == last);
                let ends = (last < SPRITES).then_some(last);
                search_after(trial, random, (eighth, height), ends, beside)?;
            }
        }
    }
    Ok(())
}

/// A search and a line where the eighth sprite is at a place and those bytes behind it are in range that
/// `is_in` says; the sprite `ends`, or none, must set the bit.
fn search_after(
    trial: &mut Trial,
    random: &mut Random,
    (eighth, height): (usize, u16),
    ends: Option<usize>,
    is_in: impl Fn(usize, usize) -> bool,
) -> Result<(), Stop> {
    let line = random.below(240) as u16;
    let mut found = random_slots(random, 7, eighth);
    found.push(eighth);
    let oam: [u8; 256] = std::array::from_fn(|at| match (at / 4, at % 4) {
        (sprite, 0) if found.contains(&sprite) => in_range(random, line, height),
        (sprite, 0) if sprite < eighth => out_of_range(random, line, height),
        (sprite, _) if sprite <= eighth => random.byte(),
        (sprite, byte) if is_in(sprite, byte) => in_range(random, line, height),
        _ => out_of_range(random, line, height),
    });
    trial.set(Name::Oam, &oam);
    trial.set(Name::Unit, &unit_of_height(random, line, height));
    let due = ends.map_or(64, |sprite| sprite as u64 + 1);
    assert_eq!(looked(trial, line)?, due, "eighth at {eighth}, to set the bit: {ends:?}");
    let is_set = is_set_by_line(trial, random)?;
    assert_eq!(is_set, ends.is_some(), "eighth at {eighth}, to set the bit: {ends:?}");
    Ok(())
}

/// Every line with crowds of many kinds: the search, then the line drawn, the line off, and a run from it.
pub fn searches_and_lines(trial: &mut Trial, random: &mut Random, part: usize) -> Result<(), Stop> {
    for line in (part as u16..240).step_by(8) {
        refill(trial, random);
        for round in 0..32 {
            let height = [8, 16][round % 2];
            let oam = match round {
                0 | 1 => [0xFF; 256],
                2 | 3 => [line as u8; 256],
                4..=15 => scenery::oam(random, line),
                _ => crowd(random, line, height),
            };
            trial.set(Name::Oam, &oam);
            trial.set(Name::Unit, &unit_of_height(random, line, height));
            search_and_lines(trial, random, line)?;
        }
    }
    Ok(())
}

fn search_and_lines(trial: &mut Trial, random: &mut Random, line: u16) -> Result<(), Stop> {
    let mut unit = trial.unit();
    let ends = looked(trial, line)? < 64;
    let is_set = is_set_by_line(trial, random)?;
    assert!(is_set || !ends, "line {line}: the search ends, and the line does not set the bit");
    unit[1] &= !SWITCHES;
    trial.set(Name::Unit, &unit);
    trial.call(&one_line(random))?;
    assert_eq!(trial.unit()[2], unit[2], "the status after line {line}, which is off");
    unit[1] |= SWITCHES;
    unit[2] &= !OVERFLOW;
    trial.set(Name::Unit, &unit);
    let lines = random.within(1, 4) as u16;
    let mut ends = false;
    for next in line..240.min(line + lines) {
        ends |= looked(trial, next)? < 64;
    }
    trial.call(&Call::run(lines, RUN_ALL))?;
    assert!(trial.unit()[2] & OVERFLOW != 0 || !ends, "a run of {lines} from line {line}");
    Ok(())
}
