//! Sessions of the finished colours: through all values of what makes them.

use crate::call::Call;
use crate::random::Random;
use crate::runs::{known_reason, one_line};
use crate::scenery;
use crate::systematic::{refill, unit_at_line};
use crate::trial::{Stop, Trial};
use crate::world::Name;
use second::calls::{RUN_ALL, UNTIL_HIT, UNTIL_NMI};

/// Greyscale off and on with each emphasis: mask bits 0 and 7-5.
pub const TONES: usize = 16;
const TONE_BITS: u8 = 0xE1;
const SWITCHES: u8 = 0x18;

fn tone(number: usize) -> u8 {
    (number as u8 >> 1) << 5 | number as u8 & 1
}

/// Both buffers with something to be overwritten, or to stay.
fn stain(trial: &mut Trial, random: &mut Random) {
    for name in [Name::Line, Name::Colours] {
        let mut bytes = vec![0; name.longest()];
        random.fill(&mut bytes);
        trial.set(name, &bytes);
    }
}

fn set_palette(trial: &mut Trial, random: &mut Random) {
    let mut palette = [0; 32];
    random.fill(&mut palette);
    trial.set(Name::Palette, &palette);
}

fn set_run(trial: &mut Trial, lines: u16) {
    let [high, low] = lines.to_be_bytes();
    trial.set(Name::Log, &[2, high, low, 0]);
}

fn with_v(mut unit: [u8; 16], v: usize) -> [u8; 16] {
    unit[4..6].copy_from_slice(&(v as u16).to_le_bytes());
    unit
}

/// Every mask on a line of each kind, v below the palette and in it: a line, a run, a run of a log.
pub fn masks(trial: &mut Trial, random: &mut Random, part: usize) -> Result<(), Stop> {
    for mask in (part as u8..=255).step_by(8) {
        refill(trial, random);
        for line in [0, 1, 119, 239, 240, 241, 242, 260, 261] {
            for v in [random.below(0x3F00), random.within(0x3F00, 0x3FFF), random.within(0x7F00, 0x7FFF)] {
                let mut unit = with_v(unit_at_line(random, line), v);
                unit[1] = mask;
                set_run(trial, random.pick(&[1, 1, 2]));
                let run = Call::run(random.pick(&[1, 1, 2]), known_reason(random));
                for call in [one_line(random), run, Call::play()] {
                    stain(trial, random);
                    trial.set(Name::Unit, &unit);
                    trial.call(&call)?;
                }
            }
        }
    }
    Ok(())
}

/// Patterns, attributes and sprites with which a line shows each pixel number.
fn set_all_numbers(trial: &mut Trial, line: u16) {
    let row = |at: usize| if at % 16 < 8 { 0x55 } else { 0x33 };
    let tiles: [u8; 4096] = std::array::from_fn(row);
    let attributes: [u8; 4096] = std::array::from_fn(|at| if at % 2 == 0 { 0xE4 } else { 0x1B });
    let mut oam = [0xFF; 256];
    for (sprite, bytes) in oam.chunks_mut(4).take(8).enumerate() {
        bytes.copy_from_slice(&[line as u8 - 1, 0, sprite as u8 & 3, 32 * sprite as u8]);
    }
    trial.set(Name::Left, &tiles);
    trial.set(Name::Right, &tiles);
    trial.set(Name::Nametables, &attributes);
    trial.set(Name::Oam, &oam);
}

/// The numbers that the line buffer shows.
fn numbers_shown(trial: &Trial) -> Vec<u8> {
    let line = &trial.of(Name::Line)[..256];
    (0..=255).filter(|number| line.contains(number)).collect()
}

/// Every byte in every cell of the palette, in one tone: under each pixel number, as the backdrop of a line
/// that is off, and at each v from $3F00 to $3F1F.
pub fn palette_bytes(trial: &mut Trial, random: &mut Random, part: usize) -> Result<(), Stop> {
    let each: Vec<u8> = (0..32).filter(|number| *number == 0 || number % 4 != 0).collect();
    refill(trial, random);
    for byte in 0..=255u8 {
        let line = random.within(1, 239) as u16;
        let palette: [u8; 32] = std::array::from_fn(|cell| (usize::from(byte) + 37 * cell) as u8);
        let mut unit = unit_at_line(random, line);
        unit[1] = unit[1] & !TONE_BITS & !SWITCHES | tone(part);
        trial.set(Name::Palette, &palette);
        for v in std::iter::once(random.below(0x3F00)).chain(0x3F00..0x3F20) {
            trial.set(Name::Unit, &with_v(unit, v));
            trial.call(&one_line(random))?;
        }
        set_all_numbers(trial, line);
        unit[1] |= 0x1E;
        trial.set(Name::Unit, &unit);
        trial.call(&one_line(random))?;
        assert_eq!(numbers_shown(trial), each, "the pixel numbers shown");
    }
    Ok(())
}

/// A line that is off at every v, in plain colours, in greys, with each emphasis, with all, and with any mask.
pub fn v_of_a_line_off(trial: &mut Trial, random: &mut Random, part: usize) -> Result<(), Stop> {
    refill(trial, random);
    for v in (part..0x8000).step_by(16) {
        if v / 16 % 64 == 0 {
            set_palette(trial, random);
        }
        for mask in [0x00, 0x01, 0x20, 0x40, 0x80, 0xE0, 0xE1, random.byte()] {
            let line = if random.one_in(16) { random.within(240, 261) } else { random.below(240) };
            let mut unit = with_v(unit_at_line(random, line as u16), v);
            unit[1] = mask & !SWITCHES;
            trial.set(Name::Unit, &unit);
            trial.call(&one_line(random))?;
        }
    }
    Ok(())
}

/// Runs, also of a log, that end about line 239 or go round to line 0 again: the buffers have the last line
/// of the picture that was run, or stay.
pub fn last_lines(trial: &mut Trial, random: &mut Random, part: usize) -> Result<(), Stop> {
    for line in (0..3).chain(235..262) {
        refill(trial, random);
        let round = 262 - line;
        for lines in [0, 1, 2, 3, 4, 5, round - 1, round, round + 1, round + 2] {
            if lines > 30 {
                continue;
            }
            let mut unit = unit_at_line(random, line);
            unit[1] = unit[1] & !SWITCHES | [0, 0x08, 0x10, 0x18][part];
            set_run(trial, lines);
            let [all, nmi, hit] = [RUN_ALL, UNTIL_NMI, UNTIL_HIT].map(|reason| Call::run(lines, reason));
            for call in [all, nmi, hit, Call::play()] {
                stain(trial, random);
                trial.set(Name::Oam, &scenery::oam(random, line));
                trial.set(Name::Unit, &unit);
                trial.call(&call)?;
            }
        }
    }
    Ok(())
}
