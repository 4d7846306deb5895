//! Sessions of two units that share one cartridge: through all values of something.

use crate::call::{Call, Kind, SHARED};
use crate::isolation::is_blank;
use crate::random::Random;
use crate::runs::known_reason;
use crate::scenery::{self, BOARDS, FIXED, WRITABLE};
use crate::systematic::{self, some_call, unit_at_line};
use crate::trial::{Stop, Trial, REASONS};
use crate::world::{Name, OWN, SLACK};

/// Calls for a set in which no memory's length is wrong.
const ROUNDS: usize = 16;

/// What can be wrong with a shared call and the number that it gives, in the order of the tests.
#[derive(Clone, Copy, PartialEq, Eq)]
enum Wrong {
    Number,
    Reason,
    RecordLength,
    Record,
    Board,
    Memory,
    Address,
    Drawing,
}

const ORDER: [(Wrong, u64); 8] = [
    (Wrong::Number, 7),
    (Wrong::Reason, 5),
    (Wrong::RecordLength, 2),
    (Wrong::Record, 3),
    (Wrong::Board, 6),
    (Wrong::Memory, 2),
    (Wrong::Address, 1),
    (Wrong::Drawing, 4),
];

/// Things that are wrong at once, a bit for each.
#[derive(Clone, Copy, Debug)]
struct Wrongs(u8);

impl Wrongs {
    fn has(self, wrong: Wrong) -> bool {
        self.0 >> wrong as u8 & 1 == 1
    }

    /// The number of the first of them, 0 if nothing is wrong.
    fn due(self) -> u64 {
        ORDER.into_iter().find(|&(wrong, _)| self.has(wrong)).map_or(0, |(_, number)| number)
    }

    /// Every set of things that can be wrong with such a call, with or without its unit number.
    fn of(kind: Kind, number: bool) -> impl Iterator<Item = Wrongs> {
        let is_access = matches!(kind, Kind::SharedRead | Kind::SharedWrite);
        (0..=255).map(Wrongs).filter(move |wrongs| {
            wrongs.has(Wrong::Number) == number
                && (kind == Kind::SharedRun || !wrongs.has(Wrong::Reason))
                && (is_access || !wrongs.has(Wrong::Address) && !wrongs.has(Wrong::Drawing))
        })
    }
}

/// New contents everywhere, of two units that can share a cartridge.
pub fn refill(trial: &mut Trial, random: &mut Random) {
    systematic::refill(trial, random);
    for which in [0, 1] {
        let unit = scenery::sharing_unit(random);
        trial.set(Name::Unit.of_unit(which), &unit);
        trial.set(Name::Nametables.of_unit(which), &scenery::nametables(random));
        trial.set(Name::Oam.of_unit(which), &scenery::oam(random, scenery::next_line(&unit)));
        let mut palette = [0; 32];
        random.fill(&mut palette);
        trial.set(Name::Palette.of_unit(which), &palette);
    }
}

/// What a call by that unit is lent and has to be of the right length: its own, and what is shared.
fn looked_at(kind: Kind, which: u8) -> Vec<Name> {
    let lent = kind.plain().lent().iter().filter(|&&name| name != Name::Unit);
    lent.map(|name| name.of_unit(which)).collect()
}

/// The call with those things wrong, on the unit that makes it; an access is one that is refused while drawing.
fn wrong_call(trial: &mut Trial, random: &mut Random, kind: Kind, which: u8, wrongs: Wrongs) -> Call {
    let is_drawing = wrongs.has(Wrong::Drawing);
    let line = random.pick(if is_drawing { &[0, 100, 239, 261] } else { &[240, 241, 242, 260] });
    let mut unit = unit_at_line(random, line);
    unit[1] |= random.pick(&[0x08, 0x10, 0x18]);
    unit[15] = random.pick(if wrongs.has(Wrong::Board) { &WRITABLE } else { &FIXED });
    if wrongs.has(Wrong::Record) {
        scenery::spoil(random, &mut unit);
    }
    trial.set(Name::Unit.of_unit(which), &unit);
    let port = if kind == Kind::SharedWrite { 7 } else { random.pick(&[4, 7]) };
    let address = match wrongs.has(Wrong::Address) {
        true => random.pick(&[0, 0x1FF8, 0x1FFF, 0x4000, 0x4004, 0x4007, 0xFFFF]),
        false => 0x2000 + 8 * random.below(1024) as u16 + port,
    };
    let unknown = random.within(REASONS, 255) as u8;
    let reason = if wrongs.has(Wrong::Reason) { unknown } else { known_reason(random) };
    let (byte, most) = (random.byte(), random.below(3) as u16);
    let call = Call { which, address, byte, most, reason, ..Call::new(kind) };
    match wrongs.has(Wrong::RecordLength) {
        true => call.with_length(Name::Unit.of_unit(which), random.pick(&Name::Unit.wrong_lengths(0))),
        false => call,
    }
}

/// The other unit's record with any contents, and its memory with any of the lengths that it may not have.
fn neglect_other(trial: &mut Trial, random: &mut Random, mut call: Call, which: u8) -> Call {
    let mut unit = scenery::unit(random);
    match random.below(4) {
        0 => scenery::spoil(random, &mut unit),
        1 => random.fill(&mut unit),
        _ => {}
    }
    trial.set(Name::Unit.of_unit(1 - which), &unit);
    for name in OWN.map(|name| name.of_unit(1 - which)) {
        if random.one_in(3) {
            call = call.with_length(name, random.pick(&trial.wrong_lengths(name)));
        }
    }
    call
}

/// Makes the call: the answer is the number that is due.
fn refuse(trial: &mut Trial, call: &Call, wrongs: Wrongs) -> Result<(), Stop> {
    let (answer, due) = (trial.call(call)?, wrongs.due());
    assert_eq!(answer & 255, due, "{call:?} with {wrongs:?}");
    assert!(due == 0 || answer == due, "a refusal is its number: {answer:X}");
    Ok(())
}

/// Every unit number with every set of other things wrong.
pub fn numbers(trial: &mut Trial, random: &mut Random, part: usize) -> Result<(), Stop> {
    let kind = SHARED[part];
    for number in 0..=255u8 {
        if number % 8 == 0 {
            refill(trial, random);
        }
        for wrongs in Wrongs::of(kind, number > 1) {
            let which = if number > 1 { random.below(2) as u8 } else { number };
            let mut call = wrong_call(trial, random, kind, which, wrongs);
            if random.one_in(2) {
                call = neglect_other(trial, random, call, which);
            }
            if wrongs.has(Wrong::Memory) {
                let name = random.pick(&looked_at(kind, which));
                call = call.with_length(name, random.pick(&trial.wrong_lengths(name)));
            }
            refuse(trial, &Call { which: number, ..call }, wrongs)?;
        }
    }
    Ok(())
}

/// Every set of things wrong with a call of either unit, each memory that is looked at at each wrong length.
pub fn sets(trial: &mut Trial, random: &mut Random, part: usize) -> Result<(), Stop> {
    let (kind, which) = (SHARED[part / 2], part as u8 % 2);
    for wrongs in Wrongs::of(kind, false) {
        refill(trial, random);
        for round in 0..ROUNDS {
            let call = wrong_call(trial, random, kind, which, wrongs);
            let call = if round % 2 == 1 { neglect_other(trial, random, call, which) } else { call };
            if !wrongs.has(Wrong::Memory) {
                refuse(trial, &call, wrongs)?;
                continue;
            }
            for name in looked_at(kind, which) {
                for length in trial.wrong_lengths(name) {
                    refuse(trial, &call.clone().with_length(name, length), wrongs)?;
                }
            }
        }
    }
    Ok(())
}

/// The right length of a memory of the other unit, and each wrong one.
fn lengths_of(trial: &Trial, kind: Kind, name: Name) -> Vec<usize> {
    match kind.lent().contains(&name) {
        true => [trial.length(name)].into_iter().chain(trial.wrong_lengths(name)).collect(),
        false => vec![trial.length(name)],
    }
}

/// The other unit's memory at each set of lengths, its record of every kind: the call does the same as beside a unit
/// that is as it should be.
pub fn others(trial: &mut Trial, random: &mut Random, part: usize) -> Result<(), Stop> {
    let (kind, which) = (SHARED[part / 2], part as u8 % 2);
    refill(trial, random);
    let names = OWN.map(|name| name.of_unit(1 - which));
    let lengths = names.map(|name| lengths_of(trial, kind, name));
    let sets: usize = lengths.iter().map(Vec::len).product();
    for set in 0..sets {
        let mut call = some_call(trial, random, kind.plain()).by(which);
        trial.set(Name::Unit.of_unit(which), &scenery::sharing_unit(random));
        let mut plain = trial.machine().clone();
        let due = trial.on(&mut plain, |trial| trial.call(&call))?;
        call = neglect_other(trial, random, call, which);
        let mut rest = set;
        for (name, lengths) in names.into_iter().zip(&lengths) {
            call = call.with_length(name, lengths[rest % lengths.len()]);
            rest /= lengths.len();
        }
        assert_eq!(trial.call(&call)?, due, "{call:?}");
        for name in Name::ALL.into_iter().filter(|name| !names.contains(name)) {
            assert!(trial.of(name) == plain.of(name), "{call:?} leaves another {}", name.text());
        }
    }
    Ok(())
}

/// Each two boards: 6 by that of the calling unit alone.
pub fn boards(trial: &mut Trial, random: &mut Random, part: usize) -> Result<(), Stop> {
    let kind = SHARED[part];
    for own in BOARDS {
        for other in BOARDS {
            refill(trial, random);
            for which in [0, 1, 0, 1] {
                let mut unit = unit_at_line(random, 250);
                unit[15] = own;
                trial.set(Name::Unit.of_unit(which), &unit);
                unit = scenery::unit(random);
                unit[15] = other;
                trial.set(Name::Unit.of_unit(1 - which), &unit);
                let address = random.within(0x2000, 0x3FFF) as u16;
                let call = Call { which, address, byte: random.byte(), most: 2, ..Call::new(kind) };
                let due = if WRITABLE.contains(&own) { 6 } else { 0 };
                assert_eq!(trial.call(&call)? & 255, due, "board {own} beside board {other}");
            }
        }
    }
    Ok(())
}

/// Each memory that the call is lent, either unit's, at each length.
pub fn lengths(trial: &mut Trial, random: &mut Random, part: usize) -> Result<(), Stop> {
    let kind = SHARED[part];
    refill(trial, random);
    for &name in kind.lent() {
        for length in 0..=name.longest() + SLACK {
            let which = length as u8 % 2;
            for which in [which, 1 - which] {
                trial.set(Name::Unit.of_unit(which), &scenery::sharing_unit(random));
                let call = some_call(trial, random, kind.plain()).by(which);
                trial.call(&call.with_length(name, length))?;
            }
        }
    }
    Ok(())
}

/// Each two memories one byte short, right or one byte long.
pub fn pairs_of_lengths(trial: &mut Trial, random: &mut Random, part: usize) -> Result<(), Stop> {
    let kind = SHARED[part];
    refill(trial, random);
    for &one in kind.lent() {
        for &other in kind.lent() {
            for which in 0..18 {
                let unit = scenery::sharing_unit(random);
                trial.set(Name::Unit.of_unit(which as u8 % 2), &unit);
                let call = some_call(trial, random, kind.plain()).by(which as u8 % 2);
                let call = call.with_length(one, trial.length(one) + which / 2 % 3 - 1);
                trial.call(&call.with_length(other, trial.length(other) + which / 6 % 3 - 1))?;
            }
        }
    }
    Ok(())
}

/// Port 7 at every v by either unit, on any board that can share.
pub fn video_memory(trial: &mut Trial, random: &mut Random, part: usize) -> Result<(), Stop> {
    refill(trial, random);
    for v in (part as u16..0x8000).step_by(4) {
        let which = random.below(2) as u8;
        let mut unit = unit_at_line(random, 250);
        unit[4..6].copy_from_slice(&v.to_le_bytes());
        unit[15] = random.pick(&FIXED);
        for call in [Call::read(0x2007), Call::write(0x2007, random.byte())] {
            trial.set(Name::Unit.of_unit(which), &unit);
            assert_eq!(trial.call(&call.by(which))? & 255, 0, "{call:?} at v {v:04X}");
        }
    }
    Ok(())
}

/// A line of the picture by the other unit, so that it stands in both buffers; no colour of a unit is 0.
fn show_other(trial: &mut Trial, random: &mut Random, which: u8) -> Result<(), Stop> {
    let line = random.below(240) as u16;
    let mut unit = unit_at_line(random, line);
    unit[15] = random.pick(&FIXED);
    trial.set(Name::Unit.of_unit(1 - which), &unit);
    for which in [0, 1] {
        let palette: [u8; 32] = std::array::from_fn(|_| random.within(0x10, 0x3F) as u8);
        trial.set(Name::Palette.of_unit(which), &palette);
    }
    let answer = trial.call(&Call::run(1, known_reason(random)).by(1 - which))?;
    assert!(answer & 255 == 0 && !is_zero(trial), "line {line} of the other unit: {answer:X}");
    Ok(())
}

fn is_zero(trial: &Trial) -> bool {
    let zero = |name: Name| trial.of(name)[..name.longest()].iter().all(|&byte| byte == 0);
    zero(Name::Line) && zero(Name::Colours)
}

/// Runs from every next line, with each reason, the other unit's picture being in the buffers: zeros exactly where no
/// line of the picture is run; as it was after a refused one.
pub fn runs(trial: &mut Trial, random: &mut Random, part: usize) -> Result<(), Stop> {
    for line in (part as u16..262).step_by(8) {
        refill(trial, random);
        for most in [0, 1, 2, 21, 22, 23, 262, 263] {
            for round in 0..2 * (REASONS as u8 + 1) {
                let (reason, which) = (round / 2, round % 2);
                show_other(trial, random, which)?;
                let mut unit = unit_at_line(random, line);
                unit[15] &= 7;
                if most > 2 && !random.one_in(12) {
                    unit[1] &= !0x18;
                }
                trial.set(Name::Unit.of_unit(which), &unit);
                let answer = trial.call(&Call::run(most, reason).by(which))?;
                let due = usize::from(reason) < REASONS && is_blank(line, answer >> 32);
                assert_eq!(is_zero(trial), due, "{most} lines from line {line}, reason {reason}");
            }
        }
    }
    Ok(())
}
