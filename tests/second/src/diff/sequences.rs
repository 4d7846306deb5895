//! Random sequences of calls on two units, each unit's calls also played by it alone: on a shared machine on which the
//! other never calls, and by the plain calls, with zeros in both buffers before each run.

use crate::call::{Call, Kind};
use crate::isolation::{is_blank_run, Sequences};
use crate::machine::Machine;
use crate::mixed::mislength;
use crate::random::Random;
use crate::scenery::{self, next_line};
use crate::shared::refill;
use crate::systematic::some_call;
use crate::trial::{Stop, Trial};
use crate::world::{Name, OWN};

/// Calls of a sequence among the sessions that are always done.
const FIRST_CALLS: usize = 400;

const HABITS: [&[Kind]; 3] = [
    &[Kind::Read, Kind::Write, Kind::Write, Kind::Run, Kind::Run, Kind::Dma],
    &[Kind::Read, Kind::Read, Kind::Write, Kind::Write, Kind::Write, Kind::Run, Kind::Dma],
    &[Kind::Read, Kind::Write, Kind::Run, Kind::Run, Kind::Run, Kind::Run, Kind::Dma],
];

const BUFFERS: [Name; 2] = [Name::Line, Name::Colours];

/// One of two units, with machines on which it plays alone: a shared one, and one for plain calls.
struct Alone {
    which: u8,
    shared: Machine,
    plain: Machine,
}

impl Alone {
    fn new(trial: &Trial, random: &mut Random, which: u8) -> Alone {
        let (mut shared, mut plain) = (trial.machine().clone(), trial.machine().clone());
        for name in OWN {
            plain.set(name, trial.of(name.of_unit(which)));
            let mut any = vec![0; name.longest()];
            random.fill(&mut any);
            shared.set(name.of_unit(1 - which), &any);
        }
        Alone { which, shared, plain }
    }

    /// What the caller puts into the unit's memory, on the machine of two and alone.
    fn put(&mut self, trial: &mut Trial, name: Name, bytes: &[u8]) {
        trial.set(name.of_unit(self.which), bytes);
        self.shared.set(name.of_unit(self.which), bytes);
        self.plain.set(name, bytes);
    }

    /// Makes the unit's call alone, in both ways: with the same answer, and after an answered run the same buffers.
    /// Of plain calls none is refused for a board that is writable.
    fn follow(&mut self, trial: &mut Trial, call: &Call, answer: u64) -> Result<(), Stop> {
        self.shared.set(Name::Page, &trial.of(Name::Page)[..256]);
        self.plain.set(Name::Page, &trial.of(Name::Page)[..256]);
        let alone = trial.on(&mut self.shared, |trial| trial.call(call))?;
        assert_eq!(alone, answer, "{call:?} is answered otherwise alone");
        if answer == 6 {
            return Ok(());
        }
        if call.kind == Kind::SharedRun {
            BUFFERS.into_iter().for_each(|name| self.plain.set(name, &vec![0; name.longest()]));
        }
        let plain = trial.on(&mut self.plain, |trial| trial.call(&call.alone()))?;
        assert_eq!(plain, answer, "{call:?} is answered otherwise by the plain call");
        if call.kind == Kind::SharedRun && answer & 255 == 0 {
            for name in BUFFERS {
                let shown = &trial.of(name)[..name.longest()];
                let others = [&self.shared, &self.plain].map(|machine| &machine.of(name)[..name.longest()]);
                assert_eq!(others, [shown; 2], "{call:?} leaves another {} alone", name.text());
            }
        }
        Ok(())
    }

    /// The unit's record and memory are as they are alone.
    fn check(&self, trial: &Trial) {
        for name in OWN {
            let own = name.of_unit(self.which);
            let [two, alone, plain] = [trial.of(own), self.shared.of(own), self.plain.of(name)]
                .map(|bytes| &bytes[..name.longest()]);
            assert!(two == alone && two == plain, "unit {} has another {}", self.which, name.text());
        }
    }
}

/// Now and then something that no call did, to one unit: a new record, another line, other sprites.
fn disturb(trial: &mut Trial, random: &mut Random, unit: &mut Alone) {
    let mut record = trial.unit_of(unit.which);
    let line = next_line(&record).min(261);
    match random.below(48) {
        0 => record = scenery::sharing_unit(random),
        1 => scenery::spoil(random, &mut record),
        2 => record[15] |= 8,
        3..=5 => record[12..14].copy_from_slice(&(random.below(262) as u16).to_le_bytes()),
        6 => record[12..14].copy_from_slice(&random.pick(&[239u16, 240, 241, 260, 261]).to_le_bytes()),
        7..=9 => record[1] ^= random.pick(&[0x01, 0x06, 0x08, 0x10, 0x18, 0x20, 0x80]),
        10..=13 => unit.put(trial, Name::Oam, &scenery::oam(random, line)),
        14 => unit.put(trial, Name::Nametables, &scenery::nametables(random)),
        15 => record[14] = 1,
        _ => {}
    }
    let is_refused = second::unit::Unit::from_record(&record).is_none_or(|unit| unit.board.writable);
    if is_refused && random.one_in(4) {
        record = scenery::sharing_unit(random);
    }
    unit.put(trial, Name::Unit, &record);
}

/// Mostly single lines and few; where nothing is drawn also up to some hundred.
fn run_length(random: &mut Random, record: &[u8; 16]) -> u16 {
    let is_drawn = record[1] & 0x18 != 0;
    let lines = match random.below(16) {
        0 => 0,
        1..=8 => 1,
        9 => random.within(18, 24),
        10 if !is_drawn => random.below(600),
        _ => random.below(8),
    };
    lines as u16
}

/// A call of the unit, mostly one that is done; now and then with wrong lengths, the other unit's among them, or with a
/// unit number that there is not.
fn some_shared_call(trial: &mut Trial, random: &mut Random, kind: Kind, which: u8) -> Call {
    let mut call = some_call(trial, random, kind).by(which);
    if kind == Kind::Run {
        call.most = run_length(random, &trial.unit_of(which));
    }
    if kind == Kind::Dma && random.one_in(2) {
        let line = next_line(&trial.unit_of(which)).min(261);
        trial.set(Name::Page, &scenery::oam(random, line));
    }
    if random.one_in(24) {
        mislength(trial, random, &mut call);
    }
    if random.one_in(32) {
        call.which = random.within(2, 255) as u8;
    }
    call
}

impl Sequences {
    /// Counts a call; `before` is the record before it, `is_turn` whether the last call was the other unit's, `line`
    /// what the line buffer now holds.
    fn count(&mut self, call: &Call, answer: u64, before: &[u8; 16], is_turn: bool, line: &[u8]) {
        let number = (answer & 255) as usize;
        self.refused[number] += u64::from(number > 0);
        if let Some(calls) = self.calls.get_mut(usize::from(call.which)) {
            *calls += 1;
            let is_run = call.kind == Kind::SharedRun && number == 0;
            self.turns += u64::from(is_turn);
            self.runs += u64::from(is_run);
            self.pictures += u64::from(is_run && line.iter().any(|&pixel| pixel != 0));
            self.blank_runs += u64::from(is_blank_run(call, answer, before));
        }
    }
}

/// Calls of the two units in any order: what each is answered, its record and memory, and the buffers after each of its
/// answered runs are as if it had called alone.
pub fn session(trial: &mut Trial, random: &mut Random, calls: usize) -> Result<(), Stop> {
    refill(trial, random);
    let mut units = [0, 1].map(|which| Alone::new(trial, random, which));
    let habits = [0, 1].map(|_| random.pick(&HABITS));
    let mut last = 0;
    for _ in 0..calls {
        let which = if random.one_in(2) { last } else { 1 - last };
        let unit = &mut units[which];
        disturb(trial, random, unit);
        let kind = random.pick(habits[which]);
        let call = some_shared_call(trial, random, kind, which as u8);
        let before = trial.unit_of(which as u8);
        let answer = trial.call(&call)?;
        if call.which < 2 {
            unit.follow(trial, &call, answer)?;
        }
        units.iter().for_each(|unit| unit.check(trial));
        let line: [u8; 256] = std::array::from_fn(|column| trial.of(Name::Line)[column]);
        trial.tally.isolation.sequences.count(&call, answer, &before, which != last, &line);
        last = which;
    }
    trial.tally.isolation.sequences.number += 1;
    Ok(())
}

/// Sequences that are always played.
pub fn first(trial: &mut Trial, random: &mut Random, _: usize) -> Result<(), Stop> {
    session(trial, random, FIRST_CALLS)
}
