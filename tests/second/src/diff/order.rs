//! The order of refusals: 5, 2 for a record, 3, 2 for memory, 1, 4.

use crate::call::{Call, Kind};
use crate::random::Random;
use crate::runs::known_reason;
use crate::scenery::{self, BOARDS, FOUR_PAGES, TWO_PAGES};
use crate::systematic::{refill, unit_at_line};
use crate::trial::{Stop, Trial};
use crate::world::Name;

/// Calls for a set in which no memory's length is wrong.
const ROUNDS: usize = 16;

/// A call on a unit; for a log also the kind of its record.
#[derive(Clone, Copy)]
pub struct Subject {
    kind: Kind,
    record: u8,
}

pub const SUBJECTS: [Subject; 8] = [
    Subject { kind: Kind::Read, record: 0 },
    Subject { kind: Kind::Write, record: 0 },
    Subject { kind: Kind::Dma, record: 0 },
    Subject { kind: Kind::Run, record: 0 },
    Subject { kind: Kind::Search, record: 0 },
    Subject { kind: Kind::Play, record: 0 },
    Subject { kind: Kind::Play, record: 1 },
    Subject { kind: Kind::Play, record: 2 },
];

impl Subject {
    /// The call whose work is done in the end.
    fn work(self) -> Kind {
        match self.kind {
            Kind::Play => [Kind::Read, Kind::Write, Kind::Run][usize::from(self.record)],
            kind => kind,
        }
    }

    /// Each memory that is looked at, at each wrong length for the board.
    fn wrong_lengths(self, board: u8) -> Vec<(Name, usize)> {
        let memories = self.work().lent().iter().filter(|&&name| name != Name::Unit);
        memories.flat_map(|&name| name.wrong_lengths(board).into_iter().map(move |n| (name, n))).collect()
    }
}

/// What is wrong with a call.
#[derive(Clone, Copy, Default)]
struct Wrongs {
    request: bool,
    record_length: Option<usize>,
    record: bool,
    memory: Option<(Name, usize)>,
    address: bool,
    drawing: bool,
}

impl Wrongs {
    /// The number of the first thing that is wrong, 0 if none is.
    fn due(&self) -> u64 {
        let wrongs = [
            (self.request, 5),
            (self.record_length.is_some(), 2),
            (self.record, 3),
            (self.memory.is_some(), 2),
            (self.address, 1),
            (self.drawing, 4),
        ];
        wrongs.into_iter().find(|&(is_wrong, _)| is_wrong).map_or(0, |(_, number)| number)
    }

    /// Whether such a call can be wrong in all these ways.
    fn are_of(&self, subject: Subject) -> bool {
        let has_request = matches!(subject.kind, Kind::Run | Kind::Search | Kind::Play);
        let is_access = matches!(subject.work(), Kind::Read | Kind::Write);
        (has_request || !self.request) && (is_access || !self.address && !self.drawing)
    }
}

/// A record of a log that plays the word; as a bad one it has an unknown kind or a byte that must be zero and
/// is not, or is cut short.
fn play(trial: &mut Trial, random: &mut Random, kind: u8, word: u16, is_bad: bool) -> Call {
    let [high, low] = word.to_be_bytes();
    let mut record = [kind, high, low, if kind == 1 { random.byte() } else { 0 }];
    let mut call = Call::play();
    match random.below(3) {
        _ if !is_bad => {}
        0 => record[0] = random.within(3, 255) as u8,
        1 if kind != 1 => record[3] = random.within(1, 255) as u8,
        _ => call = call.with_length(Name::Log, random.below(4)),
    }
    trial.set(Name::Log, &record);
    call
}

/// The call with its arguments; an access is one that is refused while drawing.
fn asked(trial: &mut Trial, random: &mut Random, subject: Subject, wrongs: &Wrongs) -> Call {
    let port = if subject.work() == Kind::Write { 7 } else { random.pick(&[4, 7]) };
    let address = match wrongs.address {
        true => random.pick(&[0, 0x1FF8, 0x1FFF, 0x4000, 0x4004, 0x4007, 0xFFFF]),
        false => 0x2000 + 8 * random.below(1024) as u16 + port,
    };
    let lines = random.below(3) as u16;
    let reason = if wrongs.request { random.within(3, 255) as u8 } else { known_reason(random) };
    match subject.kind {
        Kind::Read => Call::read(address),
        Kind::Write => Call::write(address, random.byte()),
        Kind::Run => Call::run(lines, reason),
        Kind::Search if wrongs.request => {
            Call::search(random.pick(&[240, 241, 255, 256, 261, 262, 495, 65535]))
        }
        Kind::Search => Call::search(random.pick(&[0, 1, 7, 119, 127, 128, 238, 239])),
        Kind::Play => {
            let word = if subject.record == 2 { lines } else { address };
            play(trial, random, subject.record, word, wrongs.request)
        }
        kind => Call::new(kind),
    }
}

/// Makes the call on the unit: the answer is the number that is due.
fn refuse(
    trial: &mut Trial,
    random: &mut Random,
    subject: Subject,
    unit: &[u8; 16],
    wrongs: &Wrongs,
) -> Result<(), Stop> {
    let mut call = asked(trial, random, subject, wrongs);
    let record = wrongs.record_length.map(|length| (Name::Unit, length));
    for (name, length) in record.into_iter().chain(wrongs.memory) {
        call = call.with_length(name, length);
    }
    trial.set(Name::Unit, unit);
    let (answer, due) = (trial.call(&call)?, wrongs.due());
    assert_eq!(answer & 255, due, "{call:?} on {unit:02X?}");
    assert!(due == 0 || answer == due, "a refusal is its number: {answer:X}");
    Ok(())
}

/// A unit of that board with background or sprites on, drawing or in blank lines.
fn unit_of(random: &mut Random, board: u8, is_drawing: bool) -> [u8; 16] {
    let line = random.pick(if is_drawing { &[0, 100, 239, 261] } else { &[240, 241, 242, 260] });
    let mut unit = unit_at_line(random, line);
    unit[1] |= random.pick(&[0x08, 0x10, 0x18]);
    unit[15] = board;
    unit
}

/// Every set of things wrong at once with one call, on boards with two pages and with four.
pub fn sets(trial: &mut Trial, random: &mut Random, part: usize) -> Result<(), Stop> {
    let subject = SUBJECTS[part];
    for set in 0..64 {
        let [request, short, record, memory, address, drawing] =
            [0, 1, 2, 3, 4, 5].map(|bit| set >> bit & 1 == 1);
        let wrongs = Wrongs { request, record, address, drawing, ..Wrongs::default() };
        if !wrongs.are_of(subject) {
            continue;
        }
        refill(trial, random);
        for boards in [&TWO_PAGES[..], &FOUR_PAGES] {
            let board = random.pick(boards);
            let lengths = match memory {
                true => subject.wrong_lengths(board).into_iter().map(Some).collect(),
                false => vec![None; ROUNDS],
            };
            for memory in lengths {
                let any = random.pick(&Name::Unit.wrong_lengths(board));
                let wrongs = Wrongs { record_length: short.then_some(any), memory, ..wrongs };
                let mut unit = unit_of(random, board, drawing);
                if record {
                    scenery::spoil(random, &mut unit);
                }
                refuse(trial, random, subject, &unit, &wrongs)?;
            }
        }
    }
    Ok(())
}

/// Every board byte in a record that is otherwise well formed, of the right length or not, with each memory
/// right and at each wrong length.
pub fn boards(trial: &mut Trial, random: &mut Random, part: usize) -> Result<(), Stop> {
    let subject = SUBJECTS[part];
    for board in 0..=255 {
        refill(trial, random);
        let lengths = subject.wrong_lengths(board).into_iter().map(Some);
        for memory in lengths.chain([None]) {
            for record_length in [None, Some(0), Some(15), Some(17)] {
                let record = !BOARDS.contains(&board);
                let wrongs = Wrongs { record_length, record, memory, ..Wrongs::default() };
                let unit = unit_of(random, board, false);
                refuse(trial, random, subject, &unit, &wrongs)?;
            }
        }
    }
    Ok(())
}
