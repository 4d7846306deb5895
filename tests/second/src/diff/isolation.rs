//! What document 02 says of each call by one of two units, without a look at how it is made: what may change, and
//! that a run without a line of the picture leaves zeros. And how often that was put to the test.

use crate::call::{Call, Kind};
use crate::scenery::next_line;
use crate::world::{Name, World};

/// Whether a run of so many lines from a next line has none of lines 0 to 239.
pub fn is_blank(next_line: u16, lines: u64) -> bool {
    lines == 0 || next_line >= 240 && u64::from(next_line) + lines <= 262
}

/// Whether a call is a run that was answered and is blank; `before` is the calling unit's record before it.
pub fn is_blank_run(call: &Call, answer: u64, before: &[u8; 16]) -> bool {
    call.kind == Kind::SharedRun && answer & 255 == 0 && is_blank(next_line(before), answer >> 32)
}

/// What a shared call that is done may change.
fn changes(call: &Call) -> Vec<Name> {
    let own: &[Name] = match call.kind {
        Kind::SharedRead => &[Name::Unit],
        Kind::SharedWrite => &[Name::Unit, Name::Nametables, Name::Oam, Name::Palette],
        Kind::SharedDma => &[Name::Unit, Name::Oam],
        _ => &[Name::Unit, Name::Line, Name::Colours],
    };
    own.iter().map(|name| name.of_unit(call.which)).collect()
}

/// Whether a shared call left all as document 02 has it: a refused one everything, one that is done all but the
/// calling unit's own; and zeros in both buffers where no line of the picture was run. True of any other call.
pub fn holds(call: &Call, answer: u64, before: &World, after: &World) -> bool {
    if !call.kind.is_shared() {
        return true;
    }
    let changed = if answer & 255 == 0 { changes(call) } else { Vec::new() };
    let kept = |name: Name| changed.contains(&name) || before.0[name as usize] == after.0[name as usize];
    let is_zero = |name: Name| after.of(name)[..name.longest()].iter().all(|&byte| byte == 0);
    let is_blank = is_blank_run(call, answer, &before.unit(call.which));
    Name::ALL.into_iter().all(kept) && (!is_blank || is_zero(Name::Line) && is_zero(Name::Colours))
}

/// What was done on two units.
#[derive(Clone, Copy, Default)]
pub struct Isolation {
    /// Runs of either unit that were done, those of them without a line of the picture, with no line at all, and
    /// those of them that found a picture in the buffers.
    pub runs: u64,
    pub blank_runs: u64,
    pub empty_runs: u64,
    pub over_a_picture: u64,
    /// Sequences of calls on two units that each unit also played alone.
    pub sequences: Sequences,
    /// Reloads of one of two units after different logs, and those of them before which the records differed.
    pub reloads: u64,
    pub reloads_of_different: u64,
}

/// What the sequences came to, in the calls on the two units.
#[derive(Clone, Copy, Default)]
pub struct Sequences {
    pub number: u64,
    pub calls: [u64; 2],
    /// Calls of one unit right after one of the other.
    pub turns: u64,
    /// Runs that were done, those of them that left a picture with an opaque pixel, and those that left zeros.
    pub runs: u64,
    pub pictures: u64,
    pub blank_runs: u64,
    /// By the number answered.
    pub refused: [u64; 8],
}

impl Sequences {
    fn add(&mut self, other: &Sequences) {
        self.number += other.number;
        self.turns += other.turns;
        self.runs += other.runs;
        self.pictures += other.pictures;
        self.blank_runs += other.blank_runs;
        let mine = self.calls.iter_mut().chain(&mut self.refused);
        mine.zip(other.calls.iter().chain(&other.refused)).for_each(|(mine, theirs)| *mine += theirs);
    }

    fn are_whole(&self) -> bool {
        let others = [self.number, self.turns, self.runs, self.pictures, self.blank_runs];
        others.iter().chain(&self.calls).chain(&self.refused[1..]).all(|&number| number > 0)
    }
}

impl Isolation {
    pub fn add(&mut self, other: &Isolation) {
        self.runs += other.runs;
        self.blank_runs += other.blank_runs;
        self.empty_runs += other.empty_runs;
        self.over_a_picture += other.over_a_picture;
        self.sequences.add(&other.sequences);
        self.reloads += other.reloads;
        self.reloads_of_different += other.reloads_of_different;
    }

    /// Counts a shared call; `before` is the memory before it.
    pub fn count(&mut self, call: &Call, answer: u64, before: &World) {
        let is_run = call.kind == Kind::SharedRun && answer & 255 == 0;
        let is_blank = is_blank_run(call, answer, &before.unit(call.which));
        let has_picture = before.of(Name::Colours)[..512].iter().any(|&byte| byte != 0);
        self.runs += u64::from(is_run);
        self.blank_runs += u64::from(is_blank);
        self.empty_runs += u64::from(is_run && answer >> 32 == 0);
        self.over_a_picture += u64::from(is_blank && has_picture);
    }

    pub fn is_whole(&self) -> bool {
        let runs = [self.runs, self.blank_runs, self.empty_runs, self.over_a_picture];
        let reloads = [self.reloads, self.reloads_of_different];
        runs.iter().chain(&reloads).all(|&number| number > 0) && self.sequences.are_whole()
    }

    pub fn print(&self) {
        let Sequences { number, calls: [of_0, of_1], turns, runs, pictures, blank_runs, refused } =
            self.sequences;
        println!(
            "  two units: {} runs done, {} with none of lines 0 to 239, {} of them over a picture, {} with no line",
            self.runs, self.blank_runs, self.over_a_picture, self.empty_runs
        );
        println!(
            "  .. {number} sequences on two units against each unit alone: {of_0} calls of unit 0, {of_1} of unit 1, \
             {turns} right after the other's; {runs} runs done, {pictures} with an opaque pixel, {blank_runs} all zeros"
        );
        let refused: Vec<String> = (1..8).map(|n| format!("{} refused {n}", refused[n])).collect();
        println!("  .. of their calls {}", refused.join(", "));
        println!(
            "  .. {} reloads of one of two units after two quiet logs, the records different before it {} times",
            self.reloads, self.reloads_of_different
        );
    }
}
