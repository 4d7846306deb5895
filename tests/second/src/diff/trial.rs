//! Both sides of a session: the same calls on each, compared after every call.

use crate::call::{Call, Kind, KINDS};
use crate::case::Case;
use crate::isolation::{self, Isolation};
use crate::machine::Machine;
use crate::scenery::{is_in_range, next_line, sprite_height};
use crate::world::{has_four_pages, Name};
use std::collections::BTreeMap;

/// Why a session ends before its time.
pub enum Stop {
    /// The sides differ after the call of this number, or a page it wrote does not give its rows back, or a
    /// shared call changed what it may not.
    Difference(u64),
    /// The call that was asked for is reached.
    Reached(Box<Case>),
    /// The time is up.
    Late,
}

/// Numbers that a call can answer.
pub const NUMBERS: usize = 9;

/// Reasons to stop that a run can have, none among them.
pub const REASONS: usize = 3;
const HIT: u8 = 0x40;

/// What became of the runs of one reason, those of no line among them.
#[derive(Clone, Copy, Default)]
pub struct Runs {
    pub met: u64,
    pub not_met: u64,
    /// Met on the last line that was asked for, and met on a line before it.
    pub on_last: u64,
    pub before_last: u64,
    /// Begun with status bit 6 set: met, and not met.
    pub set_met: u64,
    pub set_not_met: u64,
}

impl Runs {
    fn add(&mut self, other: &Runs) {
        self.met += other.met;
        self.not_met += other.not_met;
        self.on_last += other.on_last;
        self.before_last += other.before_last;
        self.set_met += other.set_met;
        self.set_not_met += other.set_not_met;
    }

    /// Counts a run of up to `most` lines; `before` is the record before it.
    fn count(&mut self, most: u16, answer: u64, before: &[u8; 16]) {
        let (met, last) = (answer >> 17 & 1, u64::from(answer >> 32 == most.into()));
        let set = u64::from(before[2] & HIT != 0);
        self.met += met;
        self.not_met += 1 - met;
        self.on_last += met & last;
        self.before_last += met & (1 - last);
        self.set_met += set & met;
        self.set_not_met += set & (1 - met);
    }

    /// The reason was met and was not, on the last line and before it, from either value of bit 6.
    pub fn are_of_each_kind(&self) -> bool {
        let set = [self.set_met, self.set_not_met];
        let clear = [self.met - self.set_met, self.not_met - self.set_not_met];
        [set, clear, [self.on_last, self.before_last]].iter().flatten().all(|&number| number > 0)
    }
}

/// What was done on boards with four pages.
#[derive(Clone, Copy, Default)]
pub struct FourPages {
    /// Calls that were done, by kind; those of the text layer have no board.
    pub done: [u64; KINDS],
    /// Of these, accesses of port 7 in pages 2 and 3, and background pixels there of runs of one line.
    pub far_accesses: u64,
    pub far_pixels: u64,
    /// Calls refused for nothing but nametable RAM of 2048 bytes, and with two pages of 4096.
    pub given_two: u64,
    pub two_given_four: u64,
}

impl FourPages {
    fn add(&mut self, other: &FourPages) {
        for (mine, theirs) in self.done.iter_mut().zip(&other.done) {
            *mine += theirs;
        }
        self.far_accesses += other.far_accesses;
        self.far_pixels += other.far_pixels;
        self.given_two += other.given_two;
        self.two_given_four += other.two_given_four;
    }

    /// Counts a call, done or refused; `before` is the record before it.
    fn count(&mut self, call: &Call, number: usize, before: &[u8; 16]) {
        let board = if call.kind == Kind::Fresh { call.byte } else { before[15] };
        let nametables = call.lengths[Name::Nametables as usize];
        let is_alone = call.lengths.iter().flatten().count() == 1;
        match (has_four_pages(board), number, nametables) {
            (true, 0, _) if call.kind.has_unit() => {
                self.done[call.kind as usize] += 1;
                self.far_accesses += u64::from(is_far_access(call, before));
            }
            (true, 2, Some(2048)) if is_alone => self.given_two += 1,
            (false, 2, Some(4096)) if is_alone => self.two_given_four += 1,
            _ => {}
        }
    }

    /// Each kind of call on a unit was done, pages 2 and 3 were used, the other boards' length was refused.
    pub fn are_whole(&self) -> bool {
        let done = Kind::ALL.into_iter().filter(|kind| kind.has_unit()).map(|kind| self.done[kind as usize]);
        let others = [self.far_accesses, self.far_pixels, self.given_two, self.two_given_four];
        done.chain(others).all(|number| number > 0)
    }
}

/// Whether v is in quarter 2 or 3, which with four pages are pages 2 and 3: cells from 2048.
fn is_far(unit: &[u8; 16]) -> bool {
    unit[5] & 0x08 != 0
}

/// A read or write of port 7 there.
fn is_far_access(call: &Call, before: &[u8; 16]) -> bool {
    let is_nametable = (0x20..0x3F).contains(&(before[5] & 0x3F));
    matches!(call.kind, Kind::Read | Kind::Write) && call.address % 8 == 7 && is_nametable && is_far(before)
}

/// What has been done, by kind of call and number answered.
#[derive(Clone, Default)]
pub struct Tally {
    pub answers: [[u64; NUMBERS]; KINDS],
    pub four_pages: FourPages,
    pub lines_run: u64,
    /// Runs that were done, by their reason to stop.
    pub runs: [Runs; REASONS],
    /// Runs of a log that went on after line 241 although control bit 7 was set.
    pub went_on: u64,
    pub hits: u64,
    pub overflows: u64,
    /// Runs of one line that did not raise bit 5 with nine sprites in range or more, and that did with fewer.
    pub passed_over: u64,
    pub mistaken: u64,
    /// Searches by the number of sprites that they looked at.
    pub looked: BTreeMap<u64, u64>,
    pub sprite_pixels: u64,
    pub background_pixels: u64,
    /// Runs of one line of the picture with mask bit 0, with one of bits 7-5, and off with v in the palette.
    pub grey: u64,
    pub emphasis: u64,
    pub backdrop_override: u64,
    /// Tiles without a character, as text calls count them.
    pub bare_tiles: u64,
    pub isolation: Isolation,
}

impl Tally {
    pub fn add(&mut self, other: &Tally) {
        for (mine, theirs) in self.answers.iter_mut().flatten().zip(other.answers.iter().flatten()) {
            *mine += theirs;
        }
        self.four_pages.add(&other.four_pages);
        self.lines_run += other.lines_run;
        for (mine, theirs) in self.runs.iter_mut().zip(&other.runs) {
            mine.add(theirs);
        }
        self.went_on += other.went_on;
        self.hits += other.hits;
        self.overflows += other.overflows;
        self.passed_over += other.passed_over;
        self.mistaken += other.mistaken;
        for (&looked, searches) in &other.looked {
            *self.looked.entry(looked).or_default() += searches;
        }
        self.sprite_pixels += other.sprite_pixels;
        self.background_pixels += other.background_pixels;
        self.grey += other.grey;
        self.emphasis += other.emphasis;
        self.backdrop_override += other.backdrop_override;
        self.bare_tiles += other.bare_tiles;
        self.isolation.add(&other.isolation);
    }

    pub fn of_kind(&self, kind: Kind) -> u64 {
        self.answers[kind as usize].iter().sum()
    }

    pub fn calls(&self) -> u64 {
        self.answers.iter().flatten().sum()
    }
}

pub struct Trial<'a> {
    machine: Machine,
    pub tally: Tally,
    calls: u64,
    /// The call before which to stop, and give the case.
    until: Option<u64>,
    late: &'a dyn Fn() -> bool,
}

impl<'a> Trial<'a> {
    pub fn new(until: Option<u64>, late: &'a dyn Fn() -> bool) -> Trial<'a> {
        Trial { machine: Machine::new(), tally: Tally::default(), calls: 0, until, late }
    }

    /// The record of the unit, or of one of two.
    pub fn unit(&self) -> [u8; 16] {
        self.unit_of(0)
    }

    pub fn unit_of(&self, which: u8) -> [u8; 16] {
        self.machine.library.unit(which)
    }

    /// The right length of a memory for its unit as it stands, and wrong ones.
    pub fn length(&self, name: Name) -> usize {
        self.machine.library.length(name)
    }

    pub fn wrong_lengths(&self, name: Name) -> Vec<usize> {
        self.machine.library.wrong_lengths(name)
    }

    /// A memory, which is the same on both sides.
    pub fn of(&self, name: Name) -> &[u8] {
        self.machine.of(name)
    }

    pub fn machine(&self) -> &Machine {
        &self.machine
    }

    /// Plays on another machine for a while.
    pub fn on<T>(&mut self, machine: &mut Machine, play: impl FnOnce(&mut Trial) -> T) -> T {
        std::mem::swap(&mut self.machine, machine);
        let made = play(self);
        std::mem::swap(&mut self.machine, machine);
        made
    }

    /// Fills the front of a memory, the same on both sides.
    pub fn set(&mut self, name: Name, bytes: &[u8]) {
        self.set_at(name, 0, bytes);
    }

    pub fn set_at(&mut self, name: Name, at: usize, bytes: &[u8]) {
        self.machine.set_at(name, at, bytes);
    }

    /// The call on both sides; its packed answer if they agree in all.
    pub fn call(&mut self, call: &Call) -> Result<u64, Stop> {
        if self.until == Some(self.calls) {
            let case = Case { call: call.clone(), before: self.machine.library.clone() };
            return Err(Stop::Reached(Box::new(case)));
        }
        if self.calls.is_multiple_of(256) && (self.late)() {
            return Err(Stop::Late);
        }
        let unit = self.unit_of(call.which);
        let before = call.kind.is_shared().then(|| self.machine.library.clone());
        let Machine { library, second } = &mut self.machine;
        let answer = call.on_library(library);
        let expected = call.on_second(second);
        let alike = answer == expected && library == second;
        let kept = before.as_ref().is_none_or(|before| isolation::holds(call, answer, before, library));
        if !alike || !kept || !call.back_on_library(answer, library) || !call.back_on_second(answer, second) {
            return Err(Stop::Difference(self.calls));
        }
        self.calls += 1;
        self.count(call, answer, &unit);
        if let Some(before) = &before {
            self.tally.isolation.count(call, answer, before);
        }
        Ok(answer)
    }

    fn count(&mut self, call: &Call, answer: u64, before: &[u8; 16]) {
        let (tally, number) = (&mut self.tally, (answer & 255) as usize);
        tally.answers[call.kind as usize][number] += 1;
        tally.four_pages.count(call, number, before);
        if number != 0 {
            return;
        }
        match call.kind {
            Kind::Text => tally.bare_tiles += answer >> 32,
            Kind::Search => *tally.looked.entry(answer >> 24 & 255).or_default() += 1,
            Kind::Run => {
                tally.runs[usize::from(call.reason)].count(call.most, answer, before);
                self.count_lines(answer >> 32, before);
                if call.most == 1 && next_line(before) < 240 {
                    self.count_line(before);
                }
            }
            Kind::Play => {
                let to_241 = (241 + 262 - u64::from(next_line(before))) % 262 + 1;
                tally.went_on += u64::from(before[0] & 0x80 != 0 && answer >> 32 > to_241);
                self.count_lines(answer >> 32, before);
            }
            Kind::SharedRun => tally.lines_run += answer >> 32,
            _ => {}
        }
    }

    /// Counts what lines did; `before` is the record before them.
    fn count_lines(&mut self, lines: u64, before: &[u8; 16]) {
        let raised = self.machine.of(Name::Unit)[2] & !before[2];
        self.tally.lines_run += lines;
        self.tally.hits += u64::from(raised >> 6 & 1);
        self.tally.overflows += u64::from(raised >> 5 & 1);
    }

    /// Counts a line of the picture that was run by itself.
    fn count_line(&mut self, before: &[u8; 16]) {
        let tally = &mut self.tally;
        let drawn = before[1] & 0x18 != 0;
        tally.grey += u64::from(before[1] & 1);
        tally.emphasis += u64::from(before[1] >> 5 != 0);
        tally.backdrop_override += u64::from(!drawn && before[5] & 0x3F == 0x3F);
        if drawn {
            let line = &self.machine.of(Name::Line)[..256];
            tally.sprite_pixels += line.iter().filter(|&&p| p >= 16).count() as u64;
            let background = line.iter().filter(|&&p| p > 0 && p < 16).count() as u64;
            tally.background_pixels += background;
            if has_four_pages(before[15]) && is_far(before) {
                tally.four_pages.far_pixels += background;
            }
            self.count_overflow(before);
        }
    }

    /// Counts a drawn line on which the search is not what a count of the sprites in range would be.
    fn count_overflow(&mut self, before: &[u8; 16]) {
        let (line, height) = (next_line(before), sprite_height(before));
        let sprites = self.machine.of(Name::Oam)[..256].chunks(4);
        let are_many = sprites.filter(|sprite| is_in_range(sprite[0], line, height)).count() > 8;
        let is_set = self.machine.of(Name::Unit)[2] & 0x20 != 0;
        if before[2] & 0x20 == 0 {
            self.tally.passed_over += u64::from(are_many && !is_set);
            self.tally.mistaken += u64::from(!are_many && is_set);
        }
    }
}
