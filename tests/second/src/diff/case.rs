//! A case: one call and the memory before it, as one line of text that can be played again.
//!
//!     write address=2007 byte=41 unit=0000..09 oam:255 left@0010=80FF
//!
//! `NAME:N` lends another length than the right one, which for nametable RAM the record's board says;
//! `NAME@OFFSET=BYTES` are bytes that are not zero, `BYTES*N` being N times the same; all else is zero.
//! Lengths, `N`, `most`, `reason`, `scanline` and `which` are decimal, all else is hex. Of two units `unit`,
//! `nametables`, `oam` and `palette` are unit 0's, `unit1`, `nametables1`, `oam1` and `palette1` unit 1's.

use crate::call::{Call, Kind};
use crate::isolation;
use crate::world::{Name, World, SLACK};
use std::fmt::Write;

#[derive(Clone)]
pub struct Case {
    pub call: Call,
    pub before: World,
}

/// What both sides made of a case.
pub struct Outcome {
    pub library: (u64, World),
    pub second: (u64, World),
    /// Whether a page that was written gives its rows back, on either side.
    pub back: [bool; 2],
    /// Whether a shared call left what it may not touch, and no picture that is not its own.
    pub kept: [bool; 2],
}

impl Outcome {
    pub fn differs(&self) -> bool {
        self.library != self.second || self.back != [true, true] || self.kept != [true, true]
    }
}

fn hex(bytes: &[u8]) -> String {
    bytes.iter().map(|b| format!("{b:02X}")).collect()
}

/// Bytes in hex, many of the same as a product.
fn brief(bytes: &[u8]) -> String {
    match bytes {
        [first, ..] if bytes.len() > 8 && bytes.iter().all(|b| b == first) => {
            format!("{first:02X}*{}", bytes.len())
        }
        _ => hex(bytes),
    }
}

/// How many bytes from the front are written as one: many of the same, or else up to a zero or such.
fn run_length(bytes: &[u8]) -> usize {
    let same = |at: usize| bytes[at..].iter().take_while(|&&b| b == bytes[at]).count();
    let ends = |&at: &usize| bytes[at] == 0 || same(at) > 8;
    match same(0) {
        many if many > 8 || bytes[0] == 0 => many,
        few => (few..bytes.len()).find(ends).unwrap_or(bytes.len()),
    }
}

fn unhex(text: &str) -> Option<Vec<u8>> {
    if let Some((bytes, count)) = text.split_once('*') {
        return Some(unhex(bytes)?.repeat(count.parse().ok()?));
    }
    let pairs = (0..text.len()).step_by(2).map(|i| text.get(i..i + 2));
    pairs.map(|pair| u8::from_str_radix(pair?, 16).ok()).collect()
}

impl Case {
    pub fn outcome(&self) -> Outcome {
        let on = |side: fn(&Call, &mut World) -> u64| {
            let mut world = self.before.clone();
            (side(&self.call, &mut world), world)
        };
        let (library, second) = (on(Call::on_library), on(Call::on_second));
        let back =
            [self.call.back_on_library(library.0, &library.1), self.call.back_on_second(second.0, &second.1)];
        let kept = [&library, &second]
            .map(|(answer, after)| isolation::holds(&self.call, *answer, &self.before, after));
        Outcome { library, second, back, kept }
    }

    pub fn text(&self) -> String {
        let call = &self.call;
        let mut text = call.kind.text().to_string();
        if call.kind.is_shared() {
            write!(text, " which={}", call.which).unwrap();
        }
        match call.kind.plain() {
            Kind::Fresh => write!(text, " board={:02X}", call.byte).unwrap(),
            Kind::Read => write!(text, " address={:04X}", call.address).unwrap(),
            Kind::Write => write!(text, " address={:04X} byte={:02X}", call.address, call.byte).unwrap(),
            Kind::Run => write!(text, " most={} reason={}", call.most, call.reason).unwrap(),
            Kind::Search => write!(text, " scanline={}", call.scanline).unwrap(),
            _ => {}
        }
        for name in Name::ALL {
            let right = self.before.length(name);
            if let Some(length) = call.lengths[name as usize].filter(|&length| length != right) {
                write!(text, " {}:{length}", name.text()).unwrap();
            }
        }
        for &record in call.kind.records() {
            write!(text, " {}={}", record.text(), hex(&self.before.of(record)[..16])).unwrap();
        }
        for name in Name::ALL {
            let bytes = self.before.of(name);
            let mut at = if call.kind.records().contains(&name) { 16 } else { 0 };
            while at < bytes.len() {
                let run = run_length(&bytes[at..]);
                if bytes[at] != 0 {
                    write!(text, " {}@{at:04X}={}", name.text(), brief(&bytes[at..at + run])).unwrap();
                }
                at += run;
            }
        }
        text
    }

    pub fn parse(text: &str) -> Option<Case> {
        let mut words = text.split_whitespace();
        let kind = words.next()?;
        let kind = Kind::ALL.into_iter().find(|k| k.text() == kind)?;
        let mut case = Case { call: Call::new(kind), before: World::new() };
        words.try_for_each(|word| case.take(word))?;
        Some(case)
    }

    fn take(&mut self, word: &str) -> Option<()> {
        let name = |text: &str| Name::ALL.into_iter().find(|n| n.text() == text);
        if let Some((memory, length)) = word.split_once(':') {
            let (name, length) = (name(memory)?, length.parse().ok()?);
            self.call.lengths[name as usize] = Some(length);
            return (length <= name.longest() + SLACK).then_some(());
        }
        let (left, value) = word.split_once('=')?;
        match left {
            "board" | "byte" => self.call.byte = u8::from_str_radix(value, 16).ok()?,
            "address" => self.call.address = u16::from_str_radix(value, 16).ok()?,
            "most" => self.call.most = value.parse().ok()?,
            "reason" => self.call.reason = value.parse().ok()?,
            "scanline" => self.call.scanline = value.parse().ok()?,
            "which" => self.call.which = value.parse().ok()?,
            _ => {
                let (memory, offset) = left.split_once('@').unwrap_or((left, "0"));
                let (offset, bytes) = (usize::from_str_radix(offset, 16).ok()?, unhex(value)?);
                let room = self.before.of_mut(name(memory)?);
                room.get_mut(offset..offset + bytes.len())?.copy_from_slice(&bytes);
            }
        }
        Some(())
    }

    /// The same difference from less: bytes become zero as long as both sides still differ.
    pub fn shortened(mut self) -> Case {
        while self.call.kind.plain() == Kind::Run && self.call.most > 0 {
            let mut fewer = self.clone();
            fewer.call.most = if fewer.call.most > 1024 { fewer.call.most / 2 } else { fewer.call.most - 1 };
            if !fewer.outcome().differs() {
                break;
            }
            self = fewer;
        }
        for name in Name::ALL {
            let all = self.before.of(name).len();
            let mut size = if matches!(name, Name::Unit | Name::Unit1) { 1 } else { all };
            while size > 0 {
                for at in (0..all).step_by(size) {
                    self.simplify(name, at, all.min(at + size));
                }
                size /= 2;
            }
        }
        self
    }

    /// Part of a memory becomes zero if both sides still differ; rows, which may hold no byte 0, become
    /// all the same as their first or last.
    fn simplify(&mut self, name: Name, start: usize, end: usize) {
        let bytes = self.before.of(name);
        let plain = match name {
            Name::Rows => vec![0, bytes[0], bytes[name.longest() - 1]],
            _ => vec![0],
        };
        for byte in plain {
            if self.before.of(name)[start..end].iter().all(|&b| b == byte) {
                return;
            }
            let mut less = self.clone();
            less.before.of_mut(name)[start..end].fill(byte);
            if less.outcome().differs() {
                *self = less;
                return;
            }
        }
    }

    /// What both sides made of it, for a reader.
    pub fn report(&self) -> String {
        let outcome = self.outcome();
        let mut text = format!("case: {}\n", self.text());
        for (side, (answer, world)) in [("library", &outcome.library), ("second ", &outcome.second)] {
            let (number, byte, nmi) = (answer & 255, answer >> 8 & 255, answer >> 16 & 1);
            let (met, rest) = (answer >> 17 & 1, answer >> 18 & 0x3F);
            let (looked, count) = (answer >> 24 & 255, answer >> 32);
            write!(text, "{side}: number {number}, byte {byte:02X}, count {count}, met {met}").unwrap();
            write!(text, ", nmi {nmi}, looked {looked}").unwrap();
            if rest != 0 {
                write!(text, ", bits 18 to 23 {rest:02X}").unwrap();
            }
            for &record in self.call.kind.records() {
                write!(text, ", {} {}", record.text(), hex(&world.of(record)[..16])).unwrap();
            }
            text.push('\n');
        }
        for (side, back) in [("library", outcome.back[0]), ("second ", outcome.back[1])] {
            if !back {
                writeln!(text, "{side}: the text of the page is not its rows again").unwrap();
            }
        }
        for (side, kept) in [("library", outcome.kept[0]), ("second ", outcome.kept[1])] {
            if !kept {
                writeln!(text, "{side}: changes what is not its to change, or leaves another's picture")
                    .unwrap();
            }
        }
        for name in Name::ALL {
            let (library, second) = (&outcome.library.1, &outcome.second.1);
            let memory = |world: &World| world.0[name as usize].clone();
            if let Some((at, a, b)) = memory(library).first_difference(&memory(second)) {
                let name = name.text();
                writeln!(text, "{name}[{at}]: library {a:02X}, second {b:02X}").unwrap();
            }
        }
        text
    }
}
