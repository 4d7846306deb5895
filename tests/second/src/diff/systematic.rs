//! Sessions that go through all values of something.

use crate::call::{Call, Kind, PLAIN_KINDS, SHARED, UNIT_KINDS};
use crate::colours;
use crate::order::{self, SUBJECTS};
use crate::overflow;
use crate::random::Random;
use crate::reload;
use crate::runs::{self, one_line, some_reason};
use crate::scenery::{self, BOARDS, FOUR_PAGES, TWO_PAGES};
use crate::sequences;
use crate::shared;
use crate::text;
use crate::trial::{Stop, Trial};
use crate::world::{Name, SLACK};

pub type Session = fn(&mut Trial, &mut Random, usize) -> Result<(), Stop>;

/// Each kind of session, with the number of parts that it comes in.
pub const SESSIONS: [(&str, Session, usize); 52] = [
    ("boards", boards, 1),
    ("addresses", addresses, 16),
    ("ports", ports, 8),
    ("lengths", lengths, PLAIN_KINDS),
    ("pairs of lengths", pairs_of_lengths, PLAIN_KINDS),
    ("records", records, UNIT_KINDS),
    ("unit numbers", shared::numbers, SHARED.len()),
    ("order of refusals of two units", shared::sets, 2 * SHARED.len()),
    ("the other of two units", shared::others, 2 * SHARED.len()),
    ("boards of two units", shared::boards, SHARED.len()),
    ("lengths of two units", shared::lengths, SHARED.len()),
    ("pairs of lengths of two units", shared::pairs_of_lengths, SHARED.len()),
    ("video memory of two units", shared::video_memory, 4),
    ("runs of two units", shared::runs, 8),
    ("two units and each alone", sequences::first, 40),
    ("reloads of one of two units", reload::first, 4),
    ("wide fields", wide_fields, 15),
    ("video memory", video_memory, 2 * BOARDS.len()),
    ("scroll writes", scroll_writes, 8),
    ("OAM port", oam_port, 4),
    ("palette reads", palette_reads, 4),
    ("lines and masks", lines_and_masks, 8),
    ("v on a line", v_on_a_line, 32),
    ("sprite rows", sprite_rows, 8),
    ("sprite columns", sprite_columns, 8),
    ("sprites in number", sprites_in_number, 4),
    ("bounds of runs", runs::bounds, 8),
    ("runs to a hit", runs::hits, 8),
    ("reasons to stop", runs::reasons, 4),
    ("kinds of a log", kinds_of_a_log, 1),
    ("words of a log", words_of_a_log, 16),
    ("runs of a log", runs_of_a_log, 8),
    ("lengths by a log", lengths_by_a_log, 1),
    ("each length by a log", each_length_by_a_log, 3),
    ("pairs of lengths by a log", pairs_by_a_log, 3),
    ("order of refusals", order::sets, SUBJECTS.len()),
    ("board bytes and lengths", order::boards, SUBJECTS.len()),
    ("masks and colours", colours::masks, 8),
    ("bytes of the palette", colours::palette_bytes, colours::TONES),
    ("v of a line that is off", colours::v_of_a_line_off, 16),
    ("last lines of runs", colours::last_lines, 4),
    ("lines of a search", overflow::scanlines, 16),
    ("Y bytes of a search", overflow::y_bytes, 16),
    ("places of a search", overflow::places, 8),
    ("searches and lines", overflow::searches_and_lines, 8),
    ("tables of characters", text::tables, 8),
    ("places of a page", text::places_of_a_page, 2),
    ("places of the rows", text::places_of_rows, 4),
    ("characters", text::characters, 4),
    ("attribute bytes", text::attribute_bytes, 1),
    ("three lengths", text::three_lengths, 2),
    ("quarters", text::quarters, BOARDS.len()),
];

/// New contents everywhere.
pub fn refill(trial: &mut Trial, random: &mut Random) {
    let unit = scenery::unit(random);
    trial.set(Name::Unit, &unit);
    trial.set(Name::Left, &scenery::table(random));
    trial.set(Name::Right, &scenery::table(random));
    trial.set(Name::Nametables, &scenery::nametables(random));
    trial.set(Name::Oam, &scenery::oam(random, scenery::next_line(&unit)));
    trial.set(Name::Table, &scenery::characters(random));
    for name in [Name::Palette, Name::Line, Name::Colours, Name::Page, Name::Log, Name::Screen, Name::Rows] {
        let mut bytes = vec![0; name.longest()];
        random.fill(&mut bytes);
        trial.set(name, &bytes);
    }
    for name in Name::ALL {
        let mut beyond = [0; SLACK];
        random.fill(&mut beyond);
        trial.set_at(name, name.longest(), &beyond);
    }
}

/// A well-formed unit that does not draw and is warmed up.
fn calm_unit(random: &mut Random) -> [u8; 16] {
    let mut unit = scenery::unit(random);
    unit[12..14].copy_from_slice(&random.pick(&[240u16, 241, 250, 260]).to_le_bytes());
    unit[14] = 1;
    unit
}

pub fn unit_at_line(random: &mut Random, line: u16) -> [u8; 16] {
    let mut unit = scenery::unit(random);
    unit[12..14].copy_from_slice(&line.to_le_bytes());
    unit
}

/// A call of the kind, its arguments random and mostly accepted; for play a record is put into the log,
/// for the text layer a table and a page or rows are made. A shared call is by either of two units.
pub fn some_call(trial: &mut Trial, random: &mut Random, kind: Kind) -> Call {
    let address = match random.below(16) {
        0 => random.pick(&[0, 0x1FF8, 0x1FFF, 0x4000, 0x4007, 0x8000, 0xFFFF]),
        1 => random.next() as u16,
        _ => random.within(0x2000, 0x3FFF) as u16,
    };
    let board = if random.one_in(4) { random.byte() } else { scenery::board(random) };
    match kind {
        Kind::Fresh => Call::fresh(board),
        Kind::Read => Call::read(address),
        Kind::Write => Call::write(address, random.byte()),
        Kind::Dma => Call::dma(),
        Kind::Run => Call::run(random.pick(&[0, 1, 1, 1, 2, 3, 4, 5]), some_reason(random)),
        Kind::Play => {
            trial.set(Name::Log, &scenery::log_record(random, address));
            Call::play()
        }
        Kind::Search => Call::search(match random.below(8) {
            0 => random.next() as u16,
            1 => random.pick(&[239, 240, 241, 255, 256, 261, 262, 65535]),
            2..=4 => random.below(240) as u16,
            _ => scenery::next_line(&trial.unit()).min(239),
        }),
        Kind::Text => {
            trial.set(Name::Screen, &scenery::nametables(random)[..1024]);
            trial.set(Name::Table, &scenery::characters(random));
            Call::text()
        }
        Kind::Page => {
            let (table, strangers) = (scenery::characters(random), random.pick(&[0, 0, 1, 2000]));
            trial.set(Name::Table, &table);
            trial.set(Name::Rows, &scenery::rows(random, &table, strangers));
            Call::page()
        }
        shared => some_call(trial, random, shared.plain()).by(random.below(2) as u8),
    }
}

/// A fresh unit of every board byte, the record at each length: 2 for the record, then 3.
fn boards(trial: &mut Trial, random: &mut Random, _: usize) -> Result<(), Stop> {
    for length in 0..=16 + SLACK {
        refill(trial, random);
        for board in 0..=255 {
            let answer = trial.call(&Call::fresh(board).with_length(Name::Unit, length))?;
            let due = match (length, BOARDS.contains(&board)) {
                (16, true) => 0,
                (16, false) => 3,
                _ => 2,
            };
            assert_eq!(answer, due, "a fresh unit of board {board} in {length} bytes");
        }
    }
    Ok(())
}

fn addresses(trial: &mut Trial, random: &mut Random, part: usize) -> Result<(), Stop> {
    refill(trial, random);
    for address in part * 4096..part * 4096 + 4096 {
        trial.set(Name::Unit, &scenery::unit(random));
        trial.call(&Call::read(address as u16))?;
        trial.set(Name::Unit, &scenery::unit(random));
        trial.call(&Call::write(address as u16, random.byte()))?;
    }
    Ok(())
}

/// A port, with w, warmed up and drawing each on and off, and every byte.
fn ports(trial: &mut Trial, random: &mut Random, port: usize) -> Result<(), Stop> {
    refill(trial, random);
    for state in 0..16u8 {
        for byte in 0..=255 {
            let mut unit = scenery::unit(random);
            unit[1] = unit[1] & !0x18 | (state & 3) << 3;
            unit[9] = state >> 2 & 1;
            unit[14] = state >> 3;
            let address = 0x2000 + 8 * random.below(1024) as u16 + port as u16;
            trial.set(Name::Unit, &unit);
            trial.call(&Call::write(address, byte))?;
            unit[11] = byte;
            trial.set(Name::Unit, &unit);
            trial.call(&Call::read(address))?;
        }
    }
    Ok(())
}

/// A kind of call, each memory lent at each length from 0 to beyond the longest, on boards with two pages and
/// with four, the record well formed and not.
fn lengths(trial: &mut Trial, random: &mut Random, kind: usize) -> Result<(), Stop> {
    let kind = Kind::ALL[kind];
    refill(trial, random);
    for &name in kind.lent() {
        for length in 0..=name.longest() + SLACK {
            for round in 0..4 {
                let mut unit = scenery::unit(random);
                unit[15] = random.pick([&TWO_PAGES[..], &FOUR_PAGES][round % 2]);
                if round / 2 == 1 {
                    scenery::spoil(random, &mut unit);
                }
                trial.set(Name::Unit, &unit);
                let call = some_call(trial, random, kind);
                trial.call(&call.with_length(name, length))?;
            }
        }
    }
    Ok(())
}

/// A kind of call, each two memories one byte short, right or one byte long.
fn pairs_of_lengths(trial: &mut Trial, random: &mut Random, kind: usize) -> Result<(), Stop> {
    let kind = Kind::ALL[kind];
    refill(trial, random);
    for &one in kind.lent() {
        for &other in kind.lent() {
            for which in 0..54 {
                let mut unit = scenery::unit(random);
                if which % 2 == 1 {
                    scenery::spoil(random, &mut unit);
                }
                trial.set(Name::Unit, &unit);
                let call = some_call(trial, random, kind);
                let call = call.with_length(one, trial.length(one) + which / 2 % 3 - 1);
                trial.call(&call.with_length(other, trial.length(other) + which / 6 % 3 - 1))?;
            }
        }
    }
    Ok(())
}

/// A kind of call, each byte of the record with every value.
fn records(trial: &mut Trial, random: &mut Random, kind: usize) -> Result<(), Stop> {
    let kind = Kind::ALL[kind];
    refill(trial, random);
    for at in 0..16 {
        for value in 0..=255 {
            let mut unit = scenery::unit(random);
            unit[at] = value;
            trial.set(Name::Unit, &unit);
            let call = some_call(trial, random, kind);
            trial.call(&call)?;
        }
    }
    Ok(())
}

/// Every 16-bit value of v, t or next line.
fn wide_fields(trial: &mut Trial, random: &mut Random, part: usize) -> Result<(), Stop> {
    let at = [4, 6, 12][part % 3];
    let kind = [Kind::Read, Kind::Write, Kind::Dma, Kind::Run, Kind::Search][part / 3];
    refill(trial, random);
    for value in 0..=65535u16 {
        let mut unit = scenery::unit(random);
        unit[at..at + 2].copy_from_slice(&value.to_le_bytes());
        if kind == Kind::Run && at != 12 {
            unit[12..14].copy_from_slice(&261u16.to_le_bytes());
        }
        trial.set(Name::Unit, &unit);
        let call = match kind {
            Kind::Run => one_line(random),
            _ => some_call(trial, random, kind),
        };
        trial.call(&call)?;
    }
    Ok(())
}

/// Port 7 at every v, for a board and a step.
fn video_memory(trial: &mut Trial, random: &mut Random, part: usize) -> Result<(), Stop> {
    refill(trial, random);
    for v in 0..0x8000u16 {
        let mut unit = calm_unit(random);
        unit[0] = unit[0] & !4 | (part as u8 & 1) << 2;
        unit[4..6].copy_from_slice(&v.to_le_bytes());
        unit[15] = BOARDS[part / 2];
        trial.set(Name::Unit, &unit);
        trial.call(&Call::read(0x2007))?;
        trial.set(Name::Unit, &unit);
        trial.call(&Call::write(0x2007, random.byte()))?;
    }
    Ok(())
}

/// Ports 0, 2, 5 and 6 at every t, first and second writes.
fn scroll_writes(trial: &mut Trial, random: &mut Random, part: usize) -> Result<(), Stop> {
    refill(trial, random);
    for t in 0..0x8000u16 {
        let mut unit = calm_unit(random);
        unit[6..8].copy_from_slice(&t.to_le_bytes());
        unit[9] = part as u8 & 1;
        trial.set(Name::Unit, &unit);
        let byte = if random.one_in(2) { random.byte() } else { (t >> 3) as u8 };
        trial.call(&Call::write(0x2000 + [0, 2, 5, 6][part / 2], byte))?;
    }
    Ok(())
}

/// Port 4 and sprite DMA at every OAMADDR.
fn oam_port(trial: &mut Trial, random: &mut Random, part: usize) -> Result<(), Stop> {
    refill(trial, random);
    for address in 0..=255 {
        for round in 0..40 {
            let mut unit = scenery::unit(random);
            unit[3] = address;
            if part % 2 == 1 {
                unit[1] &= !0x18;
            }
            trial.set(Name::Unit, &unit);
            match round {
                0..=15 => trial.call(&Call::write(0x2004, random.byte()))?,
                16..=31 => trial.call(&Call::read(0x2004))?,
                _ => trial.call(&Call::dma())?,
            };
            trial.set_at(Name::Oam, random.below(256), &[random.byte()]);
            trial.set_at(Name::Page, random.below(256), &[random.byte()]);
        }
    }
    Ok(())
}

/// Port 7 at every palette address with every lent byte.
fn palette_reads(trial: &mut Trial, random: &mut Random, part: usize) -> Result<(), Stop> {
    refill(trial, random);
    for address in (0x3F00 + part as u16..0x4000).step_by(4) {
        for byte in 0..=255u8 {
            let mut unit = calm_unit(random);
            let v = address | (u16::from(byte) << 14 & 0x4000);
            unit[4..6].copy_from_slice(&v.to_le_bytes());
            trial.set(Name::Unit, &unit);
            trial.set_at(Name::Palette, usize::from(address % 32), &[byte]);
            trial.set_at(Name::Palette, usize::from(address % 16), &[!byte]);
            trial.call(&Call::read(0x2007))?;
            trial.call(&Call::read(0x2007))?;
        }
    }
    Ok(())
}

/// Every line with every mask.
fn lines_and_masks(trial: &mut Trial, random: &mut Random, part: usize) -> Result<(), Stop> {
    for line in 0..262 {
        if line % 8 == 0 {
            refill(trial, random);
        }
        for mask in (part as u8..=255).step_by(8) {
            let mut unit = unit_at_line(random, line);
            unit[1] = mask;
            trial.set(Name::Unit, &unit);
            trial.set(Name::Oam, &scenery::oam(random, line));
            trial.call(&one_line(random))?;
        }
    }
    Ok(())
}

/// A drawn line at every v, on a board with two pages or with four.
fn v_on_a_line(trial: &mut Trial, random: &mut Random, part: usize) -> Result<(), Stop> {
    let boards = [&TWO_PAGES[..], &FOUR_PAGES][part % 2];
    for v in (part as u16 / 2..0x8000).step_by(16) {
        if v / 16 % 64 == 0 {
            refill(trial, random);
            trial.set(Name::Oam, &[0xFF; 256]);
        }
        let line = random.below(240) as u16;
        let mut unit = unit_at_line(random, line);
        unit[1] |= random.pick(&[0x08, 0x0A, 0x0A, 0x10]);
        unit[4..6].copy_from_slice(&v.to_le_bytes());
        unit[8] = (v / 16 % 8) as u8;
        unit[15] = random.pick(boards);
        trial.set(Name::Unit, &unit);
        trial.call(&one_line(random))?;
    }
    Ok(())
}

/// A sprite at every Y byte, on lines about it and on others, both heights, flipped or not.
fn sprite_rows(trial: &mut Trial, random: &mut Random, part: usize) -> Result<(), Stop> {
    for y in (part..256).step_by(8) {
        refill(trial, random);
        for round in 0..120 {
            let line = match round {
                0..=79 => (y + round / 4).saturating_sub(1).min(239) as u16,
                _ => random.below(240) as u16,
            };
            let mut unit = unit_at_line(random, line);
            unit[0] = unit[0] & !0x20 | (round as u8 & 1) << 5;
            unit[1] |= 0x14;
            let mut oam = [0xFF; 256];
            let slot = random.below(64);
            let attributes = random.byte() & 0x7F | (round as u8 & 2) << 6;
            oam[4 * slot..4 * slot + 4].copy_from_slice(&[y as u8, random.byte(), attributes, random.byte()]);
            trial.set(Name::Unit, &unit);
            trial.set(Name::Oam, &oam);
            trial.call(&one_line(random))?;
        }
    }
    Ok(())
}

/// Sprite 0 and another at every X, by attribute bits and mask bits.
fn sprite_columns(trial: &mut Trial, random: &mut Random, part: usize) -> Result<(), Stop> {
    for x in 0..=255u8 {
        if x % 16 == 0 {
            refill(trial, random);
        }
        for round in 0..16u8 {
            let line = random.within(1, 239) as u16;
            let mut unit = unit_at_line(random, line);
            unit[1] = unit[1] & !6 | (round & 3) << 1 | 0x18;
            let y = (line as u8 - 1).saturating_sub(random.below(8) as u8);
            let mut oam = [0xFF; 256];
            let attributes = (part as u8 * 32) | random.byte() & 31;
            oam[..4].copy_from_slice(&[y, random.byte(), attributes, x]);
            let beside = x.wrapping_add(random.below(9) as u8).wrapping_sub(4);
            let slot = random.within(1, 63);
            oam[4 * slot..4 * slot + 4].copy_from_slice(&[y, random.byte(), random.byte(), beside]);
            trial.set(Name::Unit, &unit);
            trial.set(Name::Oam, &oam);
            trial.call(&one_line(random))?;
        }
    }
    Ok(())
}

/// From none to 64 sprites on one row, in random places of OAM.
fn sprites_in_number(trial: &mut Trial, random: &mut Random, part: usize) -> Result<(), Stop> {
    for number in 0..=64 {
        refill(trial, random);
        for round in 0..40 {
            let number = if round % 2 == 0 { number } else { number % 12 };
            let line = random.within(0, 239) as u16;
            let mut unit = unit_at_line(random, line);
            unit[0] = unit[0] & !0x20 | (part as u8 & 1) << 5;
            unit[1] |= [0x18, 0x10, 0x08, 0x1E][round % 4];
            let mut oam = [0; 256];
            random.fill(&mut oam);
            for sprite in oam.chunks_mut(4) {
                sprite[0] = 0xF8;
            }
            for slot in random_slots(random, number, 64) {
                let up = random.below(2 + 16 * (part / 2)) as u16;
                oam[4 * slot] = line.saturating_sub(up) as u8;
            }
            trial.set(Name::Unit, &unit);
            trial.set(Name::Oam, &oam);
            trial.call(&one_line(random))?;
        }
    }
    Ok(())
}

/// So many of the first slots of OAM.
pub fn random_slots(random: &mut Random, number: usize, first: usize) -> Vec<usize> {
    let mut slots: Vec<usize> = (0..first).collect();
    for i in 0..number {
        slots.swap(i, random.within(i, first - 1));
    }
    slots.truncate(number);
    slots
}

/// Every kind byte with last bytes that must be 0 and are not, in logs of every length from 0 to 12.
fn kinds_of_a_log(trial: &mut Trial, random: &mut Random, _: usize) -> Result<(), Stop> {
    for kind in 0..=255 {
        refill(trial, random);
        for last in [0, 1, 255] {
            for length in 0..=12 {
                let [high, low] = match kind {
                    0 | 1 => (random.within(0x2000, 0x3FFF) as u16).to_be_bytes(),
                    _ => [0, random.below(6) as u8],
                };
                trial.set(Name::Unit, &scenery::unit(random));
                trial.set(Name::Log, &[kind, high, low, last]);
                trial.call(&Call::play().with_length(Name::Log, length))?;
            }
        }
    }
    Ok(())
}

/// Every middle word of a record that reads and of one that writes.
fn words_of_a_log(trial: &mut Trial, random: &mut Random, part: usize) -> Result<(), Stop> {
    refill(trial, random);
    for word in part * 4096..part * 4096 + 4096 {
        let [high, low] = (word as u16).to_be_bytes();
        for record in [[0, high, low, 0], [1, high, low, random.byte()]] {
            trial.set(Name::Unit, &scenery::unit(random));
            trial.set(Name::Log, &record);
            let length = if random.one_in(2) { 4 } else { random.within(4, 4 + SLACK) };
            trial.call(&Call::play().with_length(Name::Log, length))?;
        }
    }
    Ok(())
}

/// A unit at the line that does not draw, or seldom, with control bit 7 as told, plays a run.
fn played_run(trial: &mut Trial, random: &mut Random, line: u16, bit: u8, lines: u16) -> Result<(), Stop> {
    let mut unit = unit_at_line(random, line);
    unit[0] = unit[0] & 0x7F | bit << 7;
    if lines > 600 || !random.one_in(24) {
        unit[1] &= !0x18;
    }
    let [high, low] = lines.to_be_bytes();
    trial.set(Name::Unit, &unit);
    trial.set(Name::Log, &[2, high, low, 0]);
    trial.call(&Call::play()).map(drop)
}

/// Runs of a log from every line, of lengths about each bound, with control bit 7 set and not.
fn runs_of_a_log(trial: &mut Trial, random: &mut Random, part: usize) -> Result<(), Stop> {
    for line in (part as u16..262).step_by(8) {
        refill(trial, random);
        let to_241 = (241 + 262 - line) % 262 + 1;
        for lines in [0, 1, 2, to_241 - 1, to_241, to_241 + 1, 241, 242, 256, 261, 262, 263] {
            for bit in 0..2 {
                played_run(trial, random, line, bit, lines)?;
            }
        }
    }
    for lines in [512, 1000, 32767, 32768, 65280, 65534, 65535] {
        let line = random.below(262) as u16;
        played_run(trial, random, line, part as u8 & 1, lines)?;
    }
    Ok(())
}

/// Each memory of a wrong length, under a record of each kind: an access does not look at line and colours.
fn lengths_by_a_log(trial: &mut Trial, random: &mut Random, _: usize) -> Result<(), Stop> {
    for round in 0..16 {
        refill(trial, random);
        for record in [[0, 0x20, 0, 0], [1, 0x20, 0, random.byte()], [2, 0, 0, 0]] {
            for &name in Kind::Play.lent() {
                for which in 0..8 {
                    let [kind, high, _, last] = record;
                    trial.set(Name::Unit, &scenery::unit(random));
                    trial.set(Name::Log, &[kind, high, round, last]);
                    let (right, most) = (trial.length(name), name.longest() + SLACK);
                    let twice = most.min(2 * right);
                    let length = [0, 1, right / 2, right - 1, right, right + 1, twice, most][which];
                    trial.call(&Call::play().with_length(name, length))?;
                }
            }
        }
    }
    Ok(())
}

/// A record of one kind that is done if no length is wrong.
fn easy_record(random: &mut Random, kind: usize) -> [u8; 4] {
    match kind {
        0 => [0, 0x20, 2, 0],
        1 => [1, 0x20, 3, random.byte()],
        _ => [2, 0, random.below(3) as u8, 0],
    }
}

/// A record of one kind, and nametable RAM, palette, line and colours at each length from 0 to beyond the
/// longest, on boards with two pages and with four.
fn each_length_by_a_log(trial: &mut Trial, random: &mut Random, kind: usize) -> Result<(), Stop> {
    refill(trial, random);
    for name in [Name::Nametables, Name::Palette, Name::Line, Name::Colours] {
        for length in 0..=name.longest() + SLACK {
            for boards in [&TWO_PAGES[..], &FOUR_PAGES] {
                let mut unit = scenery::unit(random);
                unit[15] = random.pick(boards);
                trial.set(Name::Unit, &unit);
                trial.set(Name::Log, &easy_record(random, kind));
                trial.call(&Call::play().with_length(name, length))?;
            }
        }
    }
    Ok(())
}

/// A record of one kind, and each two memories one byte short, right or one byte long.
fn pairs_by_a_log(trial: &mut Trial, random: &mut Random, kind: usize) -> Result<(), Stop> {
    refill(trial, random);
    for &one in Kind::Play.lent() {
        for &other in Kind::Play.lent() {
            for which in 0..9 {
                trial.set(Name::Unit, &scenery::unit(random));
                trial.set(Name::Log, &easy_record(random, kind));
                let call = Call::play().with_length(one, trial.length(one) + which % 3 - 1);
                trial.call(&call.with_length(other, trial.length(other) + which / 3 - 1))?;
            }
        }
    }
    Ok(())
}
