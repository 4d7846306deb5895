//! Replays captures on the library and on the second player.
//!
//!     replay FOLDER NAME..
//!
//! FOLDER has NAME.json, NAME.chr, NAME.l01, NAME.num and NAME.pix, decompressed. Both sides must agree
//! in everything, and with the capture in each answer, each pixel number and each finished colour; in one
//! capture status bit 5 may come up within the line that sets it.
//! The lines are run one by one. The library plays the log three more times: by runs that wait for NMI, by runs
//! that wait for a sprite 0 hit, whose line is compared with the capture, and as a log by `ppu_play`.
//! Before each line both sides search it for overflow, and the line must set bit 5 if the search does.
//! After each picture the text of its four quarters must be what a table of the tiles themselves gives.
//! On a board with four pages each line is drawn again with each page in the place of each other.

mod hits;
mod pages;

use hits::{Hits, HIT};
use second::calls::{RUN_ALL, UNTIL_HIT, UNTIL_NMI};
use second::log::Machine;
use second::memory::palette_cell;
use second::text::{self, PAGE, TEXT};
use second::unit::{Board, Unit, Wiring, LAST_LINE};
use std::fs;
use std::process::ExitCode;

const WIDTH: usize = 256;
const HEIGHT: usize = 240;

/// The capture in which greyscale, emphasis and backdrop override must all be seen.
const ALL_COLOURS: &str = "ports_w1";

/// The capture whose program polls port 2 inside drawn lines: there the emulator sets status bit 5 within the
/// line, document 01 between lines. Until the next line the bit is left out.
const POLLS_IN_LINES: &str = "efp";

/// The capture in which bit 5 must be seen set and clear, each also where a count of sprites says otherwise.
const CROWDS: &str = "ovf";
const OVERFLOW: u8 = 0x20;

/// The capture in which runs must stop at NMI, and at hits on a line that it knows and on one of some lines.
const HITS: &str = "hit8";

/// The capture that must show each of four pages where it is not like any other.
const FOUR_PAGES: &str = "scroll2_w4";

/// The byte that stands for a tile without a character.
const SPACE: u8 = 32;
const BAD_CHARACTER: u64 = 8;

/// The rows of a page and the answer, of the library; the second text layer's must be the same.
fn text_of(page: &[u8], table: &[u8]) -> Result<(Vec<u8>, u64), String> {
    let (mut rows, mut again) = (vec![0xEE; TEXT], vec![0xEE; TEXT]);
    let answer = library::text(page, table, &mut rows);
    if (u64::from(text::text(page, table, &mut again)), again) != (answer, rows.clone()) {
        return Err("library and second text layer differ in a text".into());
    }
    Ok((rows, answer))
}

/// Writes rows into a page, by the library; the second text layer must do the same.
fn page_of(rows: &[u8], table: &[u8], page: &mut [u8]) -> Result<u64, String> {
    let mut again = page.to_vec();
    let answer = library::page(rows, table, page);
    if u64::from(text::page(rows, table, &mut again)) != answer || again != page {
        return Err("library and second text layer differ in a page".into());
    }
    Ok(answer)
}

/// A page's text by a table of the tiles themselves, and back; then by the same table without a 32.
fn text_there_and_back(page: &[u8]) -> Result<(), String> {
    let mut table: Vec<u8> = (0..=255).collect();
    let number_of = |tile: u8| page[..TEXT].iter().filter(|&&t| t == tile).count() as u64;
    let wanted: Vec<u8> = page[..TEXT].iter().map(|&t| if t == 0 { SPACE } else { t }).collect();
    if text_of(page, &table)? != (wanted.clone(), number_of(0) << 32) {
        return Err("the text is not the tile bytes, or its count not that of tile 0".into());
    }
    // Tile 32 has the space, so that every row can be written; tile 0 has no character and becomes tile 32.
    let mut other = page.to_vec();
    other[..TEXT].iter_mut().for_each(|tile| *tile = !*tile);
    let mut back = other.clone();
    if page_of(&wanted, &table, &mut back)? != 0 || back[..TEXT] != wanted || back[TEXT..] != page[TEXT..] {
        return Err("the page of the text is not the text's tiles beside the attribute bytes".into());
    }
    if text_of(&back, &table)? != (wanted.clone(), 0) {
        return Err("the text of that page is not the text that was given, or counts".into());
    }
    // Without a 32 tiles 0 and 32 both become spaces, which then have no tile.
    table[usize::from(SPACE)] = 0;
    let spaces = number_of(0) + number_of(SPACE);
    if text_of(page, &table)? != (wanted.clone(), spaces << 32) {
        return Err("without tile 32 the text differs, or does not count it".into());
    }
    back.copy_from_slice(&other);
    let (due, left) = if spaces == 0 { (0, page) } else { (BAD_CHARACTER, &other[..]) };
    if page_of(&wanted, &table, &mut back)? != due || back != left {
        return Err("without tile 32 spaces are not refused, or the page is not the one that is due".into());
    }
    Ok(())
}

/// The library on a machine's record and memory.
struct Library(Machine);

impl Library {
    fn read(&mut self, address: u16) -> u64 {
        let m = &mut self.0;
        library::read(&mut m.unit, address, &m.left, &m.right, &m.nametables, &m.oam, &m.palette)
    }

    fn write(&mut self, address: u16, byte: u8) -> u64 {
        let Machine { unit, left, right, nametables, oam, palette, .. } = &mut self.0;
        library::write(unit, address, byte, left, right, nametables, oam, palette)
    }

    fn run(&mut self, most: u16, reason: u8) -> u64 {
        let m = &mut self.0;
        library::run(
            &mut m.unit,
            most,
            reason,
            &m.left,
            &m.right,
            &m.nametables,
            &m.oam,
            &m.palette,
            &mut m.line,
            &mut m.colours,
        )
    }

    /// Runs that many lines by runs that wait for a reason; those of the lines, from 0, that met it.
    fn run_by(&mut self, lines: u16, reason: u8) -> Result<Vec<u16>, String> {
        let (mut met, mut done) = (Vec::new(), 0);
        while done < lines {
            let most = lines - done;
            let answer = self.run(most, reason);
            let (ran, is_met) = ((answer >> 32) as u16, answer >> 17 & 1 == 1);
            let due = u64::from(ran) << 32 | u64::from(is_met) << 17 | nmi(&self.0.unit);
            if answer != due || !(1..=most).contains(&ran) || !is_met && ran != most {
                return Err(format!("a run of {most} lines, reason {reason}, answered {answer:X}"));
            }
            done += ran;
            if is_met {
                met.push(done - 1);
            }
        }
        Ok(met)
    }

    fn search(&self, line: u16) -> u64 {
        library::search(&self.0.unit, line, &self.0.oam)
    }

    fn play(&mut self, log: &[u8]) -> u64 {
        let Machine { unit, left, right, nametables, oam, palette, line, colours } = &mut self.0;
        library::play(unit, log, left, right, nametables, oam, palette, line, colours)
    }

    /// A quarter's 1024 bytes as port 7 reads them; the unit is a copy and not drawing.
    fn quarter(&self, quarter: u16) -> Vec<u8> {
        let mut copy = Library(self.0.clone());
        let control = copy.0.unit[0];
        copy.read(0x2002);
        copy.write(0x2000, control & !4); // v rises by one
        copy.write(0x2006, 0x20 + 4 * quarter as u8);
        copy.write(0x2006, 0);
        copy.read(0x2007); // what the read buffer had
        (0..PAGE).map(|_| (copy.read(0x2007) >> 8) as u8).collect()
    }
}

/// The NMI level of a record, where an answer has it.
fn nmi(unit: &[u8; 16]) -> u64 {
    u64::from(unit[0] & unit[2] & 0x80) << 9
}

struct Capture {
    polls_in_lines: bool,
    log: Vec<u8>,
    pictures: Vec<u8>,
    /// The pictures again, in finished colours of two bytes.
    colours: Vec<u8>,
    patterns: Vec<u8>,
    unit: Vec<u8>,
    palette: Vec<u8>,
}

/// The string that a key of the .json file has.
fn field<'a>(json: &'a str, key: &str) -> &'a str {
    let (_, rest) = json.split_once(&format!("\"{key}\": \"")).expect("the key is there");
    rest.split_once('"').expect("the string ends").0
}

fn unhex(text: &str) -> Vec<u8> {
    let pairs = (0..text.len()).step_by(2).map(|i| &text[i..i + 2]);
    pairs.map(|pair| u8::from_str_radix(pair, 16).expect("two hex digits")).collect()
}

impl Capture {
    fn load(folder: &str, name: &str) -> Capture {
        let load = |kind: &str| {
            fs::read(format!("{folder}/{name}.{kind}")).unwrap_or_else(|e| panic!("{name}.{kind}: {e}"))
        };
        let json = String::from_utf8(load("json")).expect("the .json file is text");
        Capture {
            polls_in_lines: name == POLLS_IN_LINES,
            log: load("l01"),
            pictures: load("num"),
            colours: load("pix"),
            patterns: load("chr"),
            unit: unhex(field(&json, "unit")),
            palette: unhex(field(&json, "palette")),
        }
    }

    /// The log as a player wants it: the last byte of a read is 0.
    fn log_without_answers(&self) -> Vec<u8> {
        let mut log = self.log.clone();
        log.chunks_mut(4).filter(|record| record[0] == 0).for_each(|record| record[3] = 0);
        log
    }

    fn board(&self) -> Board {
        Board::from_byte(self.unit[15]).expect("a board byte")
    }

    fn start(&self) -> Machine {
        let mut machine = Machine::new(self.board());
        machine.unit.copy_from_slice(&self.unit);
        machine.left.copy_from_slice(&self.patterns[..4096]);
        machine.right.copy_from_slice(&self.patterns[4096..]);
        machine.nametables.fill(0xFF);
        machine.oam.fill(0xFF);
        machine.palette.copy_from_slice(&self.palette);
        machine
    }
}

#[derive(Default)]
struct Tally {
    records: usize,
    lines: usize,
    reads: usize,
    overflow: Overflow,
    /// Lines on which runs that wait for NMI, or for a hit, stopped.
    met_nmi: usize,
    met_hit: usize,
    hits: hits::Tally,
    pages: pages::Tally,
    pictures: usize,
    /// Pages of text compared.
    texts: usize,
    colours: Colours,
}

/// Status bit 5: reads of port 2 and what they show of it, and searches.
#[derive(Default)]
struct Overflow {
    /// Reads compared without bit 5, and those of them that are apart in it.
    without: usize,
    apart: usize,
    /// Reads compared in all bits; those that gave bit 5 set, and of them those before which no line had nine
    /// sprites in range.
    whole: usize,
    set: usize,
    set_below_nine: usize,
    /// Reads that gave it clear after a line that had nine or more.
    clear_from_nine: usize,
    searches: usize,
    /// Searches that ended before sprite 63, and lines that raised the bit.
    ended: usize,
    raised: usize,
}

impl Overflow {
    /// Counts a read compared in all bits; `nine` says whether a line since line 261 had nine sprites in range.
    fn count_whole(&mut self, status: u8, nine: bool) {
        let is_set = status & OVERFLOW != 0;
        self.whole += 1;
        self.set += usize::from(is_set);
        self.set_below_nine += usize::from(is_set && !nine);
        self.clear_from_nine += usize::from(!is_set && nine);
    }

    fn count_without(&mut self, apart: u8) {
        self.without += 1;
        self.apart += usize::from(apart != 0);
    }

    /// The search is seen to set the bit and to leave it clear, also where a count would do otherwise.
    fn is_of_each_kind(&self) -> bool {
        let clear = self.whole - self.set;
        [self.set, clear, self.set_below_nine, self.clear_from_nine].iter().all(|&number| number > 0)
    }
}

/// Finished colours compared with a capture, and those that a rule made other than the palette's own.
#[derive(Default)]
struct Colours {
    all: usize,
    grey: usize,
    emphasis: usize,
    backdrop_override: usize,
}

impl Colours {
    /// Counts a line of the picture, by the unit's record before it, the palette and the pixel numbers.
    fn count(&mut self, unit: &[u8; 16], palette: &[u8; 32], line: &[u8; WIDTH]) {
        let (mask, v) = (unit[1], u16::from_le_bytes([unit[4], unit[5]]) % 0x4000);
        let overridden = mask & 0x18 == 0 && v >= 0x3F00;
        let colour = |cell: usize| palette[cell] % 64;
        for number in line.iter().map(|&number| usize::from(number)) {
            let cell = if overridden { palette_cell(v) } else { number };
            self.all += 1;
            self.grey += usize::from(mask & 1 != 0 && colour(cell) & !0x30 != 0);
            self.emphasis += usize::from(mask >> 5 != 0);
            self.backdrop_override += usize::from(colour(cell) != colour(number));
        }
    }

    /// Each rule was seen at work.
    fn are_of_each_kind(&self) -> bool {
        [self.grey, self.emphasis, self.backdrop_override].iter().all(|&number| number > 0)
    }
}

struct Replay<'a> {
    capture: &'a Capture,
    library: Library,
    second: Machine,
    /// The library again, by runs that wait for NMI, and by runs that wait for a hit.
    by_nmi: Library,
    by_hit: Library,
    /// The library again, by `ppu_play` on what is left of the log, the answers taken out of it.
    by_play: Library,
    log: Vec<u8>,
    /// Pictures begun so far, this one included.
    begun: usize,
    /// Whether a drawn line since line 261 had nine sprites in range, and whether the last one raised bit 5.
    nine: bool,
    raised: bool,
    hits: Hits,
    tally: Tally,
}

impl<'a> Replay<'a> {
    fn read(&mut self, address: u16, captured: u8) -> Result<u64, String> {
        let library = self.library.read(address);
        let second = u64::from(self.second.read(address));
        self.by_nmi.read(address);
        self.by_hit.read(address);
        if library != second {
            return Err(format!("read {address:04X}: library {library:X}, second {second:X}"));
        }
        let byte = (library >> 8) as u8;
        let apart = byte ^ captured;
        let is_early = address % 8 == 2 && self.capture.polls_in_lines && self.raised;
        let free = if is_early { OVERFLOW } else { 0 };
        if library & 255 != 0 || apart & !free != 0 {
            return Err(format!("read {address:04X}: answer {library:X}, the capture has {captured:02X}"));
        }
        self.tally.reads += 1;
        if address % 8 == 2 {
            self.hits.compare(captured, self.second.next_line())?;
        }
        match address % 8 {
            2 if is_early => self.tally.overflow.count_without(apart),
            2 => self.tally.overflow.count_whole(byte, self.nine),
            _ => {}
        }
        Ok(library)
    }

    fn write(&mut self, address: u16, byte: u8) -> Result<u64, String> {
        let library = self.library.write(address, byte);
        let second = u64::from(self.second.write(address, byte));
        self.by_nmi.write(address, byte);
        self.by_hit.write(address, byte);
        if library != second || library & 255 != 0 {
            return Err(format!("write {address:04X} {byte:02X}: library {library:X}, second {second:X}"));
        }
        Ok(library)
    }

    /// Lines, one by one and by runs; what the record's answer must be.
    fn lines(&mut self, lines: u16) -> Result<u64, String> {
        let nmis = self.by_nmi.run_by(lines, UNTIL_NMI)?;
        let hits = self.by_hit.run_by(lines, UNTIL_HIT)?;
        self.tally.met_nmi += nmis.len();
        self.tally.met_hit += hits.len();
        for line in 0..lines {
            self.line(nmis.contains(&line), hits.contains(&line))?;
        }
        Ok(u64::from(lines) << 32 | nmi(&self.second.unit))
    }

    /// One line; whether runs that wait for NMI and for a hit stopped on it.
    fn line(&mut self, is_nmi: bool, is_hit: bool) -> Result<(), String> {
        let (line, unit) = (usize::from(self.second.next_line()), self.second.unit);
        self.begun += usize::from(line == 0);
        let looked = self.search(line as u16)?;
        let captured = self.captured_line(line);
        let word = captured.map(|captured| hits::word(&self.second, captured));
        if let Some(captured) = captured.filter(|_| self.capture.board().wiring == Wiring::FourPages) {
            self.tally.pages.take(&self.second, captured);
        }
        let (library, second) = (self.library.run(1, RUN_ALL), u64::from(self.second.run(1, RUN_ALL)));
        if library != second || self.library.0 != self.second {
            return Err(format!(
                "line {line}: library {library:X}, second {second:X}, or their memories differ"
            ));
        }
        self.tally.lines += 1;
        let raised = self.second.unit[2] & !unit[2] & HIT != 0;
        if is_nmi != (line == 241 && unit[0] & 0x80 != 0) || is_hit != raised {
            return Err(format!("line {line}: met by runs: NMI {is_nmi}, hit {is_hit}"));
        }
        self.hits.take(line as u16, is_hit, word)?;
        self.compare_overflow(line as u16, &unit, looked)?;
        if line < HEIGHT && self.begun > 1 {
            self.compare_colours(line, &unit)?;
            self.compare_pixels(line)?;
        }
        Ok(())
    }

    /// The pixel numbers that the capture has of a line of the present picture; none of the first picture.
    fn captured_line(&self, line: usize) -> Option<&'a [u8]> {
        let picture = self.begun.checked_sub(1).filter(|&picture| picture > 0 && line < HEIGHT)?;
        let at = (picture * HEIGHT + line) * WIDTH;
        self.capture.pictures.get(at..at + WIDTH)
    }

    /// The search on a line, on both sides; how many sprites it looked at, 0 where it is refused.
    fn search(&mut self, line: u16) -> Result<u64, String> {
        let (library, second) = (self.library.search(line), u64::from(self.second.search(line)));
        let due = if usize::from(line) < HEIGHT { 0 } else { 5 };
        if library != second || library & 255 != due {
            return Err(format!("search on line {line}: library {library:X}, second {second:X}"));
        }
        let looked = library >> 24 & 255;
        self.tally.overflow.searches += usize::from(looked > 0);
        self.tally.overflow.ended += usize::from((1..64).contains(&looked));
        Ok(looked)
    }

    /// Status bit 5 after a line, by the search on it; `before` is the record before it.
    fn compare_overflow(&mut self, line: u16, before: &[u8; 16], looked: u64) -> Result<(), String> {
        let (unit, oam) = (Unit::from_record(before).expect("the record is well formed"), &self.second.oam);
        let is_drawn = unit.is_rendering() && usize::from(line) < HEIGHT;
        let sets = is_drawn && unit.search(oam, line).sets;
        let is_due = sets || before[2] & OVERFLOW != 0 && line != LAST_LINE;
        let is_set = self.library.0.unit[2] & OVERFLOW != 0;
        if is_set != is_due || is_drawn && looked < 64 && !sets {
            return Err(format!("line {line}: bit 5 is {is_set}, and {looked} sprites were looked at"));
        }
        let in_range = oam.chunks(4).filter(|sprite| unit.is_in_range(sprite[0], line)).count();
        self.nine = line != LAST_LINE && (self.nine || is_drawn && in_range > 8);
        self.raised = is_set && before[2] & OVERFLOW == 0;
        self.tally.overflow.raised += usize::from(self.raised);
        Ok(())
    }

    fn compare_pixels(&mut self, line: usize) -> Result<(), String> {
        let Some(captured) = self.captured_line(line) else { return Ok(()) };
        let mut pairs = captured.iter().zip(&self.library.0.line);
        if let Some(column) = pairs.position(|(a, b)| a != b) {
            let picture = self.begun - 1;
            let (ours, theirs) = (self.library.0.line[column], captured[column]);
            return Err(format!(
                "picture {picture} line {line} column {column}: {ours}, the capture has {theirs}"
            ));
        }
        if line == HEIGHT - 1 {
            self.tally.pictures += 1;
            (0..4).try_for_each(|quarter| self.compare_text(quarter))?;
        }
        Ok(())
    }

    /// The finished colours of a line; `unit` is the record before it.
    fn compare_colours(&mut self, line: usize, unit: &[u8; 16]) -> Result<(), String> {
        let picture = self.begun - 1;
        let at = 2 * (picture * HEIGHT + line) * WIDTH;
        let Some(captured) = self.capture.colours.get(at..at + 2 * WIDTH) else { return Ok(()) };
        let machine = &self.library.0;
        let mut pairs = captured.chunks(2).zip(machine.colours.chunks(2));
        if let Some(column) = pairs.position(|(a, b)| a != b) {
            let colour = |bytes: &[u8]| u16::from_le_bytes([bytes[2 * column], bytes[2 * column + 1]]);
            let (ours, theirs) = (colour(&machine.colours), colour(captured));
            return Err(format!(
                "picture {picture} line {line} column {column}: colour {ours:03X}, the capture has {theirs:03X}"
            ));
        }
        self.tally.colours.count(unit, &machine.palette, &machine.line);
        Ok(())
    }

    /// The text of a quarter after a picture.
    fn compare_text(&mut self, quarter: u16) -> Result<(), String> {
        let machine = &self.library.0;
        let board = Board::from_byte(machine.unit[15]).expect("the record is well formed");
        let page = &machine.nametables[text::quarter(board, quarter)..][..PAGE];
        if self.library.quarter(quarter) != page {
            return Err(format!("quarter {quarter} is not the page that port 7 reads"));
        }
        text_there_and_back(page).map_err(|why| format!("quarter {quarter}: {why}"))?;
        self.tally.texts += 1;
        Ok(())
    }

    fn record(&mut self, number: usize) -> Result<(), String> {
        let wanted = match self.capture.log[4 * number..] {
            [0, high, low, captured, ..] => self.read(u16::from_be_bytes([high, low]), captured)?,
            [1, high, low, byte, ..] => self.write(u16::from_be_bytes([high, low]), byte)?,
            [2, high, low, 0, ..] => self.lines(u16::from_be_bytes([high, low]))?,
            _ => return Err("no record of a log".into()),
        };
        let played = self.by_play.play(&self.log[4 * number..]);
        if played != wanted {
            return Err(format!("ppu_play answers {played:X}, the calls {wanted:X}"));
        }
        let library = &self.library.0;
        let others = [&self.second, &self.by_nmi.0, &self.by_hit.0, &self.by_play.0];
        if others.iter().any(|other| *other != library) {
            return Err("the units or memories differ".into());
        }
        self.tally.records += 1;
        Ok(())
    }
}

fn replay(capture: &Capture) -> Result<Tally, String> {
    let mut replay = Replay {
        capture,
        library: Library(capture.start()),
        second: capture.start(),
        by_nmi: Library(capture.start()),
        by_hit: Library(capture.start()),
        by_play: Library(capture.start()),
        log: capture.log_without_answers(),
        begun: 0,
        nine: false,
        raised: false,
        hits: Hits::default(),
        tally: Tally::default(),
    };
    for number in 0..capture.log.len().div_ceil(4) {
        replay.record(number).map_err(|why| format!("record {number}: {why}"))?;
    }
    Ok(Tally { hits: replay.hits.tally, ..replay.tally })
}

fn print(name: &str, tally: &Tally, due: usize) {
    let Tally { colours, overflow, hits, pages, .. } = tally;
    println!(
        "  {name}: {} records, {} lines, {} answers, {} of {due} pictures, {} pages of text; {} finished colours: \
         {} changed by greyscale, {} by emphasis, {} by backdrop override",
        tally.records,
        tally.lines,
        tally.reads,
        tally.pictures,
        tally.texts,
        colours.all,
        colours.grey,
        colours.emphasis,
        colours.backdrop_override
    );
    println!(
        "    port 2: {} reads in all bits: bit 5 set in {}, in {} of them without a line of nine sprites, clear in \
         {} after such a line; {} reads without bit 5, {} apart in it; {} searches, {} ended before sprite 63; \
         {} lines raised the bit",
        overflow.whole,
        overflow.set,
        overflow.set_below_nine,
        overflow.clear_from_nine,
        overflow.without,
        overflow.apart,
        overflow.searches,
        overflow.ended,
        overflow.raised
    );
    println!(
        "    runs stopped at NMI {} times, at a hit {} times; pictures with a hit on the one line that the capture \
         leaves: {}, on one of some lines: {}, without a hit: {}",
        tally.met_nmi, tally.met_hit, hits.known, hits.among, hits.without
    );
    if name == FOUR_PAGES {
        let lines = pages.told_apart();
        println!("    lines that tell page 0, 1, 2, 3 from each other page: {lines:?} or more");
    }
}

/// All that is due of a capture was compared, and seen where it must be.
fn is_whole(name: &str, tally: &Tally, due: usize) -> bool {
    tally.reads > 0
        && tally.pictures == due
        && tally.texts == 4 * due
        && tally.colours.all == due * WIDTH * HEIGHT
        && tally.overflow.searches >= due * HEIGHT
        && (name != HITS || tally.met_nmi > 0 && tally.hits.are_of_each_kind())
        && (name != CROWDS || tally.overflow.is_of_each_kind())
        && (name != FOUR_PAGES || tally.pages.told_apart().iter().all(|&lines| lines > 0))
        && (name != ALL_COLOURS || tally.colours.are_of_each_kind())
}

/// Replays a capture and says how it went; what was compared, if all was equal.
fn verdict(folder: &str, name: &str) -> Option<Tally> {
    let capture = Capture::load(folder, name);
    let due = capture.pictures.len() / (WIDTH * HEIGHT) - 1;
    match replay(&capture) {
        Ok(tally) => {
            print(name, &tally, due);
            Some(tally).filter(|tally| is_whole(name, tally, due))
        }
        Err(why) => {
            println!("  {name}: DIFFERENCE: {why}");
            None
        }
    }
}

fn main() -> ExitCode {
    let mut words = std::env::args().skip(1);
    let folder = &words.next().expect("the folder of the captures");
    let names: Vec<String> = words.collect();
    let tallies: Vec<Tally> = std::thread::scope(|scope| {
        let replays: Vec<_> = names.iter().map(|name| scope.spawn(move || verdict(folder, name))).collect();
        replays.into_iter().filter_map(|r| r.join().unwrap_or(None)).collect()
    });
    let sum = |number: fn(&Tally) -> usize| tallies.iter().map(number).sum::<usize>();
    let passed = tallies.len() == names.len() && !names.is_empty();
    println!(
        "replay: {} of {} captures, {} reads of port 2 in all bits, {} of them with bit 5 set, {} without bit 5; {} \
         pictures with a hit, the line of {} known: {}",
        tallies.len(),
        names.len(),
        sum(|tally| tally.overflow.whole),
        sum(|tally| tally.overflow.set),
        sum(|tally| tally.overflow.without),
        sum(|tally| tally.hits.known + tally.hits.among),
        sum(|tally| tally.hits.known),
        if passed { "no difference" } else { "FAILED" }
    );
    ExitCode::from(u8::from(!passed))
}
