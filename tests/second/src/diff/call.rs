//! The calls, on either side.

use crate::world::{Name, World, NAMES};
use second::calls::RUN_ALL;
use Name::*;

#[derive(Clone, Copy, Debug, PartialEq, Eq)]
pub enum Kind {
    Fresh,
    Read,
    Write,
    Dma,
    Run,
    Play,
    /// The search for overflow.
    Search,
    /// The text of a page.
    Text,
    /// The page of a text.
    Page,
    /// The calls of two units that share one cartridge.
    SharedRead,
    SharedWrite,
    SharedDma,
    SharedRun,
}

/// The calls on one unit, which come first, with those of the text layer, and all.
pub const UNIT_KINDS: usize = 7;
pub const PLAIN_KINDS: usize = UNIT_KINDS + 2;
pub const KINDS: usize = PLAIN_KINDS + SHARED.len();

pub const SHARED: [Kind; 4] = [Kind::SharedRead, Kind::SharedWrite, Kind::SharedDma, Kind::SharedRun];

const PLAIN_AND_SHARED: [(Kind, Kind); 4] = [
    (Kind::Read, Kind::SharedRead),
    (Kind::Write, Kind::SharedWrite),
    (Kind::Dma, Kind::SharedDma),
    (Kind::Run, Kind::SharedRun),
];

impl Kind {
    pub const ALL: [Kind; KINDS] = [
        Kind::Fresh,
        Kind::Read,
        Kind::Write,
        Kind::Dma,
        Kind::Run,
        Kind::Play,
        Kind::Search,
        Kind::Text,
        Kind::Page,
        Kind::SharedRead,
        Kind::SharedWrite,
        Kind::SharedDma,
        Kind::SharedRun,
    ];

    pub fn text(self) -> &'static str {
        [
            "fresh",
            "read",
            "write",
            "dma",
            "run",
            "play",
            "search",
            "text",
            "page",
            "shared-read",
            "shared-write",
            "shared-dma",
            "shared-run",
        ][self as usize]
    }

    /// The call of one unit that a shared call is, and the shared call of each such; others as they are.
    pub fn plain(self) -> Kind {
        PLAIN_AND_SHARED.into_iter().find(|&(_, shared)| shared == self).map_or(self, |(plain, _)| plain)
    }

    pub fn shared(self) -> Kind {
        PLAIN_AND_SHARED.into_iter().find(|&(plain, _)| plain == self).map_or(self, |(_, shared)| shared)
    }

    pub fn is_shared(self) -> bool {
        SHARED.contains(&self)
    }

    /// The memories that such a call is lent.
    pub fn lent(self) -> &'static [Name] {
        match self {
            Kind::Fresh => &[Unit],
            Kind::Read | Kind::Write => &[Unit, Left, Right, Nametables, Oam, Palette],
            Kind::Dma => &[Unit, Oam, Page],
            Kind::Run => &[Unit, Left, Right, Nametables, Oam, Palette, Line, Colours],
            Kind::Play => &[Unit, Log, Left, Right, Nametables, Oam, Palette, Line, Colours],
            Kind::Search => &[Unit, Oam],
            Kind::Text | Kind::Page => &[Screen, Rows, Table],
            Kind::SharedRead | Kind::SharedWrite => {
                &[Unit, Unit1, Left, Right, Nametables, Nametables1, Oam, Oam1, Palette, Palette1]
            }
            Kind::SharedDma => &[Unit, Unit1, Oam, Oam1, Page],
            Kind::SharedRun => &[
                Unit,
                Unit1,
                Left,
                Right,
                Nametables,
                Nametables1,
                Oam,
                Oam1,
                Palette,
                Palette1,
                Line,
                Colours,
            ],
        }
    }

    /// The records that such a call is lent: of one unit, of two, of none in the text layer.
    pub fn records(self) -> &'static [Name] {
        match self {
            Kind::Text | Kind::Page => &[],
            kind if kind.is_shared() => &[Unit, Unit1],
            _ => &[Unit],
        }
    }

    /// Whether such a call is of a unit; those of the text layer are not.
    pub fn has_unit(self) -> bool {
        !self.records().is_empty()
    }
}

/// A call and its arguments; `byte` is the board of fresh, `most` and `reason` are the lines of run and its
/// reason to stop, `scanline` is the line of search, `which` the number of the unit that makes a shared call. What
/// play plays stands in the log that it is lent.
#[derive(Clone, Debug, PartialEq, Eq)]
pub struct Call {
    pub kind: Kind,
    pub which: u8,
    pub address: u16,
    pub byte: u8,
    pub most: u16,
    pub reason: u8,
    pub scanline: u16,
    /// Lengths that are lent instead of the right ones.
    pub lengths: [Option<usize>; NAMES],
}

macro_rules! performed {
    ($side:path, $layer:path, $shared:path, $call:expr, $world:expr) => {{
        use $layer as layer;
        use $shared as shared;
        use $side as side;
        let call = $call;
        let lengths = call.lent_to($world);
        let [
            unit, left, right, nametables, oam, palette, line, colours, page, log, screen, rows, table,
            unit1, nametables1, oam1, palette1,
        ] = $world.slices(lengths);
        match call.kind {
            Kind::Fresh => side::fresh(unit, call.byte).into(),
            Kind::Read => side::read(unit, call.address, left, right, nametables, oam, palette).into(),
            Kind::Write => {
                side::write(unit, call.address, call.byte, left, right, nametables, oam, palette).into()
            }
            Kind::Dma => side::dma(unit, oam, page).into(),
            Kind::Run => {
                let (most, reason) = (call.most, call.reason);
                side::run(unit, most, reason, left, right, nametables, oam, palette, line, colours).into()
            }
            Kind::Play => side::play(unit, log, left, right, nametables, oam, palette, line, colours).into(),
            Kind::Search => side::search(unit, call.scanline, oam).into(),
            Kind::Text => layer::text(screen, table, rows).into(),
            Kind::Page => layer::page(rows, table, screen).into(),
            Kind::SharedRead => shared::read(
                call.which,
                [unit, unit1],
                call.address,
                left,
                right,
                [nametables, nametables1],
                [oam, oam1],
                [palette, palette1],
            )
            .into(),
            Kind::SharedWrite => shared::write(
                call.which,
                [unit, unit1],
                call.address,
                call.byte,
                left,
                right,
                [nametables, nametables1],
                [oam, oam1],
                [palette, palette1],
            )
            .into(),
            Kind::SharedDma => shared::dma(call.which, [unit, unit1], [oam, oam1], page).into(),
            Kind::SharedRun => shared::run(
                call.which,
                [unit, unit1],
                call.most,
                call.reason,
                left,
                right,
                [nametables, nametables1],
                [oam, oam1],
                [palette, palette1],
                line,
                colours,
            )
            .into(),
        }
    }};
}

impl Call {
    pub fn new(kind: Kind) -> Call {
        Call {
            kind,
            which: 0,
            address: 0x2000,
            byte: 0,
            most: 0,
            reason: RUN_ALL,
            scanline: 0,
            lengths: [None; NAMES],
        }
    }

    pub fn fresh(board: u8) -> Call {
        Call { byte: board, ..Call::new(Kind::Fresh) }
    }

    pub fn read(address: u16) -> Call {
        Call { address, ..Call::new(Kind::Read) }
    }

    pub fn write(address: u16, byte: u8) -> Call {
        Call { address, byte, ..Call::new(Kind::Write) }
    }

    pub fn dma() -> Call {
        Call::new(Kind::Dma)
    }

    pub fn run(most: u16, reason: u8) -> Call {
        Call { most, reason, ..Call::new(Kind::Run) }
    }

    pub fn play() -> Call {
        Call::new(Kind::Play)
    }

    pub fn search(scanline: u16) -> Call {
        Call { scanline, ..Call::new(Kind::Search) }
    }

    pub fn text() -> Call {
        Call::new(Kind::Text)
    }

    pub fn page() -> Call {
        Call::new(Kind::Page)
    }

    pub fn with_length(mut self, name: Name, length: usize) -> Call {
        self.lengths[name as usize] = Some(length);
        self
    }

    /// The same call by one of two units; the lengths of its own memory are then that unit's.
    pub fn by(&self, which: u8) -> Call {
        let mut shared = Call { kind: self.kind.shared(), which, lengths: [None; NAMES], ..self.clone() };
        for name in Name::ALL.into_iter().filter(|&name| self.lengths[name as usize].is_some()) {
            shared.lengths[name.of_unit(which) as usize] = self.lengths[name as usize];
        }
        shared
    }

    /// The plain call that a shared one is, lent the calling unit's memory alone.
    pub fn alone(&self) -> Call {
        let lengths = Name::ALL.map(|name| self.lengths[name.of_unit(self.which) as usize]);
        Call { kind: self.kind.plain(), which: 0, lengths, ..self.clone() }
    }

    /// The lengths that are lent, right ones by the board of the unit as it stands.
    fn lent_to(&self, world: &World) -> [usize; NAMES] {
        Name::ALL.map(|name| self.lengths[name as usize].unwrap_or(world.length(name)))
    }

    pub fn on_library(&self, world: &mut World) -> u64 {
        performed!(library, library, library::shared, self, world)
    }

    pub fn on_second(&self, world: &mut World) -> u64 {
        performed!(second::calls, second::text, second::shared, self, world)
    }

    /// Whether the call, with that answer, did not write a page, or the library's text of the page is
    /// its rows again.
    pub fn back_on_library(&self, answer: u64, world: &World) -> bool {
        !self.wrote_page(answer) || gives_back(world, library::text)
    }

    pub fn back_on_second(&self, answer: u64, world: &World) -> bool {
        !self.wrote_page(answer)
            || gives_back(world, |page, table, rows| second::text::text(page, table, rows).into())
    }

    fn wrote_page(&self, answer: u64) -> bool {
        self.kind == Kind::Page && answer & 255 == 0
    }
}

/// The way back: the page's text is the rows, and no tile of it is counted.
fn gives_back(world: &World, text: fn(&[u8], &[u8], &mut [u8]) -> u64) -> bool {
    let [page, rows, table] = [Screen, Rows, Table].map(|name| &world.of(name)[..name.longest()]);
    let mut back: Vec<u8> = rows.iter().map(|&byte| !byte).collect();
    text(page, table, &mut back) == 0 && back == rows
}
