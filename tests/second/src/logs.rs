//! Logs through both players, byte for byte.
//!
//!     logs PLAYER [--seed N] [--logs N] [--keep FILE] [--captures FOLDER]
//!
//! Random logs, or the logs of captures (FOLDER/*.l01) with the answers that they hold taken out.
//! The first log whose outputs differ is cut after the record that makes the difference, printed in hex,
//! and kept in the file if one is named.

#[path = "diff/random.rs"]
#[allow(dead_code)]
mod random;

use random::Random;
use std::io::{self, Write};
use std::process::{Command, ExitCode, Stdio};

/// Document 01's log and what it prints.
const EXAMPLE: &str =
    "02010600 01200621 01200608 01200742 01200621 01200608 00200700 00200700 00200200 00400000";
const PRINTED: &str = "line 0 nmi 0\n00\n42\n02\nrefused 1\n";

fn unhex(text: &str) -> Vec<u8> {
    let digits: Vec<u8> = text.bytes().filter(|b| !b.is_ascii_whitespace()).collect();
    let pairs = digits.chunks(2).map(|pair| std::str::from_utf8(pair).unwrap());
    pairs.map(|pair| u8::from_str_radix(pair, 16).unwrap()).collect()
}

fn on_second(log: &[u8]) -> Vec<u8> {
    let mut out = Vec::new();
    second::log::play(log, &mut out).unwrap();
    out
}

fn on_player(player: &str, log: &[u8]) -> io::Result<Vec<u8>> {
    let mut child = Command::new(player).stdin(Stdio::piped()).stdout(Stdio::piped()).spawn()?;
    let mut stdin = child.stdin.take().unwrap();
    let output = std::thread::scope(|scope| {
        // A player may end before it has read all.
        scope.spawn(move || drop(stdin.write_all(log)));
        child.wait_with_output()
    })?;
    match output.status.success() {
        true => Ok(output.stdout),
        false => Err(io::Error::other(format!("the player ended with {}", output.status))),
    }
}

/// An access of a program, or a refused one.
fn access(random: &mut Random) -> [u8; 4] {
    let address = match random.below(24) {
        0 => random.next() as u16,
        1 => random.pick(&[0x1FFF, 0x4000, 0, 0xFFFF]),
        _ => 0x2000 + 8 * random.below(1024) as u16 + random.pick(&[0, 1, 2, 3, 4, 5, 6, 6, 7, 7, 7]),
    };
    let [high, low] = address.to_be_bytes();
    if random.one_in(3) {
        [0, high, low, 0]
    } else {
        [1, high, low, random.byte()]
    }
}

fn lines(random: &mut Random) -> [u8; 4] {
    let count = match random.below(100) {
        0 => random.below(2000) as u16,
        1..=4 => random.below(525) as u16,
        5 | 6 => 262,
        _ => random.below(20) as u16,
    };
    let [high, low] = count.to_be_bytes();
    [2, high, low, 0]
}

fn log(random: &mut Random) -> Vec<u8> {
    let mut log = Vec::new();
    if !random.one_in(8) {
        log.extend([2, 1, 6, 0]);
    }
    let most = random.pick(&[4, 60, 600]);
    for _ in 0..random.below(most) {
        let record = match random.below(12) {
            0..=2 => lines(random),
            _ => access(random),
        };
        log.extend(record);
    }
    match random.below(6) {
        0 => log.extend([random.within(3, 255) as u8, 0x20, 2, 0]),
        1 => log.extend([0, 0x20, 2, random.within(1, 255) as u8]),
        2 => log.extend([2, 0, 1, random.within(1, 255) as u8]),
        3 => log.extend(&[1, 0x20, 7][..random.within(1, 3)]),
        _ => {}
    }
    if random.one_in(2) {
        log.extend(access(random));
    }
    log
}

struct Options {
    player: String,
    seed: u64,
    logs: u64,
    keep: Option<String>,
    captures: Option<String>,
}

fn options() -> Option<Options> {
    let mut words = std::env::args().skip(1);
    let mut options = Options { player: words.next()?, seed: 1, logs: 300, keep: None, captures: None };
    while let Some(word) = words.next() {
        let value = words.next()?;
        match word.as_str() {
            "--seed" => options.seed = value.parse().ok()?,
            "--logs" => options.logs = value.parse().ok()?,
            "--keep" => options.keep = Some(value),
            "--captures" => options.captures = Some(value),
            _ => return None,
        }
    }
    Some(options)
}

/// What the second player prints, if the other prints the same.
fn agreed(player: &str, log: &[u8]) -> Option<Vec<u8>> {
    let expected = on_second(log);
    let printed = on_player(player, log).ok()?;
    (printed == expected).then_some(expected)
}

fn tell(options: &Options, number: u64, log: &[u8]) {
    let front_of = |records: usize| &log[..log.len().min(4 * records)];
    let (mut same, mut apart) = (0, log.len().div_ceil(4));
    while same + 1 < apart {
        let middle = (same + apart) / 2;
        match agreed(&options.player, front_of(middle)) {
            Some(_) => same = middle,
            None => apart = middle,
        }
    }
    let front = front_of(apart);
    println!("DIFFERENCE: seed {} log {number}, its first {} bytes:", options.seed, front.len());
    let hex: Vec<String> = front.chunks(4).map(|r| r.iter().map(|b| format!("{b:02x}")).collect()).collect();
    println!("{}", hex.join(" "));
    match on_player(&options.player, front) {
        Err(why) => println!("{why}"),
        Ok(out) => {
            let (ours, theirs) = (String::from_utf8_lossy(&out).into_owned(), on_second(front));
            let theirs = String::from_utf8_lossy(&theirs);
            println!("the library's player ends: {:?}", ours.lines().last());
            println!("the second player ends:    {:?}", theirs.lines().last());
        }
    }
    if let Some(path) = &options.keep {
        std::fs::write(path, front).expect("the log can be kept");
    }
}

/// The captures' logs, their answers taken out, as a player wants them.
fn captured_logs(folder: &str) -> Vec<Vec<u8>> {
    let files = std::fs::read_dir(folder).expect("the folder of captures").map(|file| file.unwrap().path());
    let mut names: Vec<_> = files.filter(|path| path.extension().is_some_and(|e| e == "l01")).collect();
    names.sort();
    let mut logs: Vec<Vec<u8>> = names.iter().map(|path| std::fs::read(path).unwrap()).collect();
    for record in logs.iter_mut().flat_map(|log| log.chunks_mut(4)).filter(|record| record[0] == 0) {
        record[3] = 0;
    }
    logs
}

/// The log of a number: first the empty one and document 01's, then random ones.
fn random_log(seed: u64, number: u64) -> Vec<u8> {
    match number {
        0 => Vec::new(),
        1 => unhex(EXAMPLE),
        _ => log(&mut Random::of_session(seed, number)),
    }
}

fn main() -> ExitCode {
    let Some(options) = options() else {
        eprintln!("usage: logs PLAYER [--seed N] [--logs N] [--keep FILE] [--captures FOLDER]");
        return ExitCode::from(2);
    };
    assert_eq!(String::from_utf8(on_second(&unhex(EXAMPLE))).unwrap(), PRINTED);
    let logs: Box<dyn Iterator<Item = Vec<u8>>> = match &options.captures {
        Some(folder) => Box::new(captured_logs(folder).into_iter()),
        None => Box::new((0..options.logs).map(|number| random_log(options.seed, number))),
    };
    let (mut count, mut records, mut bytes) = (0, 0, 0);
    for log in logs {
        let Some(printed) = agreed(&options.player, &log) else {
            tell(&options, count, &log);
            return ExitCode::FAILURE;
        };
        count += 1;
        records += log.len() / 4;
        bytes += printed.len();
    }
    let which = match &options.captures {
        Some(_) => "captures".into(),
        None => format!("seed {}", options.seed),
    };
    println!(
        "{which}: {count} logs of {records} records through both players, {bytes} bytes of output, no difference"
    );
    ExitCode::from(if bytes > 0 { 0 } else { 2 })
}
