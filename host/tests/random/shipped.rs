//! The archive as it is shipped, for x86-64: a program in C, linked by the kit, that answers calls of it. What it answers is held to
//! the paper.

use crate::paper::{Reading, Report, Settings, Station};
use crate::values::same_bytes;
use std::fmt;
use std::io::{self, Read, Write};
use std::path::{Path, PathBuf};
use std::process::{Child, Command, Stdio};

/// Whether it runs here.
pub const IS_HERE: bool = cfg!(target_arch = "x86_64");

/// The letters of `tests/c/shipped.c`.
pub const START: u8 = b's';
pub const APPEND: u8 = b'a';
pub const READ: u8 = b'r';
pub const STEP: u8 = b'n';
pub const ENTRY: u8 = b'e';
pub const BROWSE: u8 = b'm';
pub const FORWARD: u8 = b'f';
pub const BACK: u8 = b'b';
pub const PRINT: u8 = b'p';
pub const RECORD: u8 = b't';
pub const SITE: u8 = b'd';

/// A call or an answer as the program has it, field after field and numbers low byte first.
#[derive(Default)]
pub struct Fields(Vec<u8>);

impl Fields {
    /// A call: its letter, a row, an entry or a speed, and the register or the text.
    pub fn call(letter: u8, row: usize, register: &[u8]) -> Fields {
        Fields(vec![letter]).number(row).number(register.len()).bytes(register)
    }

    pub fn bytes(mut self, bytes: &[u8]) -> Fields {
        self.0.extend(bytes);
        self
    }

    pub fn byte(self, byte: u8) -> Fields {
        self.bytes(&[byte])
    }

    pub fn pairs<const COUNT: usize>(self, pairs: [u16; COUNT]) -> Fields {
        pairs.into_iter().fold(self, |fields, pair| fields.bytes(&pair.to_le_bytes()))
    }

    pub fn number(self, number: usize) -> Fields {
        self.bytes(&(number as u64).to_le_bytes())
    }

    pub fn settings(self, settings: Settings) -> Fields {
        let Settings { tracks, t1, t2, t3, t4, t5 } = settings;
        self.byte(tracks).pairs([t1, t2, t3, t4, t5])
    }

    pub fn report(self, report: Report) -> Fields {
        let Report { kind, a, b, spare, value } = report;
        self.bytes(&[kind, a, b, spare]).pairs([value])
    }

    pub fn station(self, station: &Station) -> Fields {
        let islands = station.tracks.iter().flatten();
        let fields = islands.fold(self.settings(station.settings), |fields, island| {
            fields.bytes(&[island.occupied, island.leaving, island.failed].map(u8::from)).pairs([island.age])
        });
        fields.pairs([station.hold]).byte(u8::from(station.fault)).pairs(station.conditions)
    }

    /// What a station shows.
    pub fn shown(self, station: &Station) -> Fields {
        let fields = self.byte(station.aspect()).pairs(station.heads()).bytes(&station.zones());
        fields.bytes(&station.presence().map(u8::from))
    }

    pub fn reading(self, reading: &Reading) -> Fields {
        self.byte(reading.answer).number(reading.entry).number(reading.count).station(&reading.station)
    }
}

/// The program at work.
pub struct Shipped(Child);

fn tool(name: &str) -> PathBuf {
    Path::new(env!("CARGO_MANIFEST_DIR")).join("../tools").join(name)
}

/// Links the program with the archive that is there now.
pub fn link() {
    let program = Path::new(env!("CARGO_MANIFEST_DIR")).join("tests/c/shipped.c");
    let output = Command::new(tool("c-program")).arg(program).output().expect("tools/c-program can be run");
    assert!(output.status.success(), "tools/c-program fails:\n{}", String::from_utf8_lossy(&output.stderr));
}

impl Shipped {
    pub fn start() -> Shipped {
        let mut command = Command::new(tool("run"));
        Shipped(command.arg("shipped").stdin(Stdio::piped()).stdout(Stdio::piped()).spawn().expect("tools/run can be run"))
    }

    /// Answers a call as the paper does.
    pub fn answers(&mut self, what: fmt::Arguments, call: &Fields, expected: &Fields) -> Result<(), String> {
        match self.answer(&call.0) {
            Ok(given) => same_bytes(format_args!("{what}, in the shipped code's answer"), &given, &expected.0),
            Err(error) => {
                // Shorter cases are tried after this one.
                *self = Shipped::start();
                Err(format!("{what}: the shipped code does not answer: {error}"))
            }
        }
    }

    fn answer(&mut self, call: &[u8]) -> io::Result<Vec<u8>> {
        let (Some(input), Some(output)) = (&mut self.0.stdin, &mut self.0.stdout) else {
            return Err(io::ErrorKind::BrokenPipe.into());
        };
        input.write_all(&Fields::default().number(call.len()).bytes(call).0)?;
        let mut length = [0; 8];
        output.read_exact(&mut length)?;
        let mut given = vec![0; u64::from_le_bytes(length) as usize];
        output.read_exact(&mut given)?;
        Ok(given)
    }
}

/// Without more calls the program ends.
impl Drop for Shipped {
    fn drop(&mut self) {
        self.0.stdin = None;
        let _ = self.0.wait();
    }
}
