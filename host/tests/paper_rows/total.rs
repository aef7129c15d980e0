//! Any station, report, register and number: nothing panics.

use super::*;

/// A small xorshift.
struct Chance(u64);

impl Chance {
    fn next(&mut self) -> u64 {
        self.0 ^= self.0 << 13;
        self.0 ^= self.0 >> 7;
        self.0 ^= self.0 << 17;
        self.0 >> 8
    }

    fn below(&mut self, limit: u64) -> u64 {
        self.next() % limit
    }

    /// A small number, any number or one near the top.
    fn number(&mut self) -> u16 {
        match self.below(4) {
            0 => self.next() as u16,
            1 => 65535 - self.below(3) as u16,
            _ => self.below(6) as u16,
        }
    }

    fn byte(&mut self) -> u8 {
        if self.below(8) == 0 {
            self.next() as u8
        } else {
            self.below(6) as u8
        }
    }

    fn settings(&mut self) -> Settings {
        let [t1, t2, t3, t4, t5] = [(); 5].map(|()| self.number());
        Settings { tracks: self.byte(), t1, t2, t3, t4, t5 }
    }

    fn station(&mut self, settings: Settings) -> Station {
        let tracks = [[(); 5]; 4].map(|row| {
            row.map(|()| Island {
                occupied: self.below(2) == 0,
                leaving: self.below(2) == 0,
                failed: self.below(4) == 0,
                age: self.number(),
            })
        });
        let conditions = [self.next() as u16, self.number()];
        Station { settings, tracks, hold: self.number(), fault: self.below(4) == 0, conditions }
    }

    /// Mostly a report that is taken; the clock is kept short but for a few.
    fn report(&mut self) -> Report {
        let kind = if self.below(30) == 0 { self.byte() } else { 1 + self.below(7) as u8 };
        let value = match kind {
            3 if self.below(500) == 0 => self.number(),
            3 => self.below(8) as u16,
            6 => self.below(1030) as u16,
            _ => u16::from(self.below(30) == 0),
        };
        let places = if matches!(kind, 3 | 7) { 1 } else { 6 };
        let b = if kind == 6 { 0 } else { self.below(places) as u8 };
        Report { kind, a: self.below(places) as u8, b, spare: u8::from(self.below(40) == 0), value }
    }
}

#[test]
fn any_station_and_report() {
    let mut chance = Chance(0x9E37_79B9_7F4A_7C15);
    let mut answers = [0_u32; 9];
    for _ in 0..20_000 {
        let settings = chance.settings();
        let mut station = chance.station(settings);
        let n = usize::from(settings.tracks).min(4);
        for _ in 0..4 {
            let (old, report) = (station, chance.report());
            let answer = station.take(report);
            assert_eq!(answer, old.answer(report));
            assert!(answer == 0 || station == old);
            assert_eq!(station.tracks[n..], old.tracks[n..]);
            answers[usize::from(answer)] += 1;
            let shown = outputs(station.aspect());
            assert_eq!(station.heads(), station.conditions.map(|condition| head(shown, condition)));
            let valid = settings_answer(settings) == 0;
            assert_eq!(valid, answer != 8);
            assert!(valid || (station.aspect(), station.zones(), station.presence()) == (5, [0; 5], [true; 4]));
            assert!(!valid || station.presence()[n..].iter().all(|&present| !present));
        }
    }
    assert!(answers.iter().all(|&times| times > 0), "{answers:?}");
}

/// A register of some chance reports, and its stations from row 0 on.
fn chance_register(chance: &mut Chance, tracks: u8) -> (Vec<u8>, Vec<Station>) {
    let settings = Settings { tracks, t1: 3, t2: 4, t3: 2, t4: 3, t5: 9 };
    let count = chance.below(60) as usize;
    let mut bytes = vec![0xEE; 16 + 8 * count];
    let mut station = make(settings).1;
    let mut stations = vec![station];
    assert_eq!(start(&mut bytes, settings), 0);
    for k in 0..count {
        assert!(append(&mut bytes, k, &mut station, chance.report()) <= 7);
        stations.push(station);
    }
    (bytes, stations)
}

#[test]
fn any_register() {
    let mut chance = Chance(0xD1B5_4A32_D192_ED03);
    for round in 0..240 {
        let (mut bytes, stations) = chance_register(&mut chance, 1 + round % 4);
        for (row, &station) in stations.iter().enumerate() {
            let reading = Reading { answer: 0, entry: 0, count: row, station };
            assert_eq!(step(&bytes, row), reading);
            assert_eq!(read(&bytes[..16 + 8 * row]), reading);
        }
        let lines = print(&bytes).iter().filter(|&&byte| byte == b'\n').count();
        assert_eq!(lines, stations.len());
        for _ in 0..20 {
            spoil(&mut chance, &mut bytes, stations[0]);
        }
    }
}

/// Changes a byte or cuts the end: whatever is answered, nothing panics.
fn spoil(chance: &mut Chance, bytes: &mut Vec<u8>, mut station: Station) {
    let at = chance.below(bytes.len() as u64) as usize;
    // The value of a clock report is left short, for the sake of time.
    bytes[at] = if at % 8 == 5 { 0 } else { chance.byte() };
    if chance.below(20) == 0 {
        bytes.truncate((bytes.len() - chance.below(9) as usize).max(1));
    }
    let reading = read(bytes);
    assert_eq!(reading.entry != 0, reading.answer == 13);
    assert!(reading.answer == 0 || reading.count == 0);
    let row = match chance.below(3) {
        0 => chance.below(60) as usize,
        1 => chance.next() as usize,
        _ => usize::MAX,
    };
    let (handed, stepped) = (entry(bytes, row), step(bytes, row));
    assert_eq!(handed.1.len(), if handed.0 == 0 { 8 } else { 0 });
    assert!(row == 0 || stepped.answer == handed.0 || stepped.answer == 13);
    append(bytes, row, &mut station, chance.report());
    assert!(print(bytes).ends_with(b"\n"));
}

#[test]
fn any_numbers_and_bytes() {
    for number in 0..=u16::MAX {
        for other in [0, 1, 4, 60, 61, 350, 351, 65535] {
            advance(number, other);
            advance(other, number);
            warning(number, other as u8);
            assert!(head(number, other) <= 511 && head(other, number) <= 511);
        }
    }
    let mut chance = Chance(7);
    for length in 0..200 {
        let bytes: Vec<u8> = (0..length).map(|_| chance.byte()).collect();
        assert_eq!(read(&bytes).answer, 9);
        assert_eq!((step(&bytes, length).answer, entry(&bytes, length).0), (9, 9));
        assert_eq!(print(&bytes), b"refused 9\n");
    }
}
