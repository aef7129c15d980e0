//! Trains that make sense: they come over one side, cross, and leave over the other; they stop, and some turn back.

use crate::chance::Chance;
use degvuurel::{IslandNumber, Report, TrackNumber};

/// A train has entered the first `front` islands of its way and left the first `rear` of them.
#[derive(Clone, Copy)]
struct Train {
    track: u8,
    from_side_2: bool,
    length: usize,
    front: usize,
    rear: usize,
}

const WAY: usize = 5;

impl Train {
    fn by_chance(chance: &mut Chance, tracks: &[u8]) -> Train {
        let track = chance.pick(tracks);
        Train { track, from_side_2: chance.one_in(2), length: chance.pick(&[1, 2, 2, 3]), front: 0, rear: 0 }
    }

    fn island(&self, place: usize) -> u8 {
        let island = if self.from_side_2 { WAY - 1 - place } else { place };
        island as u8
    }

    fn gone(&self) -> bool {
        self.rear == WAY
    }

    /// It goes back the way it came, over the islands that it stands on.
    fn turn(&mut self) {
        self.from_side_2 = !self.from_side_2;
        (self.front, self.rear) = (WAY - self.rear, WAY - self.front);
    }
}

/// The trains about, and which islands reports say are occupied or failed.
pub struct Yard {
    tracks: Vec<u8>,
    trains: Vec<Train>,
    most_trains: usize,
    occupied: [[bool; 5]; 4],
    failed: [[bool; 5]; 4],
}

impl Yard {
    /// Some tracks have trains and the others none, so that a rule that looks at the first track alone shows.
    pub fn by_chance(chance: &mut Chance, tracks: u8) -> Yard {
        let mut busy: Vec<u8> = (0..tracks).filter(|_| !chance.one_in(3)).collect();
        if busy.is_empty() {
            busy.push(chance.below(usize::from(tracks)) as u8);
        }
        let most_trains = 1 + chance.below(4);
        Yard { tracks: busy, trains: Vec::new(), most_trains, occupied: [[false; 5]; 4], failed: [[false; 5]; 4] }
    }

    /// A train is first seen on one of its first three islands, as when its detectors before have failed to see it.
    pub fn arrives(&mut self, chance: &mut Chance) -> Report {
        let mut train = Train::by_chance(chance, &self.tracks);
        train.rear = chance.below(3);
        train.front = train.rear + 1;
        self.trains.push(train);
        Report::occupied(TrackNumber(train.track), IslandNumber(train.island(train.rear)))
    }

    /// What is known of the islands after a report is handed in.
    pub fn note(&mut self, report: Report) {
        let (track, island) = (usize::from(report.a), usize::from(report.b));
        if track >= self.occupied.len() || island >= WAY {
            return;
        }
        match report.kind {
            1 => self.occupied[track][island] = true,
            2 => self.occupied[track][island] = false,
            4 => self.failed[track][island] = true,
            5 => self.failed[track][island] = false,
            _ => {}
        }
    }

    /// The next move of some train. Where it has to wait for the train before it, there may be none.
    pub fn moves(&mut self, chance: &mut Chance) -> Option<Report> {
        self.trains.retain(|train| !train.gone());
        if self.trains.is_empty() || self.trains.len() < self.most_trains && chance.one_in(3) {
            self.trains.push(Train::by_chance(chance, &self.tracks));
        }
        let chosen = chance.below(self.trains.len());
        let occupied = self.occupied;
        let train = &mut self.trains[chosen];
        if chance.one_in(25) && train.front > train.rear {
            train.turn();
        }
        let longest = train.front - train.rear >= train.length;
        let enters = train.front < WAY && (train.rear == train.front || !longest && chance.one_in(2));
        if !enters {
            train.rear += 1;
            return Some(Report::free(TrackNumber(train.track), IslandNumber(train.island(train.rear - 1))));
        }
        let island = train.island(train.front);
        if occupied[usize::from(train.track)][usize::from(island)] && !chance.one_in(6) {
            return None;
        }
        train.front += 1;
        Some(Report::occupied(TrackNumber(train.track), IslandNumber(island)))
    }

    /// The detector of an island fails, or one that failed is restored.
    pub fn detector(&mut self, chance: &mut Chance) -> Report {
        let track = chance.pick(&self.tracks);
        let island = chance.below(WAY) as u8;
        if self.failed[usize::from(track)][usize::from(island)] {
            Report::restored(TrackNumber(track), IslandNumber(island))
        } else {
            Report::failed(TrackNumber(track), IslandNumber(island))
        }
    }

    /// Every island becomes free and every detector whole, and the station is normalised. One report may be left out: then it
    /// is refused by 7.
    pub fn cleared(&mut self, chance: &mut Chance) -> Vec<Report> {
        let mut reports = Vec::new();
        for track in 0..4 {
            for island in 0..WAY {
                let named = (track as u8, island as u8);
                if self.occupied[track][island] {
                    reports.push(Report::free(TrackNumber(named.0), IslandNumber(named.1)));
                }
                if self.failed[track][island] {
                    reports.push(Report::restored(TrackNumber(named.0), IslandNumber(named.1)));
                }
            }
        }
        if !reports.is_empty() && chance.one_in(5) {
            reports.remove(chance.below(reports.len()));
        }
        self.trains.clear();
        reports.push(Report::normalise());
        reports
    }
}
