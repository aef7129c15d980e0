//! The numbers 8 to 14 of the register, with the order of their tests.

use super::*;

/// The header alone, with some bytes changed.
fn header(changes: &[(usize, u8)]) -> Vec<u8> {
    let mut bytes = register(PLAIN, &[]).0;
    for &(at, byte) in changes {
        bytes[at] = byte;
    }
    bytes
}

const OTHER_MARK: (usize, u8) = (2, b'B');
const OTHER_VERSION: (usize, u8) = (4, 1);
const NO_TRACKS: (usize, u8) = (5, 0);

fn refused_append(mut bytes: Vec<u8>, k: usize, mut station: Station, answer: u8) {
    let (old_bytes, old_station) = (bytes.clone(), station);
    let wrong = spared(0, 1, 2, 3);
    assert_eq!(append(&mut bytes, k, &mut station, wrong), answer);
    assert_eq!((bytes, station), (old_bytes, old_station));
}

#[test]
fn numbers_of_appending_in_order() {
    let own = make(PLAIN).1;
    let other = make(Settings { t4: 1, ..PLAIN }).1;
    let mut outside = own;
    outside.settings.tracks = 0;
    refused_append(header(&[])[..15].to_vec(), 0, outside, 9);
    refused_append(header(&[OTHER_MARK, OTHER_VERSION, NO_TRACKS]), 9000, other, 9);
    refused_append(header(&[OTHER_VERSION, NO_TRACKS]), 9000, other, 10);
    refused_append(header(&[NO_TRACKS]), 9000, own, 8);
    refused_append(header(&[NO_TRACKS]), 9000, outside, 8);
    refused_append(header(&[]), usize::MAX, other, 8);
    refused_append(header(&[]), usize::MAX, outside, 8);
    refused_append(header(&[]), usize::MAX, own, 12);
    refused_append(header(&[]), 0, own, 12);
    refused_append([header(&[]), vec![0; 7]].concat(), 0, own, 12);
    refused_append([header(&[]), vec![0; 65_528]].concat(), 8190, own, 12);
}

#[test]
fn the_last_entry_and_no_other_byte() {
    let mut bytes = [header(&[]), vec![0xEE; 65_521]].concat();
    let mut station = make(PLAIN).1;
    let wrong = spared(9, 1, 2, 0x0302);
    assert_eq!(append(&mut bytes, 8189, &mut station, wrong), 1);
    assert_eq!(bytes[65_528..], [9, 1, 2, 1, 2, 3, 1, 5, 0xEE]);
    assert!(bytes[16..65_528].iter().all(|&byte| byte == 0xEE));
    assert_eq!(bytes[..16], header(&[]));
    assert_eq!(station, make(PLAIN).1);
}

/// Reading, stepping to a row above the count and handing back row 0 are all
/// refused by this number.
fn refused_read(bytes: &[u8], answer: u8) {
    assert_eq!(read(bytes), refused(answer, 0));
    assert_eq!(step(bytes, 9000), refused(answer, 0));
    assert_eq!(entry(bytes, 0), (answer, &[][..]));
}

fn refused(answer: u8, entry: usize) -> Reading {
    let station = make(REFUSED).1;
    Reading { answer, entry, count: 0, station }
}

#[test]
fn numbers_of_reading_in_order() {
    let mut bytes = [header(&[OTHER_MARK, OTHER_VERSION, NO_TRACKS]), vec![0; 65_529]].concat();
    refused_read(&bytes, 9);
    bytes[2] = b'A';
    refused_read(&bytes, 10);
    bytes[4] = 0;
    refused_read(&bytes, 11);
    bytes.pop();
    refused_read(&bytes, 12);
    bytes.truncate(65_536);
    refused_read(&bytes, 8);
    refused_read(&bytes[..16], 8);
    refused_read(&bytes[..15], 9);
    bytes[5] = 2;
    assert_eq!(read(&bytes), refused(13, 1));
    assert_eq!(step(&bytes, 8191), refused(14, 0));
    assert_eq!(step(&bytes, 8190), refused(13, 1));
}

#[test]
fn reading_gives_the_rows_back() {
    let (bytes, station) = register(PLAIN, &worked());
    assert_eq!(bytes[..16], *b"CEA\x01\0\x02\x2C\x01\x2C\x01\x2C\x01\0\0\x58\x02");
    assert_eq!(read(&bytes), Reading { answer: 0, entry: 0, count: 5, station });
    for row in 0..=5 {
        let station = register(PLAIN, &worked()[..row]).1;
        assert_eq!(step(&bytes, row), Reading { answer: 0, entry: 0, count: row, station });
    }
    for row in 1..=5 {
        assert_eq!(entry(&bytes, row), (0, &bytes[8 + 8 * row..16 + 8 * row]));
    }
}

#[test]
fn stepping_and_handing_back_a_spoilt_register() {
    let mut bytes = register(PLAIN, &worked()).0;
    bytes[16 + 8 * 2 + 6] = 1;
    bytes[16 + 8 * 3 + 7] = 9;
    for row in [6, 7, usize::MAX] {
        assert_eq!(step(&bytes, row), refused(14, 0));
        assert_eq!(entry(&bytes, row), (14, &[][..]));
    }
    assert_eq!(entry(&bytes, 0), (14, &[][..]));
    assert_eq!((step(&bytes, 2).answer, step(&bytes, 2).count), (0, 2));
    for reading in [step(&bytes, 3), step(&bytes, 5), read(&bytes)] {
        assert_eq!(reading, refused(13, 3));
    }
    // Handed back as it stands, not replayed.
    assert_eq!(entry(&bytes, 3), (0, &bytes[32..40]));
}
