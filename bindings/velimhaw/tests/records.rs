//! Tests the records taken off whole, truncated and malformed bytes of a log.
mod w;

use velimhaw::{Record, Records, Refusal};

/// How many records are taken off, and how many bytes are left then.
fn taken(bytes: &[u8]) -> (usize, usize) {
    let mut records = Records::new(bytes);
    (records.by_ref().count(), records.rest().len())
}

fn only(bytes: [u8; 8]) -> Option<Record> {
    Records::new(&bytes).next()
}

#[test]
fn records_of_w() {
    let expected = [
        Record::Communication { channel: 0, name: 1, sender: 0, receiver: 1 },
        Record::EnvironmentName { name: 2 },
        Record::Input { channel: 1, name: 2, component: 1 },
    ];
    assert_eq!(Records::new(&w::LOG).collect::<Vec<_>>(), expected);
    assert_eq!(taken(&w::LOG), (3, 0));
}

#[test]
fn the_other_labels() {
    assert_eq!(only([0, 3, 1, 2, 255, 3, 31, 255]), Some(Record::Output { channel: 513, name: 1023, component: 31 }));
    assert_eq!(only([0, 4, 0, 0, 1, 0, 2, 255]), Some(Record::Extrusion { channel: 0, name: 1, component: 2 }));
    assert_eq!(only([0, 6, 255, 255, 255, 255, 3, 255]), Some(Record::Unfolding { component: 3 }));
}

#[test]
fn refused_moves() {
    for number in 0..=255 {
        let refused = (30..=35).contains(&number).then(|| Record::Refused(Refusal::new(number.into())));
        assert_eq!(only([number, 0, 0, 0, 0, 0, 0, 0]), refused);
    }
}

#[test]
fn truncated_anywhere() {
    for length in 0..=w::LOG.len() {
        assert_eq!(taken(&w::LOG[..length]), (length / 8, length % 8));
    }
}

#[test]
fn malformed() {
    let malformed = [
        [30, 0, 0, 0, 0, 0, 0, 1],
        [0, 0, 0, 0, 0, 0, 0, 0],
        [0, 7, 0, 0, 0, 0, 0, 255],
        [0, 1, 0, 0, 1, 0, 0, 255],
        [0, 2, 0, 0, 1, 0, 0, 0],
        [0, 3, 0, 0, 1, 0, 32, 255],
        [0, 4, 0, 4, 1, 0, 0, 255],
        [0, 5, 0, 0, 1, 0, 255, 255],
        [0, 5, 255, 255, 255, 255, 255, 255],
        [0, 6, 255, 255, 0, 0, 0, 255],
    ];
    for bytes in malformed {
        assert_eq!(taken(&bytes), (0, 8), "{bytes:?}");
    }
}

#[test]
fn ends_at_malformed_bytes_and_keeps_them() {
    let mut bytes = w::LOG;
    bytes[9] = 9;
    assert_eq!(taken(&bytes), (1, 16));
}

#[test]
fn shown_in_words() {
    let lines: Vec<String> = Records::new(&w::LOG).map(|record| record.to_string()).collect();
    let expected = [
        "communication of name 1 on channel 0 at component 0 to component 1",
        "name 2 made by the environment",
        "input of name 2 on channel 1 at component 1",
    ];
    assert_eq!(lines, expected);
}
