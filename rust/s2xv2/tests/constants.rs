//! The constants are those by which the library answers.
use s2xv2::{read_slot, Job, Refusal, S2Xv2SatelliteDeliverySystem as Record, Slot};

#[test]
fn values() {
    assert_eq!((Slot::MIN_SIZE, Slot::MAX_SIZE, Record::MAX_LEN, Job::SIZE), (21, 257, 4096, 288));
    assert_eq!((Record::TAG, Record::TAG_EXTENSION, Slot::STUFFING_TAG), (0x7F, 0x24, 0x42));
    assert_eq!(Record::NAME, "S2XV2_SATELLITE_DELIVERY_SYSTEM");
}

#[test]
fn one_version() {
    let parts: Vec<u32> = s2xv2::VERSION.split('.').map(|part| part.parse().unwrap()).collect();
    let number = parts[0] * 65536 + parts[1] * 256 + parts[2];
    assert_eq!((parts.len(), number), (3, s2xv2::VERSION_NUMBER));
    assert_eq!(s2xv2::linked_version(), s2xv2::VERSION_NUMBER);
}

#[test]
fn sizes_of_a_slot() {
    for n in 0..=2 * Slot::MAX_SIZE {
        let mut bytes = vec![7; n];
        let told = Slot::new(&mut bytes).make_empty();
        assert_eq!(told.is_ok(), (Slot::MIN_SIZE..=Slot::MAX_SIZE).contains(&n));
        assert_eq!(read_slot(&bytes), told.map(|()| None));
    }
}

#[test]
fn the_most_bytes_of_a_body() {
    let bytes = [0; Record::MAX_LEN + 1];
    let longest = Record::parse(&bytes[1..]).unwrap();
    assert_eq!(longest.serialized_len(), Ok(Record::MAX_LEN));
    assert_eq!(longest.serialize_into(&mut [0; Record::MAX_LEN]), Ok(Record::MAX_LEN));
    assert_eq!(Record::parse(&bytes), Err(Refusal::Long { length: 4097 }));
}

#[test]
fn tags_as_they_are_stored() {
    let mut bytes = [7; Slot::MIN_SIZE + 2];
    let mut slot = Slot::new(&mut bytes);
    slot.make_empty().unwrap();
    assert_eq!(slot.bytes()[0], Slot::STUFFING_TAG);
    let job = Job::begin(&slot, &Record::default()).unwrap();
    let _ = job.step(&mut slot, usize::MAX);
    assert_eq!(slot.bytes()[..3], [Record::TAG, 19, Record::TAG_EXTENSION]);
    assert_eq!(slot.bytes()[Slot::MIN_SIZE..], [Slot::STUFFING_TAG, 0]);
}
