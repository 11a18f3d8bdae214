//! Bodies of every shape, each field by its name: what is read, as the typed record and as the raw one, and what is written from either;
//! and what is told of each where it is cut. Any two fields that stand next to each other in a struct of the boundary differ in one of the
//! shapes.
use s2xv2::places::short;
use s2xv2::{read_slot, Job, Polarization, Progress, RawRecord, Refusal, RollOff, S2Xv2Mode, S2Xv2SatelliteDeliverySystem as Record};
use s2xv2::{S2Xv2Superframe, Slot};

/// What a body's first bytes say, and what its block says.
#[derive(Debug, Clone, Copy)]
struct Shape {
    mode: u8,
    stream: bool,
    selector: bool,
    reference: bool,
    version: bool,
    bond: u8,
    second: bool,
    sffi: bool,
    plan: bool,
}

impl Shape {
    fn all() -> impl Iterator<Item = Self> {
        (0..8192u32).map(|k| {
            let bit = |at: u32| k >> at & 1 == 1;
            Self {
                mode: (k % 16) as u8,
                stream: bit(4),
                selector: bit(5),
                reference: bit(6),
                version: bit(7),
                bond: (k >> 8 & 3) as u8,
                second: bit(10),
                sffi: bit(11),
                plan: bit(12),
            }
        })
    }

    fn has_selector(self) -> bool {
        [1, 2].contains(&self.mode)
    }

    /// The record, field by field: no field that the body holds is 0 but flags, codes and the bond.
    fn record(self) -> Record<'static> {
        let index = self.has_selector() && self.selector;
        let mut r = Record::default();
        r.delivery_system_id = 0x0102_0304;
        r.s2xv2_mode = S2Xv2Mode::from_u8(self.mode);
        r.multiple_input_stream_flag = self.stream;
        r.roll_off = RollOff::Reserved(5);
        r.reserved_zero_future_use_2 = 2;
        r.ncr_reference = self.reference;
        r.ncr_version = self.version;
        r.channel_bond = self.bond;
        r.polarization = Polarization::CircularLeft;
        r.scrambling_sequence_selector = self.has_selector().then_some(self.selector);
        r.reserved_zero_future_use_1 = (!self.has_selector() && self.selector).into();
        r.ts_gs_s2x_mode = 3;
        r.receiver_profiles = 0x15;
        r.satellite_id = 0x05_0607;
        r.frequency = 0x0809_0A0B;
        r.symbol_rate = 0x0C0D_0E0F;
        r.input_stream_identifier = self.stream.then_some(0x10);
        r.reserved_zero_future_use_6 = if index { 0x2A } else { 0 };
        r.scrambling_sequence_index = index.then_some(0x2_1122);
        r.timeslice_number = [2, 5].contains(&self.mode).then_some(0x13);
        if self.bond == 1 {
            r.reserved_zero_future_use_7 = 0x55;
            r.secondary_delivery_system_ids = vec![0x1415_1617, 0x1819_1A1B];
            r.secondary_delivery_system_ids.truncate(1 + usize::from(self.second));
        }
        r.superframe = [4, 5].contains(&self.mode).then(|| self.superframe());
        r
    }

    fn superframe(self) -> S2Xv2Superframe {
        let mut s = S2Xv2Superframe::default();
        s.sosf_wh_sequence_number = 0x1C;
        s.sffi_selector = self.sffi;
        s.beam_hopping_time_plan_selector = self.plan;
        s.reserved_zero_future_use_2 = 1;
        s.reference_scrambling_index = 0xD_1E1F;
        s.sffi = self.sffi.then_some(9);
        s.reserved_zero_future_use_4 = if self.sffi { 0 } else { 11 };
        s.payload_scrambling_index = 0x6_2021;
        s.beamhopping_time_plan_id = self.plan.then_some(0x2223_2425);
        s.superframe_pilots_wh_sequence_number = 0x17;
        s.postamble_pli = 6;
        s
    }

    /// The body, from the standard's tables.
    fn body(self) -> Vec<u8> {
        let [stream, selector, reference, version, second, sffi, plan] = [
            self.stream,
            self.selector,
            self.reference,
            self.version,
            self.second,
            self.sffi,
            self.plan,
        ]
        .map(u8::from);
        let mut body = vec![1, 2, 3, 4];
        body.push(self.mode << 4 | stream << 3 | 5);
        body.push(2 << 6 | reference << 5 | version << 4 | self.bond << 2 | 2);
        body.push(selector << 7 | 3 << 5 | 0x15);
        body.extend(5..=0x0F);
        body.extend([0x10].iter().take(stream.into()));
        if self.has_selector() && self.selector {
            body.extend([0x2A << 2 | 2, 0x11, 0x22]);
        }
        if [2, 5].contains(&self.mode) {
            body.push(0x13);
        }
        if self.bond == 1 {
            body.push(0x55 << 1 | second);
            body.extend(0x14..=if self.second { 0x1B } else { 0x17 });
        }
        if [4, 5].contains(&self.mode) {
            body.extend([0x1C, sffi << 7 | plan << 6 | 1 << 4 | 0xD, 0x1E, 0x1F]);
            body.extend([if self.sffi { 9 << 4 } else { 11 << 4 } | 6, 0x20, 0x21]);
            body.extend([0x22, 0x23, 0x24, 0x25].iter().take(4 * usize::from(plan)));
            body.push(0x17 << 3 | 6);
        }
        body
    }
}

/// That every accessor of a raw record gives what the typed record has.
fn assert_same(raw: &RawRecord, r: &Record<'_>) {
    assert_eq!(raw.delivery_system_id(), r.delivery_system_id);
    assert_eq!(raw.s2xv2_mode(), r.s2xv2_mode);
    assert_eq!(raw.multiple_input_stream_flag(), r.multiple_input_stream_flag);
    assert_eq!(raw.roll_off(), r.roll_off);
    assert_eq!(raw.reserved_zero_future_use_2(), r.reserved_zero_future_use_2);
    assert_eq!(raw.ncr_reference(), r.ncr_reference);
    assert_eq!(raw.ncr_version(), r.ncr_version);
    assert_eq!(raw.channel_bond(), r.channel_bond);
    assert_eq!(raw.polarization(), r.polarization);
    assert_eq!(raw.scrambling_sequence_selector(), r.scrambling_sequence_selector);
    assert_eq!(raw.reserved_zero_future_use_1(), r.reserved_zero_future_use_1);
    assert_eq!(raw.ts_gs_s2x_mode(), r.ts_gs_s2x_mode);
    assert_eq!(raw.receiver_profiles(), r.receiver_profiles);
    assert_eq!(raw.satellite_id(), r.satellite_id);
    assert_eq!(raw.frequency(), r.frequency);
    assert_eq!(raw.symbol_rate(), r.symbol_rate);
    assert_eq!(raw.input_stream_identifier(), r.input_stream_identifier);
    assert_eq!(raw.reserved_zero_future_use_6(), r.reserved_zero_future_use_6);
    assert_eq!(raw.scrambling_sequence_index(), r.scrambling_sequence_index);
    assert_eq!(raw.timeslice_number(), r.timeslice_number);
    assert_eq!(raw.reserved_zero_future_use_7(), r.reserved_zero_future_use_7);
    assert_eq!(raw.secondary_delivery_system_ids(), r.secondary_delivery_system_ids);
    assert_eq!(usize::from(raw.num_channel_bonds()), r.secondary_delivery_system_ids.len());
    assert_eq!(raw.superframe(), r.superframe);
}

/// A raw record by its setters, over one that holds all else.
fn by_setters(r: &Record<'_>, over: &RawRecord) -> RawRecord {
    let mut raw = *over;
    raw.set_delivery_system_id(r.delivery_system_id);
    raw.set_s2xv2_mode(r.s2xv2_mode);
    raw.set_multiple_input_stream_flag(r.multiple_input_stream_flag);
    raw.set_roll_off(r.roll_off);
    raw.set_reserved_zero_future_use_2(r.reserved_zero_future_use_2);
    raw.set_ncr_reference(r.ncr_reference);
    raw.set_ncr_version(r.ncr_version);
    raw.set_channel_bond(r.channel_bond);
    raw.set_polarization(r.polarization);
    raw.set_scrambling_sequence_selector(r.scrambling_sequence_selector);
    raw.set_reserved_zero_future_use_1(r.reserved_zero_future_use_1);
    raw.set_ts_gs_s2x_mode(r.ts_gs_s2x_mode);
    raw.set_receiver_profiles(r.receiver_profiles);
    raw.set_satellite_id(r.satellite_id);
    raw.set_frequency(r.frequency);
    raw.set_symbol_rate(r.symbol_rate);
    raw.set_input_stream_identifier(r.input_stream_identifier);
    raw.set_reserved_zero_future_use_6(r.reserved_zero_future_use_6);
    raw.set_scrambling_sequence_index(r.scrambling_sequence_index);
    raw.set_timeslice_number(r.timeslice_number);
    raw.set_reserved_zero_future_use_7(r.reserved_zero_future_use_7);
    raw.set_secondary_delivery_system_ids(&r.secondary_delivery_system_ids).unwrap();
    raw.set_superframe(r.superframe.as_ref());
    raw
}

/// A raw record in which nothing is 0: all parts of two bodies, one over the other.
fn filled() -> RawRecord {
    let mut shapes =
        Shape::all().filter(|s| s.stream && s.selector && s.reference && s.version && s.bond == 1 && s.second && s.sffi && s.plan);
    let mut of = |mode: u8| shapes.find(|s| s.mode == mode).unwrap().record();
    let (two, five) = (of(2), of(5));
    let mut raw = by_setters(&two, &RawRecord::default());
    raw.set_superframe(five.superframe.as_ref());
    raw
}

#[test]
fn every_shape_is_read_by_its_names() {
    let mut again = filled();
    for shape in Shape::all() {
        let (body, record) = (shape.body(), shape.record());
        assert_eq!(Record::parse(&body).as_ref(), Ok(&record), "{shape:?}");
        let (raw, tail) = RawRecord::parse(&body).unwrap();
        assert_eq!(tail, []);
        assert_same(&raw, &record);
        assert_eq!(again.parse_into(&body), Ok(body.len()));
        assert_eq!(again, raw);
    }
}

#[test]
fn every_shape_is_written_from_its_names() {
    let filled = filled();
    for shape in Shape::all() {
        let (body, record) = (shape.body(), shape.record());
        let mut buffer = [0xA5; 64];
        assert_eq!(record.serialized_len(), Ok(body.len()));
        assert_eq!(record.serialize_into(&mut buffer), Ok(body.len()));
        assert_eq!(&buffer[..body.len()], body, "{shape:?}");
        let converted = RawRecord::try_from(&record).unwrap();
        for raw in [converted, by_setters(&record, &RawRecord::default()), by_setters(&record, &filled)] {
            assert_same(&raw, &record);
            let mut buffer = [0xA5; 64];
            assert_eq!(raw.serialized_len(&[]), Ok(body.len()));
            assert_eq!(raw.serialize_into(&[], &mut buffer), Ok(body.len()));
            assert_eq!(&buffer[..body.len()], body, "{shape:?}");
        }
        assert_eq!(converted, RawRecord::parse(&body).unwrap().0);
    }
}

#[test]
fn every_shape_is_stored_in_a_slot() {
    let mut again = filled();
    for shape in Shape::all() {
        let mut record = shape.record();
        record.reserved_tail = &[0xFE, 0xFF];
        let raw = RawRecord::try_from(&record).unwrap();
        let mut bytes = [7; 64];
        let mut slot = Slot::new(&mut bytes);
        slot.make_empty().unwrap();
        let mut job = raw.begin(&slot, record.reserved_tail).unwrap();
        assert_eq!(Job::begin(&slot, &record).as_ref(), Ok(&job));
        let size = shape.body().len() + 5;
        assert_eq!((job.slot_size(), job.descriptor_size(), job.stores_made()), (64, size, 0));
        assert_eq!(job.advance(&mut slot, 10), Ok(Progress { stores: 10, done: false }));
        let (job, told) = job.step(&mut slot, 100);
        assert_eq!(told, Ok(Progress { stores: 56, done: true }));
        assert_eq!((job.slot_size(), job.descriptor_size(), job.stores_made()), (64, size, 66));
        assert_eq!(bytes[3..size - 2], shape.body());
        assert_eq!(read_slot(&bytes), Ok(Some(record)));
        assert_eq!(again.read_slot(&bytes), Ok(Some(&[0xFE, 0xFF][..])));
        assert_eq!(again, raw);
    }
}

/// Where the tail starts of a body with zeros behind it, up to a length.
fn with_zeros(body: &[u8], length: usize) -> Result<usize, Refusal> {
    let mut bytes = body.to_vec();
    bytes.resize(length, 0);
    RawRecord::default().parse_into(&bytes)
}

/// A body that has its core is made whole by zeros up to the least total, but where it ends inside the first eight bytes of a block whose
/// selector is there and asks for a plan id. A core that is cut may ask for more as soon as it is there.
#[test]
fn every_shape_cut_anywhere() {
    for shape in Shape::all() {
        let mut bytes = shape.body();
        let size = bytes.len();
        bytes.resize(45, 0xFF);
        for cut in 0..=45 {
            let body = &bytes[..cut];
            let read = RawRecord::parse(body);
            assert_eq!(Record::parse(body).err(), read.err(), "{shape:?}, {cut} bytes");
            let Err(refusal) = read else {
                assert!(cut >= size, "{shape:?}, {cut} bytes");
                continue;
            };
            let Refusal::Short { place, need, have, least } = refusal else {
                panic!("{shape:?}, {cut} bytes: {refusal}");
            };
            assert!(have == cut && cut < need && need <= least && least <= size, "{shape:?}: {refusal}");
            let asks_for_a_plan_id = place == short::SUPERFRAME && shape.plan && cut >= least - 6;
            let padded = with_zeros(body, least);
            if place == short::CORE {
                let then = padded.unwrap_or_else(|refusal| refusal.told()[3]);
                assert_eq!((least, Ok(then)), (18, with_zeros(body, 64)), "{shape:?}: {refusal}");
            } else if asks_for_a_plan_id {
                let again = Refusal::Short {
                    place: short::BEAMHOPPING_TIME_PLAN_ID,
                    need: least + 3,
                    have: least,
                    least: least + 4,
                };
                assert_eq!(padded, Err(again), "{shape:?}: {refusal}");
            } else {
                assert_eq!(padded, Ok(least), "{shape:?}: {refusal}");
            }
        }
    }
}

#[test]
fn a_refused_body_leaves_the_default_record() {
    let short = Refusal::Short {
        place: 4,
        need: 19,
        have: 18,
        least: 19,
    };
    let mut body = [0; 18];
    body[4] = 0x20;
    let mut raw = filled();
    assert_eq!(raw.parse_into(&body), Err(short));
    assert_eq!(raw, RawRecord::default());
    assert_eq!(RawRecord::parse(&body), Err(short));
    let long = Refusal::Long { length: 4097 };
    raw = filled();
    assert_eq!(raw.parse_into(&[0; 4097]), Err(long));
    assert_eq!(raw, RawRecord::default());
    let mut slot = [7; 21];
    raw = filled();
    assert_eq!(raw.read_slot(&slot), Err(Refusal::SlotForm { offset: 0 }));
    assert_eq!(raw, RawRecord::default());
    raw = filled();
    assert_eq!(raw.read_slot(&slot[..20]), Err(Refusal::Slot));
    assert_eq!(raw, RawRecord::default());
    Slot::new(&mut slot).make_empty().unwrap();
    raw = filled();
    assert_eq!(raw.read_slot(&slot), Ok(None));
    assert_eq!(raw, RawRecord::default());
}

#[test]
fn what_a_raw_record_is_refused_for() {
    let mut raw = RawRecord::default();
    for code in 0..=255 {
        raw.set_s2xv2_mode(S2Xv2Mode::Reserved(code));
        assert_eq!(raw.s2xv2_mode(), S2Xv2Mode::Reserved(code));
        let place = Refusal::Inconsistent { place: 1 };
        assert_eq!(raw.serialized_len(&[]), if code < 6 { Err(place) } else { Ok(18) });
    }
    raw = RawRecord::default();
    raw.set_channel_bond(1);
    for count in 0..=255 {
        raw.set_secondary_delivery_system_ids(&[7; 255][..count]).unwrap();
        assert_eq!(
            (usize::from(raw.num_channel_bonds()), raw.secondary_delivery_system_ids()),
            (count, &[7; 2][..count.min(2)])
        );
        assert_eq!(raw.serialized_len(&[]), Ok(19 + 4 * count));
        let written = raw.serialize_into(&[], &mut [0; 1100]);
        assert_eq!(
            written,
            if [1, 2].contains(&count) {
                Ok(19 + 4 * count)
            } else {
                Err(Refusal::Field { place: 13 })
            }
        );
    }
    let before = raw;
    assert_eq!(
        raw.set_secondary_delivery_system_ids(&[8; 256]),
        Err(Refusal::TooManyIds { count: 256 })
    );
    assert_eq!(raw, before);
    let mut typed = Record::default();
    typed.secondary_delivery_system_ids = vec![7; 256];
    assert_eq!(RawRecord::try_from(&typed), Err(Refusal::TooManyIds { count: 256 }));
}
