/* Calls each function of s2xv2.h with what it accepts and with what it refuses: bodies of every shape, whole and cut, with each field read by
   its name and written from it; flags and codes from 0 to 255, anything behind a flag that says absent, null pointers of length 0, lengths
   that no bytes have, and forged jobs. As C11 and as C++. Says what is wrong, and ends with 1 then. */
#include "s2xv2.h"

#include <stdio.h>
#include <string.h>

/* Where each field of each struct stands for the archive. Without them, what is left to find a field in a wrong place is what is read and
   written (rust/exchanges). */
#ifndef WITHOUT_PLACES
#ifdef __cplusplus
#define HOLDS(what) static_assert(what, #what)
#else
#define HOLDS(what) _Static_assert(what, #what)
#endif
#define SIZE(type, size) HOLDS(sizeof(type) == size)
#define AT(type, field, place) HOLDS(offsetof(type, field) == place)

SIZE(S2xv2Answer, 10);
AT(S2xv2Answer, number, 0);
AT(S2xv2Answer, first, 2);
AT(S2xv2Answer, second, 4);
AT(S2xv2Answer, third, 6);
AT(S2xv2Answer, fourth, 8);
SIZE(S2xv2Record, 76);
AT(S2xv2Record, delivery_system_id, 0);
AT(S2xv2Record, satellite_id, 4);
AT(S2xv2Record, symbol_rate, 8);
AT(S2xv2Record, frequency, 12);
AT(S2xv2Record, scrambling_sequence_index, 16);
AT(S2xv2Record, secondary_delivery_system_ids, 20);
AT(S2xv2Record, reference_scrambling_index, 28);
AT(S2xv2Record, payload_scrambling_index, 32);
AT(S2xv2Record, beamhopping_time_plan_id, 36);
AT(S2xv2Record, multiple_input_stream_flag, 40);
AT(S2xv2Record, scrambling_sequence_selector, 41);
AT(S2xv2Record, sffi_selector, 42);
AT(S2xv2Record, beam_hopping_time_plan_selector, 43);
AT(S2xv2Record, has_input_stream_identifier, 44);
AT(S2xv2Record, has_scrambling_sequence_index, 45);
AT(S2xv2Record, has_sffi, 46);
AT(S2xv2Record, has_beamhopping_time_plan_id, 47);
AT(S2xv2Record, mode_is_reserved, 48);
AT(S2xv2Record, has_scrambling_sequence_selector, 49);
AT(S2xv2Record, has_timeslice_number, 50);
AT(S2xv2Record, has_superframe, 51);
AT(S2xv2Record, reserved_zero_future_use_2, 52);
AT(S2xv2Record, ncr_reference, 53);
AT(S2xv2Record, ncr_version, 54);
AT(S2xv2Record, channel_bond, 55);
AT(S2xv2Record, ts_gs_s2x_mode, 56);
AT(S2xv2Record, receiver_profiles, 57);
AT(S2xv2Record, reserved_zero_future_use_1, 58);
AT(S2xv2Record, polarization, 59);
AT(S2xv2Record, s2xv2_mode, 60);
AT(S2xv2Record, roll_off, 61);
AT(S2xv2Record, num_channel_bonds, 62);
AT(S2xv2Record, reserved_zero_future_use_7, 63);
AT(S2xv2Record, input_stream_identifier, 64);
AT(S2xv2Record, timeslice_number, 65);
AT(S2xv2Record, reserved_zero_future_use_6, 66);
AT(S2xv2Record, sosf_wh_sequence_number, 67);
AT(S2xv2Record, superframe_reserved_zero_future_use_2, 68);
AT(S2xv2Record, sffi, 69);
AT(S2xv2Record, reserved_zero_future_use_4, 70);
AT(S2xv2Record, superframe_pilots_wh_sequence_number, 71);
AT(S2xv2Record, postamble_pli, 72);
AT(S2xv2Record, filler, 73);
SIZE(S2xv2Part, 16);
AT(S2xv2Part, place, 0);
AT(S2xv2Part, length, 8);
SIZE(S2xv2Job, 288);
AT(S2xv2Job, staged, 0);
AT(S2xv2Job, slot_size, 264);
AT(S2xv2Job, descriptor_size, 272);
AT(S2xv2Job, stores_made, 280);
SIZE(S2xv2Advanced, 16);
AT(S2xv2Advanced, stores, 0);
AT(S2xv2Advanced, number, 8);
AT(S2xv2Advanced, done, 9);
SIZE(S2xv2Stepped, 304);
AT(S2xv2Stepped, job, 0);
AT(S2xv2Stepped, told, 288);
#endif

static int wrong = 0;

static void check(int holds, const char *what, int line) {
    if (!holds) {
        printf("smoke.c:%d: %s\n", line, what);
        wrong = 1;
    }
}
#define CHECK(holds) check((holds), #holds, __LINE__)

/* An answer that tells up to three numbers: the fourth is 0. */
static int told(S2xv2Answer answer, size_t number, size_t first, size_t second, size_t third) {
    return answer.number == number && answer.first == first && answer.second == second && answer.third == third && answer.fourth == 0;
}

/* The one that tells four: how long the whole body is at the least comes last. */
static int told_short(S2xv2Answer answer, size_t place, size_t need, size_t have, size_t least) {
    return answer.number == S2XV2_SHORT && answer.first == place && answer.second == need && answer.third == have && answer.fourth == least;
}

static int same_answer(S2xv2Answer a, S2xv2Answer b) {
    return a.number == b.number && a.first == b.first && a.second == b.second && a.third == b.third && a.fourth == b.fourth;
}

static int all(const void *bytes, size_t count, uint8_t byte) {
    size_t k;
    for (k = 0; k < count; k++) {
        if (((const uint8_t *)bytes)[k] != byte) {
            return 0;
        }
    }
    return 1;
}

static S2xv2Record zeros(void) {
    S2xv2Record record;
    memset(&record, 0, sizeof record);
    return record;
}

/* A record to be read into, of which no byte is what it will be. */
static S2xv2Record unread(void) {
    S2xv2Record record;
    memset(&record, 0xFF, sizeof record);
    return record;
}

static S2xv2Job no_job(void) {
    S2xv2Job job;
    memset(&job, 0, sizeof job);
    return job;
}

static S2xv2Job unbegun(void) {
    S2xv2Job job;
    memset(&job, 0xFF, sizeof job);
    return job;
}

static int is_no_job(const S2xv2Job *job) {
    return job->slot_size == 0 && job->descriptor_size == 0 && job->stores_made == 0 && all(job->staged, 257, 0);
}

/* What a call that only reads answers, into a record that is not looked at. */
static S2xv2Answer parsed(const uint8_t *body, size_t length) {
    S2xv2Record record = unread();
    return s2xv2_parse(body, length, &record);
}

static S2xv2Answer read_slot(const uint8_t *slot, size_t size) {
    S2xv2Record record = unread();
    return s2xv2_slot_read(slot, size, &record);
}

static S2xv2Answer begun(const uint8_t *slot, size_t size, const S2xv2Record *record, const uint8_t *tail, size_t tail_length) {
    S2xv2Job job = unbegun();
    S2xv2Answer answer = s2xv2_begin(slot, size, record, tail, tail_length, &job);
    CHECK(answer.number == 0 || is_no_job(&job));
    return answer;
}

/* ---- every field by its name */

/* Mode 5 with all of its parts and a tail of two bytes. */
static const uint8_t MODE_5[43] = {
    0x01, 0x02, 0x03, 0x04, 0x5D, 0xA6, 0xF5, 0x05, 0x06, 0x07, 0x08, 0x09, 0x0A, 0x0B, 0x0C, 0x0D, 0x0E, 0x0F, /* the core */
    0x10,                                                                                                       /* the stream */
    0x13,                                                                                                       /* the timeslice */
    0xAB, 0x14, 0x15, 0x16, 0x17, 0x18, 0x19, 0x1A, 0x1B,                                                       /* the bonds */
    0x1C, 0xDD, 0x1E, 0x1F, 0x96, 0x20, 0x21, 0x22, 0x23, 0x24, 0x25, 0xBE,                                     /* the block */
    0xFE, 0xFF,                                                                                                 /* the tail */
};

/* Mode 2 with all of its parts. */
static const uint8_t MODE_2[32] = {
    0x01, 0x02, 0x03, 0x04, 0x2D, 0xA6, 0xF5, 0x05, 0x06, 0x07, 0x08, 0x09, 0x0A, 0x0B, 0x0C, 0x0D, 0x0E, 0x0F,
    0x10,
    0xAA, 0x11, 0x22,
    0x13,
    0xAB, 0x14, 0x15, 0x16, 0x17, 0x18, 0x19, 0x1A, 0x1B,
};

static void vectors(void) {
    S2xv2Record read = unread();
    CHECK(told(s2xv2_parse(MODE_5, 43, &read), S2XV2_ACCEPTED, 41, 0, 0));
    CHECK(read.delivery_system_id == 0x01020304);
    CHECK(read.satellite_id == 0x050607);
    CHECK(read.frequency == 0x08090A0B);
    CHECK(read.symbol_rate == 0x0C0D0E0F);
    CHECK(read.scrambling_sequence_index == 0);
    CHECK(read.secondary_delivery_system_ids[0] == 0x14151617);
    CHECK(read.secondary_delivery_system_ids[1] == 0x18191A1B);
    CHECK(read.reference_scrambling_index == 0xD1E1F);
    CHECK(read.payload_scrambling_index == 0x62021);
    CHECK(read.beamhopping_time_plan_id == 0x22232425);
    CHECK(read.multiple_input_stream_flag == 1 && read.has_input_stream_identifier == 1 && read.input_stream_identifier == 0x10);
    CHECK(read.has_scrambling_sequence_selector == 0 && read.scrambling_sequence_selector == 0);
    CHECK(read.has_scrambling_sequence_index == 0 && read.reserved_zero_future_use_6 == 0);
    CHECK(read.mode_is_reserved == 0 && read.s2xv2_mode == 5 && read.roll_off == 5);
    CHECK(read.reserved_zero_future_use_2 == 2 && read.ncr_reference == 1 && read.ncr_version == 0);
    CHECK(read.channel_bond == 1 && read.polarization == 2);
    CHECK(read.reserved_zero_future_use_1 == 1 && read.ts_gs_s2x_mode == 3 && read.receiver_profiles == 0x15);
    CHECK(read.has_timeslice_number == 1 && read.timeslice_number == 0x13);
    CHECK(read.num_channel_bonds == 2 && read.reserved_zero_future_use_7 == 0x55);
    CHECK(read.has_superframe == 1 && read.sosf_wh_sequence_number == 0x1C);
    CHECK(read.sffi_selector == 1 && read.has_sffi == 1 && read.sffi == 9 && read.reserved_zero_future_use_4 == 0);
    CHECK(read.beam_hopping_time_plan_selector == 1 && read.has_beamhopping_time_plan_id == 1);
    CHECK(read.superframe_reserved_zero_future_use_2 == 1);
    CHECK(read.superframe_pilots_wh_sequence_number == 0x17 && read.postamble_pli == 6);
    CHECK(all(read.filler, 3, 0));

    read = unread();
    CHECK(told(s2xv2_parse(MODE_2, 32, &read), S2XV2_ACCEPTED, 32, 0, 0));
    CHECK(read.has_scrambling_sequence_selector == 1 && read.scrambling_sequence_selector == 1);
    CHECK(read.has_scrambling_sequence_index == 1 && read.scrambling_sequence_index == 0x21122);
    CHECK(read.reserved_zero_future_use_6 == 0x2A && read.reserved_zero_future_use_1 == 0);
    CHECK(read.s2xv2_mode == 2 && read.has_timeslice_number == 1 && read.timeslice_number == 0x13 && read.has_superframe == 0);
}

/* What a body's first bytes say, and what its block says. */
typedef struct {
    unsigned mode, stream, selector, reference, version, bond, second, sffi, plan;
} Shape;

static Shape shape_of(unsigned k) {
    Shape s;
    s.mode = k % 16;
    s.stream = k / 16 % 2;
    s.selector = k / 32 % 2;
    s.reference = k / 64 % 2;
    s.version = k / 128 % 2;
    s.bond = k / 256 % 4;
    s.second = k / 1024 % 2;
    s.sffi = k / 2048 % 2;
    s.plan = k / 4096 % 2;
    return s;
}

/* The record of a shape, field by field: no field that the body holds is 0 but flags, codes and the bond. */
static S2xv2Record record_of(Shape s) {
    S2xv2Record r = zeros();
    r.delivery_system_id = 0x01020304;
    r.satellite_id = 0x050607;
    r.frequency = 0x08090A0B;
    r.symbol_rate = 0x0C0D0E0F;
    r.s2xv2_mode = (uint8_t)s.mode;
    r.mode_is_reserved = s.mode > 5;
    r.multiple_input_stream_flag = s.stream == 1;
    r.roll_off = 5;
    r.reserved_zero_future_use_2 = 2;
    r.ncr_reference = s.reference == 1;
    r.ncr_version = s.version == 1;
    r.channel_bond = (uint8_t)s.bond;
    r.polarization = 2;
    r.ts_gs_s2x_mode = 3;
    r.receiver_profiles = 0x15;
    if (s.stream == 1) {
        r.has_input_stream_identifier = 1;
        r.input_stream_identifier = 0x10;
    }
    if (s.mode == 1 || s.mode == 2) {
        r.has_scrambling_sequence_selector = 1;
        r.scrambling_sequence_selector = s.selector == 1;
        if (s.selector == 1) {
            r.has_scrambling_sequence_index = 1;
            r.scrambling_sequence_index = 0x21122;
            r.reserved_zero_future_use_6 = 0x2A;
        }
    } else {
        r.reserved_zero_future_use_1 = s.selector == 1;
    }
    if (s.mode == 2 || s.mode == 5) {
        r.has_timeslice_number = 1;
        r.timeslice_number = 0x13;
    }
    if (s.bond == 1) {
        r.reserved_zero_future_use_7 = 0x55;
        r.num_channel_bonds = s.second == 1 ? 2 : 1;
        r.secondary_delivery_system_ids[0] = 0x14151617;
        r.secondary_delivery_system_ids[1] = s.second == 1 ? 0x18191A1B : 0;
    }
    if (s.mode == 4 || s.mode == 5) {
        r.has_superframe = 1;
        r.sosf_wh_sequence_number = 0x1C;
        r.sffi_selector = s.sffi == 1;
        r.beam_hopping_time_plan_selector = s.plan == 1;
        r.superframe_reserved_zero_future_use_2 = 1;
        r.reference_scrambling_index = 0xD1E1F;
        r.has_sffi = s.sffi == 1;
        r.sffi = s.sffi == 1 ? 9 : 0;
        r.reserved_zero_future_use_4 = s.sffi == 1 ? 0 : 11;
        r.payload_scrambling_index = 0x62021;
        r.has_beamhopping_time_plan_id = s.plan == 1;
        r.beamhopping_time_plan_id = s.plan == 1 ? 0x22232425 : 0;
        r.superframe_pilots_wh_sequence_number = 0x17;
        r.postamble_pli = 6;
    }
    return r;
}

/* A body that grows. */
typedef struct {
    uint8_t bytes[64];
    size_t length;
} Bytes;

/* Puts a number of so many bytes behind what is there, the high byte first. */
static void put(Bytes *b, unsigned count, uint32_t number) {
    while (count > 0) {
        count--;
        b->bytes[b->length++] = (uint8_t)(number >> (8 * count));
    }
}

/* The body of a shape, from the standard's tables. */
static Bytes body_of(Shape s) {
    Bytes b;
    memset(&b, 0, sizeof b);
    put(&b, 4, 0x01020304);
    put(&b, 1, s.mode * 16 + s.stream * 8 + 5);
    put(&b, 1, 2 * 64 + s.reference * 32 + s.version * 16 + s.bond * 4 + 2);
    put(&b, 1, s.selector * 128 + 3 * 32 + 0x15);
    put(&b, 3, 0x050607);
    put(&b, 4, 0x08090A0B);
    put(&b, 4, 0x0C0D0E0F);
    put(&b, s.stream, 0x10);
    if ((s.mode == 1 || s.mode == 2) && s.selector == 1) {
        put(&b, 3, 0x2A * 262144 + 0x21122);
    }
    if (s.mode == 2 || s.mode == 5) {
        put(&b, 1, 0x13);
    }
    if (s.bond == 1) {
        put(&b, 1, 0x55 * 2 + s.second);
        put(&b, 4, 0x14151617);
        put(&b, 4 * s.second, 0x18191A1B);
    }
    if (s.mode == 4 || s.mode == 5) {
        put(&b, 1, 0x1C);
        put(&b, 3, (s.sffi * 8 + s.plan * 4 + 1) * 1048576 + 0xD1E1F);
        put(&b, 3, (s.sffi == 1 ? 9u : 11u) * 1048576 + 0x62021);
        put(&b, 4 * s.plan, 0x22232425);
        put(&b, 1, 0x17 * 8 + 6);
    }
    return b;
}

static int same_record(const S2xv2Record *a, const S2xv2Record *b) { return memcmp(a, b, sizeof *a) == 0; }

/* A job to its end, on an empty slot that the descriptor fills or does not, and what is read there. */
static void stored(const S2xv2Record *record, const Bytes *body, size_t size) {
    const size_t length = body->length + 2;
    uint8_t slot[64];
    S2xv2Job job = unbegun();
    S2xv2Record read = unread();
    S2xv2Part part;
    CHECK(told(s2xv2_slot_make_empty(slot, size), S2XV2_ACCEPTED, 0, 0, 0));
    CHECK(told(s2xv2_begin(slot, size, record, body->bytes, 2, &job), S2XV2_ACCEPTED, size + 2, 0, 0));
    CHECK(job.slot_size == size && job.descriptor_size == length + 3 && job.stores_made == 0);
    CHECK(job.staged[0] == 0x7F && job.staged[1] == length + 1 && job.staged[2] == 0x24);
    CHECK(memcmp(job.staged + 3, body->bytes, body->length) == 0 && memcmp(job.staged + body->length + 3, body->bytes, 2) == 0);
    CHECK(all(job.staged + length + 3, 257 - length - 3, 0));
    CHECK(s2xv2_step_in_place(&job, slot, size, SIZE_MAX).done == 1);
    CHECK(told(s2xv2_slot_read(slot, size, &read), S2XV2_ACCEPTED, body->length + 3, 2, 0));
    CHECK(same_record(&read, record));
    part = s2xv2_slot_reserved_tail(slot, size);
    CHECK(part.place == body->length + 3 && part.length == 2);
}

static void shapes(void) {
    unsigned k;
    for (k = 0; k < 8192; k++) {
        const Shape s = shape_of(k);
        const S2xv2Record record = record_of(s);
        const Bytes body = body_of(s);
        S2xv2Record read = unread();
        uint8_t buffer[64];
        size_t cut;
        CHECK(told(s2xv2_parse(body.bytes, body.length, &read), S2XV2_ACCEPTED, body.length, 0, 0));
        CHECK(same_record(&read, &record));
        CHECK(told(s2xv2_serialized_len(&record, NULL, 0), S2XV2_ACCEPTED, body.length, 0, 0));
        memset(buffer, 0xA5, sizeof buffer);
        CHECK(told(s2xv2_serialize_into(&record, NULL, 0, buffer, sizeof buffer), S2XV2_ACCEPTED, body.length, 0, 0));
        CHECK(memcmp(buffer, body.bytes, body.length) == 0 && all(buffer + body.length, sizeof buffer - body.length, 0xA5));
        stored(&record, &body, 64);
        stored(&record, &body, body.length + 5);
        for (cut = 0; cut < body.length; cut++) {
            S2xv2Answer answer;
            read = unread();
            answer = s2xv2_parse(body.bytes, cut, &read);
            CHECK(answer.number == S2XV2_SHORT && all(&read, sizeof read, 0));
            CHECK(answer.third == cut && cut < answer.second && answer.second <= answer.fourth && answer.fourth <= body.length);
        }
    }
}

static void reading(void) {
    uint8_t body[4097];
    S2xv2Record record = unread();
    S2xv2Part part;
    memset(body, 0, sizeof body);
    body[17] = 7;
    CHECK(told(s2xv2_parse(body, 20, &record), S2XV2_ACCEPTED, 18, 0, 0));
    CHECK(record.symbol_rate == 7 && record.has_timeslice_number == 0);
    part = s2xv2_reserved_tail(body, 20);
    CHECK(part.place == 18 && part.length == 2);

    body[4] = 0x20;
    record = unread();
    CHECK(told_short(s2xv2_parse(body, 18, &record), 4, 19, 18, 19) && all(&record, sizeof record, 0));
    part = s2xv2_reserved_tail(body, 18);
    CHECK(part.place == 0 && part.length == 0);
    CHECK(told(parsed(body, 4096), S2XV2_ACCEPTED, 19, 0, 0));
    record = unread();
    CHECK(told(s2xv2_parse(body, 4097, &record), S2XV2_LONG, 4097, 0, 0) && all(&record, sizeof record, 0));

    record = unread();
    CHECK(told_short(s2xv2_parse(NULL, 0, &record), 1, 18, 0, 18) && all(&record, sizeof record, 0));
    part = s2xv2_reserved_tail(NULL, 0);
    CHECK(part.place == 0 && part.length == 0);
}

/* Bodies that end inside a part: the length, bytes 4, 5, 6, 18 and 19, of which those below the length are there, and what is told. In a
   slot it is told as of the body by itself, and what stands behind the body is not looked at. */
static void cuts(void) {
    static const struct {
        uint8_t length, set[5], place, need, least;
    } rows[] = {
        {0, {0, 0, 0, 0, 0}, 1, 18, 18},
        {17, {0x50, 0, 0, 0, 0}, 1, 18, 18},
        {18, {0x08, 0, 0, 0, 0}, 2, 19, 19},
        {20, {0x10, 0, 0x80, 0, 0}, 3, 21, 21},
        {18, {0x20, 0, 0, 0, 0}, 4, 19, 19},
        {18, {0x50, 0, 0, 0, 0}, 4, 19, 27},
        {18, {0, 0x04, 0, 0, 0}, 5, 19, 23},
        {19, {0, 0x04, 0, 0x01, 0}, 6, 23, 27},
        {23, {0, 0x04, 0, 0x01, 0}, 6, 27, 27},
        {18, {0x58, 0x04, 0, 0, 0}, 2, 19, 33},
        {25, {0x40, 0, 0, 0, 0}, 7, 26, 26},
        {25, {0x40, 0, 0, 0, 0x40}, 7, 26, 26},
        {26, {0x40, 0, 0, 0, 0x40}, 8, 29, 30},
        {29, {0x40, 0, 0, 0, 0x40}, 9, 30, 30},
    };
    static const size_t at[5] = {4, 5, 6, 18, 19};
    size_t row, k;
    for (row = 0; row < sizeof rows / sizeof rows[0]; row++) {
        const size_t length = rows[row].length;
        uint8_t slot[64];
        S2xv2Record record = unread();
        memset(slot, 0, sizeof slot);
        for (k = 0; k < 5; k++) {
            slot[3 + at[k]] = rows[row].set[k];
        }
        memset(slot + 3 + length, 0xFF, sizeof slot - 3 - length);
        slot[0] = S2XV2_TAG;
        slot[1] = (uint8_t)(length + 1);
        slot[2] = S2XV2_TAG_EXTENSION;
        slot[3 + length] = S2XV2_STUFFING_TAG;
        slot[4 + length] = (uint8_t)(59 - length);
        CHECK(told_short(s2xv2_parse(slot + 3, length, &record), rows[row].place, rows[row].need, length, rows[row].least));
        CHECK(all(&record, sizeof record, 0));
        record = unread();
        CHECK(told_short(s2xv2_slot_read(slot, sizeof slot, &record), rows[row].place, rows[row].need, length, rows[row].least));
        CHECK(all(&record, sizeof record, 0));
    }
}

static void writing(void) {
    const uint8_t tail[2] = {1, 2};
    uint8_t buffer[32];
    S2xv2Record record = zeros();
    memset(buffer, 0xA5, sizeof buffer);
    record.symbol_rate = 7;
    CHECK(told(s2xv2_serialized_len(&record, tail, 2), S2XV2_ACCEPTED, 20, 0, 0));
    CHECK(told(s2xv2_serialized_len(&record, NULL, 0), S2XV2_ACCEPTED, 18, 0, 0));
    CHECK(told(s2xv2_serialize_into(&record, NULL, 0, NULL, 0), S2XV2_ROOM, 18, 0, 0));
    CHECK(told(s2xv2_serialize_into(&record, tail, 2, buffer, 19), S2XV2_ROOM, 20, 19, 0));
    record.satellite_id = 16777216;
    CHECK(told(s2xv2_serialize_into(&record, tail, 2, buffer, 32), S2XV2_FIELD, 9, 0, 0));
    record.polarization = 4;
    CHECK(told(s2xv2_serialize_into(&record, tail, 2, buffer, 32), S2XV2_FIELD, 5, 0, 0));
    record.has_timeslice_number = 1;
    CHECK(told(s2xv2_serialized_len(&record, tail, 2), S2XV2_INCONSISTENT, 5, 0, 0));
    CHECK(told(s2xv2_serialize_into(&record, tail, 2, buffer, 32), S2XV2_INCONSISTENT, 5, 0, 0));
    CHECK(all(buffer, 32, 0xA5));

    record = zeros();
    record.symbol_rate = 7;
    CHECK(told(s2xv2_serialize_into(&record, tail, 2, buffer, 32), S2XV2_ACCEPTED, 20, 0, 0));
    CHECK(buffer[0] == 0 && buffer[17] == 7 && buffer[18] == 1 && buffer[19] == 2 && all(buffer + 20, 12, 0xA5));
}

/* ---- any numbers mean a record */

/* What the three calls that take a record say and leave. */
typedef struct {
    S2xv2Answer length;
    S2xv2Answer written;
    S2xv2Answer begun;
    uint8_t buffer[1100];
    S2xv2Job job;
} Said;

static void say(const S2xv2Record *record, Said *said) {
    const uint8_t tail[2] = {0xFE, 0xFF};
    uint8_t slot[64];
    CHECK(told(s2xv2_slot_make_empty(slot, sizeof slot), S2XV2_ACCEPTED, 0, 0, 0));
    memset(said, 0xA5, sizeof *said);
    said->length = s2xv2_serialized_len(record, tail, 2);
    said->written = s2xv2_serialize_into(record, tail, 2, said->buffer, sizeof said->buffer);
    said->begun = s2xv2_begin(slot, sizeof slot, record, tail, 2, &said->job);
    CHECK(said->written.number == 0 || all(said->buffer, sizeof said->buffer, 0xA5));
    CHECK(said->begun.number == 0 || is_no_job(&said->job));
    CHECK(slot[0] == 0x42 && slot[1] == 62 && all(slot + 2, 62, 0xFF));
}

static int said_alike(const Said *a, const Said *b) {
    return same_answer(a->length, b->length) && same_answer(a->written, b->written) && same_answer(a->begun, b->begun) &&
           memcmp(a->buffer, b->buffer, sizeof a->buffer) == 0 && memcmp(a->job.staged, b->job.staged, sizeof a->job.staged) == 0 &&
           a->job.slot_size == b->job.slot_size && a->job.descriptor_size == b->job.descriptor_size &&
           a->job.stores_made == b->job.stores_made;
}

/* The fourteen flags of a record. */
static uint8_t *flag(S2xv2Record *record, int which) {
    switch (which) {
    case 0:
        return &record->multiple_input_stream_flag;
    case 1:
        return &record->scrambling_sequence_selector;
    case 2:
        return &record->sffi_selector;
    case 3:
        return &record->beam_hopping_time_plan_selector;
    case 4:
        return &record->has_input_stream_identifier;
    case 5:
        return &record->has_scrambling_sequence_index;
    case 6:
        return &record->has_sffi;
    case 7:
        return &record->has_beamhopping_time_plan_id;
    case 8:
        return &record->mode_is_reserved;
    case 9:
        return &record->has_scrambling_sequence_selector;
    case 10:
        return &record->has_timeslice_number;
    case 11:
        return &record->has_superframe;
    case 12:
        return &record->ncr_reference;
    default:
        return &record->ncr_version;
    }
}

/* A flag of any number above 0 is a flag of 1, in records with every part of modes 2 and 5 and in two with fewer. */
static void flags(void) {
    static Said set, clear, said;
    const unsigned bases[] = {2 + 16 + 32 + 256 + 1024, 5 + 16 + 256 + 2048 + 4096, 1, 4};
    unsigned k, which, value;
    for (k = 0; k < 4; k++) {
        for (which = 0; which < 14; which++) {
            S2xv2Record record = record_of(shape_of(bases[k]));
            *flag(&record, (int)which) = 1;
            say(&record, &set);
            *flag(&record, (int)which) = 0;
            say(&record, &clear);
            for (value = 0; value < 256; value++) {
                *flag(&record, (int)which) = (uint8_t)value;
                say(&record, &said);
                CHECK(said_alike(&said, value == 0 ? &clear : &set));
            }
        }
    }
}

/* What a record with one flag turned is told: list A's place, or 0 where it is still a record that is written. */
static void turned(void) {
    const unsigned bases[] = {2 + 16 + 32 + 256 + 1024, 5 + 16 + 256 + 2048 + 4096};
    const size_t places[2][14] = {
        {2, 4, 0, 0, 2, 0, 0, 0, 1, 3, 5, 7, 0, 0},
        {2, 0, 8, 9, 2, 4, 0, 0, 1, 3, 5, 7, 0, 0},
    };
    const size_t fields[2][14] = {
        {0, 0, 0, 0, 0, 10, 0, 0, 0, 0, 0, 0, 0, 0},
        {0, 0, 0, 0, 0, 0, 18, 20, 0, 0, 0, 0, 0, 0},
    };
    static Said said;
    int k, which;
    for (k = 0; k < 2; k++) {
        for (which = 0; which < 14; which++) {
            S2xv2Record record = record_of(shape_of(bases[k]));
            *flag(&record, which) = *flag(&record, which) == 0 ? 255 : 0;
            say(&record, &said);
            if (places[k][which] != 0) {
                CHECK(told(said.length, S2XV2_INCONSISTENT, places[k][which], 0, 0));
                CHECK(told(said.written, S2XV2_INCONSISTENT, places[k][which], 0, 0));
                CHECK(told(said.begun, S2XV2_INCONSISTENT, places[k][which], 0, 0));
            } else if (fields[k][which] != 0) {
                CHECK(said.length.number == 0 && told(said.written, S2XV2_FIELD, fields[k][which], 0, 0));
                CHECK(told(said.begun, S2XV2_FIELD, fields[k][which], 0, 0));
            } else {
                CHECK(said.length.number == 0 && same_answer(said.written, said.length) && told(said.begun, 0, 66, 0, 0));
            }
        }
    }
}

/* Every code of a mode, with and without the flag; every roll-off, polarization and bond; every count of ids. */
static void codes(void) {
    const uint8_t reserved[] = {0, 1, 2, 255};
    const size_t named[] = {0, 3, 3, 0, 7, 5};
    static Said said;
    unsigned k, code;
    for (k = 0; k < 4; k++) {
        for (code = 0; code < 256; code++) {
            const size_t place = code > 5 ? 0 : reserved[k] != 0 ? 1 : named[code];
            S2xv2Record record = zeros();
            record.mode_is_reserved = reserved[k];
            record.s2xv2_mode = (uint8_t)code;
            say(&record, &said);
            CHECK(place == 0 ? told(said.length, 0, 20, 0, 0) : told(said.length, S2XV2_INCONSISTENT, place, 0, 0));
            if (place != 0) {
                CHECK(same_answer(said.written, said.length) && same_answer(said.begun, said.length));
            } else if (code > 15) {
                CHECK(told(said.written, S2XV2_FIELD, 1, 0, 0) && told(said.begun, S2XV2_FIELD, 1, 0, 0));
            } else {
                CHECK(told(said.written, 0, 20, 0, 0) && said.buffer[4] == code * 16);
            }
        }
    }
    for (code = 0; code < 256; code++) {
        S2xv2Record record = zeros();
        record.roll_off = (uint8_t)code;
        say(&record, &said);
        CHECK(code > 7 ? told(said.written, S2XV2_FIELD, 2, 0, 0) : said.written.number == 0 && said.buffer[4] == code);
        record = zeros();
        record.polarization = (uint8_t)code;
        say(&record, &said);
        CHECK(code > 3 ? told(said.written, S2XV2_FIELD, 5, 0, 0) : said.written.number == 0 && said.buffer[5] == code);
        record = zeros();
        record.channel_bond = (uint8_t)code;
        record.num_channel_bonds = code == 1;
        say(&record, &said);
        CHECK(code > 3 ? told(said.written, S2XV2_FIELD, 4, 0, 0) : said.written.number == 0 && said.buffer[5] == code * 4);
    }
    for (code = 0; code < 256; code++) {
        S2xv2Record record = zeros();
        record.num_channel_bonds = (uint8_t)code;
        record.secondary_delivery_system_ids[0] = 7;
        record.secondary_delivery_system_ids[1] = 8;
        say(&record, &said);
        CHECK(code == 0 ? told(said.length, 0, 20, 0, 0) : told(said.length, S2XV2_INCONSISTENT, 6, 0, 0));
        record.channel_bond = 1;
        say(&record, &said);
        CHECK(told(said.length, 0, 21 + 4 * code, 0, 0));
        if (code == 1 || code == 2) {
            CHECK(said.written.number == 0 && said.buffer[18] == code - 1 && said.buffer[22] == 7);
        } else {
            CHECK(told(said.written, S2XV2_FIELD, 13, 0, 0));
            CHECK(code > 10 ? told(said.begun, S2XV2_NO_FIT, 24 + 4 * code, 0, 0) : said.begun.number != 0);
        }
    }
}

/* Fills what stands behind one of the flags that say absent. */
static void fill(S2xv2Record *record, int which, uint8_t byte) {
    const uint32_t number = byte * 0x01010101u;
    switch (which) {
    case 0:
        record->scrambling_sequence_selector = byte;
        break;
    case 1:
        record->input_stream_identifier = byte;
        break;
    case 2:
        record->scrambling_sequence_index = number;
        break;
    case 3:
        record->timeslice_number = byte;
        break;
    case 4:
        record->secondary_delivery_system_ids[0] = number;
        record->secondary_delivery_system_ids[1] = number;
        break;
    case 5:
        memset(record->filler, byte, 3);
        break;
    default:
        record->reference_scrambling_index = number;
        record->payload_scrambling_index = number;
        record->beamhopping_time_plan_id = number;
        record->sffi_selector = byte;
        record->beam_hopping_time_plan_selector = byte;
        record->has_sffi = byte;
        record->has_beamhopping_time_plan_id = byte;
        record->sosf_wh_sequence_number = byte;
        record->superframe_reserved_zero_future_use_2 = byte;
        record->sffi = byte;
        record->reserved_zero_future_use_4 = byte;
        record->superframe_pilots_wh_sequence_number = byte;
        record->postamble_pli = byte;
    }
}

/* What is absent is not looked at, nor is what is reserved in a part that is absent. */
static void absentees(void) {
    const uint8_t bytes[] = {1, 2, 255};
    static Said plain, said;
    S2xv2Record record = zeros();
    int which, k;
    say(&record, &plain);
    CHECK(told(plain.length, 0, 20, 0, 0) && told(plain.written, 0, 20, 0, 0) && told(plain.begun, 0, 66, 0, 0));
    CHECK(all(plain.buffer, 18, 0) && plain.job.descriptor_size == 23);
    for (k = 0; k < 3; k++) {
        for (which = 0; which < 7; which++) {
            record = zeros();
            fill(&record, which, bytes[k]);
            say(&record, &said);
            CHECK(said_alike(&said, &plain));
        }
        record = zeros();
        for (which = 0; which < 7; which++) {
            fill(&record, which, bytes[k]);
        }
        record.reserved_zero_future_use_6 = bytes[k];
        record.reserved_zero_future_use_7 = bytes[k];
        say(&record, &said);
        CHECK(said_alike(&said, &plain));
    }

    record = record_of(shape_of(4));
    say(&record, &plain);
    CHECK(plain.written.number == 0);
    for (k = 0; k < 3; k++) {
        record.sffi = bytes[k];
        record.beamhopping_time_plan_id = bytes[k] * 0x01010101u;
        say(&record, &said);
        CHECK(said_alike(&said, &plain));
    }

    /* The bit of the selector, and the bits of SFFI, are taken by these: what is reserved there is not looked at. */
    record = record_of(shape_of(2 + 32));
    say(&record, &plain);
    CHECK(plain.written.number == 0);
    for (k = 0; k < 3; k++) {
        record.reserved_zero_future_use_1 = bytes[k];
        say(&record, &said);
        CHECK(said_alike(&said, &plain));
    }
    record = record_of(shape_of(5 + 2048));
    say(&record, &plain);
    CHECK(plain.written.number == 0);
    for (k = 0; k < 3; k++) {
        record.reserved_zero_future_use_4 = bytes[k];
        say(&record, &said);
        CHECK(said_alike(&said, &plain));
    }
}

/* ---- lengths, slots and jobs */

/* Lengths that no bytes have, as a caller passes them by mistake: each is refused before a byte is looked at. */
static void lengths(void) {
    const size_t wild[] = {4097, 65517, 65518, 65536, SIZE_MAX - 18, SIZE_MAX - 17, SIZE_MAX - 16, SIZE_MAX / 2, SIZE_MAX};
    const uint8_t byte = 7;
    uint8_t slot[21];
    uint8_t buffer[32];
    S2xv2Record record = zeros();
    size_t k;
    CHECK(told(s2xv2_slot_make_empty(slot, 21), S2XV2_ACCEPTED, 0, 0, 0));
    memset(buffer, 0xA5, sizeof buffer);
    for (k = 0; k < sizeof wild / sizeof *wild; k++) {
        const size_t n = wild[k];
        const size_t length = n < 65517 ? n + 18 : 65535;
        S2xv2Part part;
        CHECK(told(parsed(&byte, n), S2XV2_LONG, n < 65535 ? n : 65535, 0, 0));
        part = s2xv2_reserved_tail(&byte, n);
        CHECK(part.place == 0 && part.length == 0);
        CHECK(told(s2xv2_serialized_len(&record, &byte, n), S2XV2_LONG, length, 0, 0));
        CHECK(told(s2xv2_serialize_into(&record, &byte, n, buffer, 32), S2XV2_LONG, length, 0, 0) && all(buffer, 32, 0xA5));
        CHECK(told(begun(slot, 21, &record, &byte, n), S2XV2_LONG, length, 0, 0));
        CHECK(told(begun(&byte, n, &record, NULL, 0), S2XV2_SLOT, 0, 0, 0));
        CHECK(told(read_slot(&byte, n), S2XV2_SLOT, 0, 0, 0));
        part = s2xv2_slot_reserved_tail(&byte, n);
        CHECK(part.place == 0 && part.length == 0);
        CHECK(told(s2xv2_slot_make_empty(slot, n), S2XV2_SLOT, 0, 0, 0) && slot[0] == 0x42);
    }
    record.multiple_input_stream_flag = 1;
    CHECK(told(s2xv2_serialized_len(&record, &byte, SIZE_MAX), S2XV2_INCONSISTENT, 2, 0, 0));
    CHECK(told(s2xv2_serialize_into(&record, &byte, SIZE_MAX, buffer, 32), S2XV2_INCONSISTENT, 2, 0, 0) && all(buffer, 32, 0xA5));
}

static void slots(void) {
    uint8_t slot[24];
    S2xv2Record record = unread();
    S2xv2Part part;
    memset(slot, 7, sizeof slot);
    CHECK(told(s2xv2_slot_make_empty(NULL, 0), S2XV2_SLOT, 0, 0, 0));
    CHECK(told(s2xv2_slot_make_empty(slot, 20), S2XV2_SLOT, 0, 0, 0) && all(slot, 24, 7));
    CHECK(told(s2xv2_slot_read(slot, 24, &record), S2XV2_SLOT_FORM, 0, 0, 0) && all(&record, sizeof record, 0));
    record = unread();
    CHECK(told(s2xv2_slot_read(slot, 20, &record), S2XV2_SLOT, 0, 0, 0) && all(&record, sizeof record, 0));
    record = unread();
    CHECK(told(s2xv2_slot_read(NULL, 0, &record), S2XV2_SLOT, 0, 0, 0) && all(&record, sizeof record, 0));
    part = s2xv2_slot_reserved_tail(NULL, 0);
    CHECK(part.place == 0 && part.length == 0);
    CHECK(told(s2xv2_slot_make_empty(slot, 23), S2XV2_ACCEPTED, 0, 0, 0));
    CHECK(slot[0] == 0x42 && slot[1] == 21 && all(slot + 2, 21, 0xFF) && slot[23] == 7);
    record = unread();
    CHECK(told(s2xv2_slot_read(slot, 23, &record), S2XV2_ACCEPTED, 0, 0, 0) && all(&record, sizeof record, 0));
    part = s2xv2_slot_reserved_tail(slot, 23);
    CHECK(part.place == 0 && part.length == 0);

    slot[0] = 0x7F;
    slot[1] = 1;
    slot[2] = 0x24;
    slot[3] = 0x42;
    slot[4] = 18;
    record = unread();
    CHECK(told_short(s2xv2_slot_read(slot, 23, &record), 1, 18, 0, 18) && all(&record, sizeof record, 0));
}

/* Descriptors by tag and length, laid one behind the other over zeros; 0x24 is the third byte of a 0x7F. */
static void lay(uint8_t *slot, size_t size, const uint8_t *heads, size_t count) {
    size_t at = 0, k;
    memset(slot, 0, size);
    for (k = 0; k + 1 < count && at + 2 < size; k += 2) {
        slot[at] = heads[k];
        slot[at + 1] = heads[k + 1];
        slot[at + 2] = heads[k] == S2XV2_TAG ? S2XV2_TAG_EXTENSION : 0;
        at += 2 + (size_t)heads[k + 1];
    }
}

/* Stuffing may stand on either side of the descriptor; a second one of ours, a foreign tag, a length of 0 or a wrong end may not, and what is
   told is where the descriptor starts that breaks the form. */
static void stuffed_slots(void) {
    static const uint8_t short_body[] = {0x42, 16, 0x7F, 1};
    static const uint8_t front[] = {0x42, 10, 0x7F, 21, 0x42, 7};
    static const uint8_t alone[] = {0x42, 10, 0x42, 30};
    static const struct {
        uint8_t heads[6];
        size_t offset;
    } bad[] = {
        {{0x42, 10, 0x7F, 29, 0, 0}, 43}, {{0x42, 10, 0x7F, 31, 0, 0}, 12},  {{0x7F, 19, 0x7F, 21, 0, 0}, 21},
        {{0x42, 10, 0x48, 30, 0, 0}, 12}, {{0x42, 2, 0x7F, 0, 0x42, 36}, 4}, {{0x48, 42, 0, 0, 0, 0}, 0},
    };
    uint8_t slot[44];
    S2xv2Record record = unread();
    S2xv2Record read = unread();
    S2xv2Job job = unbegun();
    S2xv2Part part;
    size_t k;
    lay(slot, 21, short_body, sizeof short_body);
    CHECK(told_short(read_slot(slot, 21), 1, 18, 0, 18));

    lay(slot, 44, front, sizeof front);
    slot[12 + 3 + 17] = 7;
    CHECK(told(s2xv2_slot_read(slot, 44, &record), S2XV2_ACCEPTED, 33, 2, 0) && record.symbol_rate == 7);
    part = s2xv2_slot_reserved_tail(slot, 44);
    CHECK(part.place == 33 && part.length == 2);
    CHECK(told(s2xv2_begin(slot, 44, &record, NULL, 0, &job), S2XV2_ACCEPTED, 46, 0, 0));
    CHECK(s2xv2_step_in_place(&job, slot, 44, 1).stores == 1 && told(read_slot(slot, 44), S2XV2_ACCEPTED, 33, 2, 0));
    CHECK(s2xv2_step_in_place(&job, slot, 44, 1).stores == 1 && told(read_slot(slot, 44), S2XV2_ACCEPTED, 0, 0, 0));
    CHECK(s2xv2_step_in_place(&job, slot, 44, 44).done == 1 && slot[0] == S2XV2_TAG);
    CHECK(told(s2xv2_slot_read(slot, 44, &read), S2XV2_ACCEPTED, 21, 0, 0) && read.symbol_rate == 7);

    lay(slot, 44, alone, sizeof alone);
    CHECK(told(read_slot(slot, 44), S2XV2_ACCEPTED, 0, 0, 0));
    for (k = 0; k < sizeof bad / sizeof *bad; k++) {
        const size_t offset = bad[k].offset;
        lay(slot, 44, bad[k].heads, bad[k].heads[4] == 0 ? 4 : 6);
        CHECK(told(read_slot(slot, 44), S2XV2_SLOT_FORM, offset, 0, 0));
        CHECK(told(begun(slot, 44, &record, NULL, 0), S2XV2_SLOT_FORM, offset, 0, 0));
        CHECK(told(read_slot(slot, 20), S2XV2_SLOT, 0, 0, 0) && told(begun(slot, 20, &record, NULL, 0), S2XV2_SLOT, 0, 0, 0));
        part = s2xv2_slot_reserved_tail(slot, 44);
        CHECK(part.place == 0 && part.length == 0);
        CHECK(told(s2xv2_slot_make_empty(slot, 44), S2XV2_ACCEPTED, 0, 0, 0));
        CHECK(told(begun(slot, 44, &record, NULL, 0), S2XV2_ACCEPTED, 46, 0, 0));
    }
}

static void begins(void) {
    uint8_t slot[22];
    S2xv2Record record = zeros();
    S2xv2Job refused = unbegun();
    S2xv2Job job = no_job();
    memset(slot, 7, sizeof slot);
    CHECK(told(begun(NULL, 0, &record, NULL, 0), S2XV2_SLOT, 0, 0, 0));
    record.mode_is_reserved = 1;
    CHECK(told(begun(slot, 20, &record, NULL, 0), S2XV2_SLOT, 0, 0, 0));
    CHECK(told(begun(slot, 22, &record, NULL, 0), S2XV2_SLOT_FORM, 0, 0, 0));
    CHECK(told(s2xv2_slot_make_empty(slot, 22), S2XV2_ACCEPTED, 0, 0, 0));
    CHECK(told(begun(slot, 22, &record, NULL, 0), S2XV2_INCONSISTENT, 1, 0, 0));
    record.mode_is_reserved = 0;
    CHECK(told(s2xv2_begin(slot, 22, &record, NULL, 0, &refused), S2XV2_NO_FIT, 21, 0, 0) && is_no_job(&refused));

    CHECK(s2xv2_step(refused, slot, 22, 1).told.number == S2XV2_OTHER_SIZE);
    CHECK(s2xv2_step_in_place(&job, slot, 22, 1).number == S2XV2_OTHER_SIZE);
    CHECK(s2xv2_step_in_place(&job, NULL, 0, 1).number == S2XV2_OTHER_SIZE);
    CHECK(s2xv2_step(job, NULL, 0, 1).told.number == S2XV2_OTHER_SIZE);
    CHECK(slot[0] == 0x42 && slot[1] == 20 && all(slot + 2, 20, 0xFF));
}

static void steps(void) {
    const uint8_t tail[2] = {1, 2};
    uint8_t slot[23];
    S2xv2Record record = zeros();
    S2xv2Record read = unread();
    S2xv2Job job = unbegun();
    S2xv2Stepped stepped;
    S2xv2Advanced told_in_place;
    S2xv2Part part;
    record.symbol_rate = 7;
    CHECK(told(s2xv2_slot_make_empty(slot, 23), S2XV2_ACCEPTED, 0, 0, 0));
    CHECK(told(s2xv2_begin(slot, 23, &record, tail, 2, &job), S2XV2_ACCEPTED, 25, 0, 0));
    stepped = s2xv2_step(job, slot, 23, 24);
    CHECK(stepped.told.number == 0 && stepped.told.stores == 24 && stepped.told.done == 0 && stepped.job.stores_made == 24);
    CHECK(told(read_slot(slot, 23), S2XV2_ACCEPTED, 0, 0, 0));
    stepped = s2xv2_step(stepped.job, slot, 22, 24);
    CHECK(stepped.told.number == S2XV2_OTHER_SIZE && stepped.told.stores == 0 && stepped.told.done == 0 && stepped.job.stores_made == 24);
    told_in_place = s2xv2_step_in_place(&stepped.job, slot, 23, SIZE_MAX);
    CHECK(told_in_place.number == 0 && told_in_place.stores == 1 && told_in_place.done == 1 && stepped.job.stores_made == 25);
    CHECK(told(s2xv2_slot_read(slot, 23, &read), S2XV2_ACCEPTED, 21, 2, 0) && read.symbol_rate == 7);
    part = s2xv2_slot_reserved_tail(slot, 23);
    CHECK(part.place == 21 && part.length == 2);
}

/* Jobs that no begin gave: accepted exactly if begin and steps could have given their numbers, stepped by value and in place alike; a refused step changes nothing. */
static void forged(S2xv2Job job, size_t allowance) {
    const int fair = job.slot_size == 23 && job.descriptor_size >= 21 && job.descriptor_size <= 23 && job.descriptor_size != 22 && job.stores_made <= 25;
    const size_t left = fair ? 25 - job.stores_made : 0;
    const size_t due = allowance < left ? allowance : left;
    uint8_t slot[24];
    uint8_t other[24];
    S2xv2Stepped stepped;
    S2xv2Advanced told_in_place;
    memset(slot, 0xA5, sizeof slot);
    memset(other, 0xA5, sizeof other);
    stepped = s2xv2_step(job, slot, 23, allowance);
    CHECK(stepped.told.number == (fair ? 0 : S2XV2_OTHER_SIZE) && stepped.told.stores == due && stepped.told.done == (fair && due == left));
    CHECK(stepped.job.stores_made == job.stores_made + due && slot[23] == 0xA5);
    CHECK(due > 0 || all(slot, 23, 0xA5));
    told_in_place = s2xv2_step_in_place(&job, other, 23, allowance);
    CHECK(told_in_place.number == stepped.told.number && told_in_place.stores == due && told_in_place.done == stepped.told.done);
    CHECK(job.stores_made == stepped.job.stores_made && job.slot_size == stepped.job.slot_size && job.descriptor_size == stepped.job.descriptor_size);
    CHECK(memcmp(slot, other, sizeof slot) == 0);
}

static void forgeries(void) {
    const size_t numbers[] = {0, 1, 2, 20, 21, 22, 23, 24, 25, 26, 257, 258, SIZE_MAX - 1, SIZE_MAX};
    const size_t allowances[] = {0, 1, 24, 25, 26, SIZE_MAX};
    const size_t count = sizeof numbers / sizeof numbers[0];
    S2xv2Job job = no_job();
    size_t k, a;
    memset(job.staged, 0x7F, sizeof job.staged);
    for (k = 0; k < count * count * count; k++) {
        for (a = 0; a < sizeof allowances / sizeof allowances[0]; a++) {
            job.slot_size = numbers[k % count];
            job.descriptor_size = numbers[k / count % count];
            job.stores_made = numbers[k / count / count];
            forged(job, allowances[a]);
        }
    }
}

/* The sizes and the tags are those by which the library answers. */
static void constants(void) {
    static uint8_t bytes[S2XV2_MAX_LEN + 1];
    uint8_t slot[S2XV2_SLOT_MAX_SIZE + 1];
    S2xv2Record record;
    S2xv2Job job;
    size_t n;
    CHECK(sizeof(S2xv2Job) == S2XV2_JOB_SIZE && sizeof job.staged == S2XV2_SLOT_MAX_SIZE);
    for (n = 0; n <= sizeof slot; n++) {
        CHECK((s2xv2_slot_make_empty(slot, n).number == S2XV2_ACCEPTED) == (n >= S2XV2_SLOT_MIN_SIZE && n <= S2XV2_SLOT_MAX_SIZE));
    }
    CHECK(slot[0] == S2XV2_STUFFING_TAG);
    CHECK(s2xv2_parse(bytes, S2XV2_MAX_LEN, &record).number == S2XV2_ACCEPTED);
    CHECK(s2xv2_parse(bytes, S2XV2_MAX_LEN + 1, &record).number == S2XV2_LONG);
    record = zeros();
    n = S2XV2_SLOT_MIN_SIZE + 2;
    CHECK(s2xv2_slot_make_empty(slot, n).number == S2XV2_ACCEPTED && s2xv2_begin(slot, n, &record, 0, 0, &job).number == S2XV2_ACCEPTED);
    CHECK(s2xv2_step_in_place(&job, slot, n, SIZE_MAX).done == 1);
    CHECK(slot[0] == S2XV2_TAG && slot[1] == 19 && slot[2] == S2XV2_TAG_EXTENSION && slot[21] == S2XV2_STUFFING_TAG);
}

/* A record of a mode, with every part that it may have, that list A and list B accept. */
static S2xv2Record with_parts(uint8_t mode) {
    S2xv2Record record = zeros();
    record.s2xv2_mode = mode;
    record.multiple_input_stream_flag = record.has_input_stream_identifier = 1;
    record.channel_bond = 1;
    record.num_channel_bonds = 2;
    record.has_timeslice_number = mode == 2 || mode == 5;
    if (mode == 1 || mode == 2) {
        record.has_scrambling_sequence_selector = record.scrambling_sequence_selector = record.has_scrambling_sequence_index = 1;
    }
    if (mode == 4 || mode == 5) {
        record.has_superframe = record.sffi_selector = record.has_sffi = 1;
        record.beam_hopping_time_plan_selector = record.has_beamhopping_time_plan_id = 1;
    }
    return record;
}

/* The place that a record of a mode is refused at once a field has a value. */
#define TELLS(mode, field, value, why, place)                                                                                              \
    do {                                                                                                                                   \
        S2xv2Record record = with_parts(mode);                                                                                             \
        CHECK(told(s2xv2_serialize_into(&record, 0, 0, buffer, sizeof buffer), S2XV2_ACCEPTED, with_parts_length(mode), 0, 0));            \
        record.field = value;                                                                                                              \
        CHECK(told(s2xv2_serialize_into(&record, 0, 0, buffer, sizeof buffer), why, place, 0, 0));                                         \
    } while (0)

/* 18, 1 and 9 for what every mode has here, and what the mode asks for. */
static size_t with_parts_length(uint8_t mode) {
    return 28 + (mode == 1 || mode == 2 ? 3 : 0) + (mode == 2 || mode == 5 ? 1 : 0) + (mode == 4 || mode == 5 ? 12 : 0);
}

/* A body of a mode that is cut anywhere below `end`, and not below `start`, misses this part, and has so many bytes at the least. */
static void misses(uint8_t mode, size_t start, size_t end, size_t place, size_t least) {
    uint8_t body[64];
    S2xv2Record record = with_parts(mode);
    CHECK(s2xv2_serialize_into(&record, 0, 0, body, sizeof body).number == S2XV2_ACCEPTED);
    for (; start < end; start++) {
        CHECK(told_short(s2xv2_parse(body, start, &record), place, end, start, least));
    }
}

/* Each place has the name of its part or its field. */
static void names_of_places(void) {
    uint8_t buffer[64];
    misses(5, 0, 18, S2XV2_SHORT_CORE, 18);
    misses(5, 18, 19, S2XV2_SHORT_INPUT_STREAM_IDENTIFIER, 33);
    misses(2, 19, 22, S2XV2_SHORT_SCRAMBLING, 28);
    misses(2, 22, 23, S2XV2_SHORT_TIMESLICE_NUMBER, 28);
    misses(5, 19, 20, S2XV2_SHORT_TIMESLICE_NUMBER, 33);
    misses(5, 20, 21, S2XV2_SHORT_BOND_HEADER, 33);
    misses(5, 21, 25, S2XV2_SHORT_SECONDARY_ID, 37);
    misses(5, 25, 29, S2XV2_SHORT_SECONDARY_ID, 37);
    misses(5, 29, 37, S2XV2_SHORT_SUPERFRAME, 37);
    misses(5, 37, 40, S2XV2_SHORT_BEAMHOPPING_TIME_PLAN_ID, 41);
    misses(5, 40, 41, S2XV2_SHORT_LAST_BYTE, 41);

    TELLS(0, mode_is_reserved, 1, S2XV2_INCONSISTENT, S2XV2_INCONSISTENT_S2XV2_MODE);
    TELLS(0, has_input_stream_identifier, 0, S2XV2_INCONSISTENT, S2XV2_INCONSISTENT_INPUT_STREAM_IDENTIFIER);
    TELLS(1, has_scrambling_sequence_selector, 0, S2XV2_INCONSISTENT, S2XV2_INCONSISTENT_SCRAMBLING_SEQUENCE_SELECTOR);
    TELLS(1, scrambling_sequence_selector, 0, S2XV2_INCONSISTENT, S2XV2_INCONSISTENT_SCRAMBLING_SEQUENCE_INDEX);
    TELLS(2, has_timeslice_number, 0, S2XV2_INCONSISTENT, S2XV2_INCONSISTENT_TIMESLICE_NUMBER);
    TELLS(0, channel_bond, 0, S2XV2_INCONSISTENT, S2XV2_INCONSISTENT_NUM_CHANNEL_BONDS);
    TELLS(4, has_superframe, 0, S2XV2_INCONSISTENT, S2XV2_INCONSISTENT_SUPERFRAME);
    TELLS(4, sffi_selector, 0, S2XV2_INCONSISTENT, S2XV2_INCONSISTENT_SFFI);
    TELLS(4, beam_hopping_time_plan_selector, 0, S2XV2_INCONSISTENT, S2XV2_INCONSISTENT_BEAMHOPPING_TIME_PLAN_ID);

    TELLS(0, s2xv2_mode, 16, S2XV2_FIELD, S2XV2_FIELD_S2XV2_MODE);
    TELLS(0, roll_off, 8, S2XV2_FIELD, S2XV2_FIELD_ROLL_OFF);
    TELLS(0, reserved_zero_future_use_2, 4, S2XV2_FIELD, S2XV2_FIELD_RESERVED_ZERO_FUTURE_USE_2);
    TELLS(0, polarization, 4, S2XV2_FIELD, S2XV2_FIELD_POLARIZATION);
    TELLS(0, reserved_zero_future_use_1, 2, S2XV2_FIELD, S2XV2_FIELD_RESERVED_ZERO_FUTURE_USE_1);
    TELLS(0, ts_gs_s2x_mode, 4, S2XV2_FIELD, S2XV2_FIELD_TS_GS_S2X_MODE);
    TELLS(0, receiver_profiles, 32, S2XV2_FIELD, S2XV2_FIELD_RECEIVER_PROFILES);
    TELLS(0, satellite_id, 1 << 24, S2XV2_FIELD, S2XV2_FIELD_SATELLITE_ID);
    TELLS(1, has_scrambling_sequence_index, 0, S2XV2_FIELD, S2XV2_FIELD_SCRAMBLING_SEQUENCE_INDEX_MISSING);
    TELLS(1, scrambling_sequence_index, 1 << 18, S2XV2_FIELD, S2XV2_FIELD_SCRAMBLING_SEQUENCE_INDEX);
    TELLS(1, reserved_zero_future_use_6, 64, S2XV2_FIELD, S2XV2_FIELD_RESERVED_ZERO_FUTURE_USE_6);
    TELLS(0, num_channel_bonds, 3, S2XV2_FIELD, S2XV2_FIELD_NUM_CHANNEL_BONDS);
    TELLS(0, reserved_zero_future_use_7, 128, S2XV2_FIELD, S2XV2_FIELD_RESERVED_ZERO_FUTURE_USE_7);
    TELLS(4, reference_scrambling_index, 1 << 20, S2XV2_FIELD, S2XV2_FIELD_REFERENCE_SCRAMBLING_INDEX);
    TELLS(4, payload_scrambling_index, 1 << 20, S2XV2_FIELD, S2XV2_FIELD_PAYLOAD_SCRAMBLING_INDEX);
    TELLS(4, superframe_reserved_zero_future_use_2, 4, S2XV2_FIELD, S2XV2_FIELD_SUPERFRAME_RESERVED_ZERO_FUTURE_USE_2);
    TELLS(4, has_sffi, 0, S2XV2_FIELD, S2XV2_FIELD_SFFI_MISSING);
    TELLS(4, sffi, 16, S2XV2_FIELD, S2XV2_FIELD_SFFI);
    TELLS(4, has_beamhopping_time_plan_id, 0, S2XV2_FIELD, S2XV2_FIELD_BEAMHOPPING_TIME_PLAN_ID_MISSING);
    TELLS(4, superframe_pilots_wh_sequence_number, 32, S2XV2_FIELD, S2XV2_FIELD_SUPERFRAME_PILOTS_WH_SEQUENCE_NUMBER);
    TELLS(4, postamble_pli, 8, S2XV2_FIELD, S2XV2_FIELD_POSTAMBLE_PLI);
    {
        S2xv2Record record = zeros();
        record.channel_bond = 4;
        CHECK(told(s2xv2_serialize_into(&record, 0, 0, buffer, sizeof buffer), S2XV2_FIELD, S2XV2_FIELD_CHANNEL_BOND, 0, 0));
    }
}

/* The header is of the archive's version. */
static void version(void) {
    CHECK(s2xv2_version() == S2XV2_VERSION);
    CHECK(S2XV2_VERSION == 65536 * S2XV2_VERSION_MAJOR + 256 * S2XV2_VERSION_MINOR + S2XV2_VERSION_PATCH);
}

int main(void) {
    version();
    constants();
    names_of_places();
    vectors();
    shapes();
    reading();
    cuts();
    writing();
    flags();
    turned();
    codes();
    absentees();
    lengths();
    slots();
    stuffed_slots();
    begins();
    steps();
    forgeries();
    return wrong;
}
