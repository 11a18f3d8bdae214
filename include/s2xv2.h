/* Reads, measures and writes the body of an S2Xv2 satellite delivery system descriptor (ETSI EN 300 468,
   6.4.6.5.3), and replaces the descriptor in a slot of a live loop by single-byte stores with a place to stop
   between any two, from C11 or C++.

   Every call takes any bytes, record, slot or job, and refuses the bad ones by number; none traps, and a refused
   call stores nothing in a buffer or a slot. docs/ANSWERS.md has every number, what it tells and when it is given.
   A pointer whose length is 0 may be null. A length may be any number: a body or a tail above 4,096 bytes, and a
   slot below 21 or above 257, are refused before a byte of them is looked at. What remains the caller's duty: that
   as many bytes as a smaller length says are there, that a record or a job lent by pointer is not null, and that
   what a call may write (a record, a buffer, a slot, a job) overlaps nothing else that is lent to it. Nothing that
   is lent is kept. Link with libs2xv2.a, which `dist/make` writes for x86-64 Linux. */
#ifndef S2XV2_H
#define S2XV2_H

#include <stddef.h>
#include <stdint.h>

#ifdef __cplusplus
extern "C" {
#endif

/* The version of this header, and as one number. An archive is for a header of the same version: s2xv2_version() tells
   the version that was linked. */
#define S2XV2_VERSION_MAJOR 0
#define S2XV2_VERSION_MINOR 5
#define S2XV2_VERSION_PATCH 0
#define S2XV2_VERSION (S2XV2_VERSION_MAJOR * 65536 + S2XV2_VERSION_MINOR * 256 + S2XV2_VERSION_PATCH)

/* Sizes in bytes, and tags. */
enum {
    S2XV2_SLOT_MIN_SIZE = 21,
    S2XV2_SLOT_MAX_SIZE = 257,
    S2XV2_MAX_LEN = 4096,       /* of a body, and of what a record is written as, with its tail */
    S2XV2_JOB_SIZE = 288,       /* of an S2xv2Job */
    S2XV2_TAG = 0x7F,           /* the first byte of the descriptor */
    S2XV2_TAG_EXTENSION = 0x24, /* its third byte */
    S2XV2_STUFFING_TAG = 0x42   /* the first byte of stuffing, which may stand on either side of the descriptor */
};

/* The number of an answer. What it tells stands in `first` to `fourth`, with 0 where it tells less. */
enum {
    S2XV2_ACCEPTED = 0,     /* first: the result */
    S2XV2_SHORT = 1,        /* first: the place of the missing part, second: where it ends, third: the body's length,
                               fourth: how long the whole body is at the least */
    S2XV2_LONG = 2,         /* first: the length, 65,535 for all above that */
    S2XV2_INCONSISTENT = 3, /* first: the first place of list A that holds */
    S2XV2_FIELD = 4,        /* first: the first place of list B that holds */
    S2XV2_ROOM = 5,         /* first: the bytes that are needed, second: those that are there */
    S2XV2_SLOT = 6,         /* the slot's size is not from 21 to 257 */
    S2XV2_NO_FIT = 7,       /* first: the descriptor's size, which is larger than the slot's or exactly one smaller */
    S2XV2_OTHER_SIZE = 8,   /* the slot's size is not the job's, or no begin and steps could give the job's numbers */
    S2XV2_SLOT_FORM = 12    /* the slot's size is good and its form is not; first: where the first descriptor starts that
                               breaks the form, counted from the slot's start */
};

/* The places that S2XV2_SHORT tells: the part that is missing. */
enum {
    S2XV2_SHORT_CORE = 1,
    S2XV2_SHORT_INPUT_STREAM_IDENTIFIER = 2,
    S2XV2_SHORT_SCRAMBLING = 3, /* the part that has scrambling_sequence_index */
    S2XV2_SHORT_TIMESLICE_NUMBER = 4,
    S2XV2_SHORT_BOND_HEADER = 5, /* of the secondary ids */
    S2XV2_SHORT_SECONDARY_ID = 6, /* the first or the second */
    S2XV2_SHORT_SUPERFRAME = 7,
    S2XV2_SHORT_BEAMHOPPING_TIME_PLAN_ID = 8,
    S2XV2_SHORT_LAST_BYTE = 9 /* of a superframe block with a plan id */
};

/* The places that S2XV2_INCONSISTENT tells, list A: the field that contradicts another. */
enum {
    S2XV2_INCONSISTENT_S2XV2_MODE = 1,
    S2XV2_INCONSISTENT_INPUT_STREAM_IDENTIFIER = 2,
    S2XV2_INCONSISTENT_SCRAMBLING_SEQUENCE_SELECTOR = 3,
    S2XV2_INCONSISTENT_SCRAMBLING_SEQUENCE_INDEX = 4,
    S2XV2_INCONSISTENT_TIMESLICE_NUMBER = 5,
    S2XV2_INCONSISTENT_NUM_CHANNEL_BONDS = 6,
    S2XV2_INCONSISTENT_SUPERFRAME = 7, /* the block */
    S2XV2_INCONSISTENT_SFFI = 8,
    S2XV2_INCONSISTENT_BEAMHOPPING_TIME_PLAN_ID = 9
};

/* The places that S2XV2_FIELD tells, list B: the field that the wire cannot carry. With no other word, it has too many
   bits. */
enum {
    S2XV2_FIELD_S2XV2_MODE = 1,
    S2XV2_FIELD_ROLL_OFF = 2,
    S2XV2_FIELD_RESERVED_ZERO_FUTURE_USE_2 = 3,
    S2XV2_FIELD_CHANNEL_BOND = 4,
    S2XV2_FIELD_POLARIZATION = 5,
    S2XV2_FIELD_RESERVED_ZERO_FUTURE_USE_1 = 6,
    S2XV2_FIELD_TS_GS_S2X_MODE = 7,
    S2XV2_FIELD_RECEIVER_PROFILES = 8,
    S2XV2_FIELD_SATELLITE_ID = 9,
    S2XV2_FIELD_SCRAMBLING_SEQUENCE_INDEX_MISSING = 10, /* though its selector is set */
    S2XV2_FIELD_SCRAMBLING_SEQUENCE_INDEX = 11,
    S2XV2_FIELD_RESERVED_ZERO_FUTURE_USE_6 = 12,
    S2XV2_FIELD_NUM_CHANNEL_BONDS = 13, /* not 1 or 2 under channel_bond 1 */
    S2XV2_FIELD_RESERVED_ZERO_FUTURE_USE_7 = 14,
    S2XV2_FIELD_REFERENCE_SCRAMBLING_INDEX = 15,
    S2XV2_FIELD_PAYLOAD_SCRAMBLING_INDEX = 16,
    S2XV2_FIELD_SUPERFRAME_RESERVED_ZERO_FUTURE_USE_2 = 17,
    S2XV2_FIELD_SFFI_MISSING = 18, /* though its selector is set */
    S2XV2_FIELD_SFFI = 19, /* or reserved_zero_future_use_4 in its place */
    S2XV2_FIELD_BEAMHOPPING_TIME_PLAN_ID_MISSING = 20, /* though its selector is set */
    S2XV2_FIELD_SUPERFRAME_PILOTS_WH_SEQUENCE_NUMBER = 21,
    S2XV2_FIELD_POSTAMBLE_PLI = 22
};

/* An answer: its number, and what it tells. The header of 0.1.0 has no `fourth`: a caller that was built against it has
   to be built again. */
typedef struct {
    uint16_t number;
    uint16_t first;
    uint16_t second;
    uint16_t third;
    uint16_t fourth;
} S2xv2Answer;

/* A record: ten numbers of 32 bits, and 36 bytes behind them. Any numbers are a record.

   A flag is clear if it is 0, and set if it is anything else; a flag that is read is 0 or 1. A number, a selector
   or a block that may be absent has a flag `has_` beside it: where that is clear it is read as 0, and is not looked
   at when it is written, whatever it holds, nor is anything inside such a block. The superframe block is the fields
   that say so. `s2xv2_mode` is the code: below 6 the mode has a name, and from 6 on it is `Reserved(code)`, as it is
   with `mode_is_reserved` for every code; list A refuses `Reserved(code)` with a code below 6. */
typedef struct {
    uint32_t delivery_system_id;
    uint32_t satellite_id;
    uint32_t symbol_rate;
    uint32_t frequency;
    uint32_t scrambling_sequence_index;
    uint32_t secondary_delivery_system_ids[2];
    uint32_t reference_scrambling_index; /* of the superframe block */
    uint32_t payload_scrambling_index;   /* of the block */
    uint32_t beamhopping_time_plan_id;   /* of the block */

    uint8_t multiple_input_stream_flag;
    uint8_t scrambling_sequence_selector;
    uint8_t sffi_selector;                   /* of the block */
    uint8_t beam_hopping_time_plan_selector; /* of the block */
    uint8_t has_input_stream_identifier;
    uint8_t has_scrambling_sequence_index;
    uint8_t has_sffi;                     /* of the block */
    uint8_t has_beamhopping_time_plan_id; /* of the block */
    uint8_t mode_is_reserved;
    uint8_t has_scrambling_sequence_selector;
    uint8_t has_timeslice_number;
    uint8_t has_superframe;
    uint8_t reserved_zero_future_use_2;
    uint8_t ncr_reference;
    uint8_t ncr_version;
    uint8_t channel_bond;
    uint8_t ts_gs_s2x_mode;
    uint8_t receiver_profiles;
    uint8_t reserved_zero_future_use_1;
    uint8_t polarization;
    uint8_t s2xv2_mode;
    uint8_t roll_off;
    uint8_t num_channel_bonds;
    uint8_t reserved_zero_future_use_7;
    uint8_t input_stream_identifier;
    uint8_t timeslice_number;
    uint8_t reserved_zero_future_use_6;
    uint8_t sosf_wh_sequence_number;               /* of the block */
    uint8_t superframe_reserved_zero_future_use_2; /* of the block */
    uint8_t sffi;                                  /* of the block */
    uint8_t reserved_zero_future_use_4;            /* of the block */
    uint8_t superframe_pilots_wh_sequence_number;  /* of the block */
    uint8_t postamble_pli;                         /* of the block */
    uint8_t filler[3];                             /* read as 0, and not looked at */
} S2xv2Record;

/* A part of the bytes that were lent: where it starts, and how many it has. */
typedef struct {
    size_t place;
    size_t length;
} S2xv2Part;

/* A job is a value: it may be kept, copied and dropped at any time. The descriptor to be stored with 0 after it,
   both sizes in bytes, and how many of the slot's size + 2 stores are made. */
typedef struct {
    uint8_t staged[257];
    size_t slot_size;
    size_t descriptor_size;
    size_t stores_made;
} S2xv2Job;

/* What a step tells: how many stores it made, 0 or 8, and whether the job has no store left. */
typedef struct {
    size_t stores;
    uint8_t number;
    uint8_t done;
} S2xv2Advanced;

typedef struct {
    S2xv2Job job;
    S2xv2Advanced told;
} S2xv2Stepped;

/* The version of the archive that was linked, as S2XV2_VERSION has it. */
uint32_t s2xv2_version(void);

/* The calls of the archive that take a record or a job apart. Those for a C program, by the same names without
   `raw`, stand below. */
S2xv2Answer s2xv2_raw_parse(const uint8_t *body, size_t length, uint32_t *numbers, uint8_t *bytes);
S2xv2Answer s2xv2_raw_serialized_len(const uint32_t *numbers, const uint8_t *bytes, const uint8_t *tail, size_t tail_length);
S2xv2Answer s2xv2_raw_serialize_into(const uint32_t *numbers, const uint8_t *bytes, const uint8_t *tail, size_t tail_length,
                                     uint8_t *buffer, size_t buffer_length);
S2xv2Answer s2xv2_raw_slot_read(const uint8_t *slot, size_t size, uint32_t *numbers, uint8_t *bytes);
S2xv2Answer s2xv2_raw_begin(const uint8_t *slot, size_t size, const uint32_t *numbers, const uint8_t *bytes, const uint8_t *tail,
                            size_t tail_length, uint8_t *staged, size_t *sizes);

/* Where the parts of a record and of a job start. */
static inline uint32_t *s2xv2_raw_numbers(S2xv2Record *record) { return (uint32_t *)(void *)record; }
static inline uint8_t *s2xv2_raw_bytes(S2xv2Record *record) { return (uint8_t *)(void *)record + 40; }
static inline const uint32_t *s2xv2_raw_numbers_of(const S2xv2Record *record) { return (const uint32_t *)(const void *)record; }
static inline const uint8_t *s2xv2_raw_bytes_of(const S2xv2Record *record) { return (const uint8_t *)(const void *)record + 40; }
static inline uint8_t *s2xv2_raw_staged(S2xv2Job *job) { return (uint8_t *)(void *)job; }
static inline size_t *s2xv2_raw_sizes(S2xv2Job *job) { return (size_t *)(void *)((uint8_t *)(void *)job + 264); }

/* The record of a body. Accepted tells where the tail starts, which goes to the body's end. Refuses with 2 and 1.
   Every byte of the record is stored: zeros where the body is refused. */
static inline S2xv2Answer s2xv2_parse(const uint8_t *body, size_t length, S2xv2Record *record) {
    return s2xv2_raw_parse(body, length, s2xv2_raw_numbers(record), s2xv2_raw_bytes(record));
}

/* The tail of a body. Of a body that s2xv2_parse refuses, the part of 0 bytes at place 0. */
S2xv2Part s2xv2_reserved_tail(const uint8_t *body, size_t length);

/* How many bytes a record takes with a tail. Accepted tells the length. Refuses with 3 and 2. */
static inline S2xv2Answer s2xv2_serialized_len(const S2xv2Record *record, const uint8_t *tail, size_t tail_length) {
    return s2xv2_raw_serialized_len(s2xv2_raw_numbers_of(record), s2xv2_raw_bytes_of(record), tail, tail_length);
}

/* Writes a record and its tail to the start of a buffer, and keeps the bytes behind them. Accepted tells the
   length. Refuses with 3, 2, 5 and 4, and stores nothing then. */
static inline S2xv2Answer s2xv2_serialize_into(const S2xv2Record *record, const uint8_t *tail, size_t tail_length, uint8_t *buffer,
                                               size_t buffer_length) {
    return s2xv2_raw_serialize_into(s2xv2_raw_numbers_of(record), s2xv2_raw_bytes_of(record), tail, tail_length, buffer,
                                    buffer_length);
}

/* A slot of 21 to 257 bytes is in good form if descriptors, one behind the other, cover it exactly, each of them
   stuffing (0x42, of any length) or ours (0x7F, of a length of at least 1, with 0x24 as its third byte), and at most
   one of them ours. It holds what that one holds, wherever it stands, and is empty if there is none. The form is broken
   by a descriptor that runs past the slot's end or of which one byte is left, by one that is neither stuffing nor ours,
   by a 0x7F of length 0, and by the second 0x7F. */

/* What a slot holds. Accepted tells where the tail starts, counted from the slot's start, and how many bytes it has,
   to the end of our descriptor; an empty slot is accepted with 0 and 0. Refuses with 6 a wrong size, then with 12 a
   slot that is not in good form, then with 1 what s2xv2_parse refuses of the body, whose numbers count from the body's
   start. Every byte of the record is stored: zeros where the slot is empty or refused. */
static inline S2xv2Answer s2xv2_slot_read(const uint8_t *slot, size_t size, S2xv2Record *record) {
    return s2xv2_raw_slot_read(slot, size, s2xv2_raw_numbers(record), s2xv2_raw_bytes(record));
}

/* The tail of the record that a slot holds. Of a slot that holds none, the part of 0 bytes at place 0. */
S2xv2Part s2xv2_slot_reserved_tail(const uint8_t *slot, size_t size);

/* Makes a slot that is not in use empty, whatever it holds. Refuses with 6 a size below 21 or above 257, and stores
   nothing then. */
S2xv2Answer s2xv2_slot_make_empty(uint8_t *slot, size_t size);

/* A job that stores a record and its tail in a slot, as its first descriptor, whatever stood there. Stores nothing in
   the slot. Accepted tells how many stores the job makes. Refuses with 6, 12, 3, 2, 7 and 4. Every byte and number of
   the job is stored: zeros where it is refused, and a step refuses such a job. */
static inline S2xv2Answer s2xv2_begin(const uint8_t *slot, size_t size, const S2xv2Record *record, const uint8_t *tail,
                                      size_t tail_length, S2xv2Job *job) {
    return s2xv2_raw_begin(slot, size, s2xv2_raw_numbers_of(record), s2xv2_raw_bytes_of(record), tail, tail_length,
                           s2xv2_raw_staged(job), s2xv2_raw_sizes(job));
}

/* Makes the smaller of the allowance and the stores left, and gives back the job. Refuses with 8: then it stores
   nothing, and the job comes back as it came. */
S2xv2Stepped s2xv2_step(S2xv2Job job, uint8_t *slot, size_t size, size_t allowance);

/* The same for a job where it stands, which must not be null. A refused step leaves the job as it was. */
S2xv2Advanced s2xv2_step_in_place(S2xv2Job *job, uint8_t *slot, size_t size, size_t allowance);

#ifdef __cplusplus
}
#endif

#endif
