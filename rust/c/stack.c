/* The deepest stack of each call of include/s2xv2.h, in bytes below its caller's: the stack is painted below the stack pointer, the call is made, and the
   lowest byte that changed is looked for. For x86-64. Prints a row of docs/SPEED.md for each call.

     cc -O2 -Iinclude rust/c/stack.c target/dist/lib/libs2xv2.a -o stack && ./stack */
#include <stdio.h>
#include <string.h>
#include "s2xv2.h"

enum { ROOM = 8192 };
static uint8_t body[64], slot[64], other[64], buffer[64];
static S2xv2Record record, odd;
static S2xv2Job job;

static void parse(void) { s2xv2_parse(body, 45, &record); }
static void refused(void) { s2xv2_parse(body, 44, &record); }
static void tail(void) { s2xv2_reserved_tail(body, 45); }
static void length(void) { s2xv2_serialized_len(&record, body, 4); }
static void long_length(void) { s2xv2_serialized_len(&odd, body, 4); }
static void write(void) { s2xv2_serialize_into(&record, body, 4, buffer, 64); }
static void long_write(void) { s2xv2_serialize_into(&odd, body, 4, buffer, 64); }
static void slot_read(void) { s2xv2_slot_read(slot, 64, &record); }
static void slot_tail(void) { s2xv2_slot_reserved_tail(slot, 64); }
static void empty(void) { s2xv2_slot_make_empty(other, 64); }
static void begin(void) { s2xv2_begin(slot, 64, &record, body, 4, &job); }
static void long_begin(void) { s2xv2_begin(slot, 64, &odd, body, 4, &job); }
static void step(void) { s2xv2_step(job, slot, 64, 1); }
static void step_in_place(void) { s2xv2_step_in_place(&job, slot, 64, 1); }

/* How far below the stack pointer here a call writes. It is made once before, so that the loader has found what it calls. */
static __attribute__((noinline)) size_t deepest(void (*call)(void)) {
    volatile uint8_t *top, *p;
    call();
    __asm__ volatile("mov %%rsp, %0" : "=r"(top));
    for (p = top - ROOM; p < top; p++) *p = 0xA5;
    call();
    for (p = top - ROOM; p < top && *p == 0xA5;) p++;
    return (size_t)(top - p);
}

int main(void) {
    static const struct { const char *name; void (*call)(void); } calls[] = {
        {"parse", parse}, {"parse, refused", refused}, {"reserved_tail", tail}, {"serialized_len", length}, {"serialized_len, the long way", long_length},
        {"serialize_into", write}, {"serialize_into, the long way", long_write}, {"slot_read", slot_read}, {"slot_reserved_tail", slot_tail},
        {"slot_make_empty", empty}, {"begin", begin}, {"begin, the long way", long_begin}, {"step", step}, {"step_in_place", step_in_place}};
    size_t i;
    memset(body, 1, sizeof body);
    body[4] = 0x5B;
    body[5] = 5;
    body[20] = 1;
    body[30] = 0xC0;
    s2xv2_slot_make_empty(slot, 64);
    if (s2xv2_parse(body, 45, &record).number != 0) return 1;
    odd = record;
    odd.multiple_input_stream_flag = 2;
    for (i = 0; i < sizeof calls / sizeof *calls; i++) {
        if (calls[i].call == slot_read || calls[i].call == slot_tail) {
            memset(slot, 0xFF, sizeof slot);
            slot[0] = 0x7F, slot[1] = 62, slot[2] = 0x24;
            memcpy(slot + 3, body, 61);
        } else {
            s2xv2_slot_make_empty(slot, 64);
        }
        printf("| %s | %zu |\n", calls[i].name, deepest(calls[i].call));
    }
    return 0;
}
