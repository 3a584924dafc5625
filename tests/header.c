/* What include/yaropesk.h says is so, tried by calling the library: its sizes, answers and kinds, the panels, where each byte
 * stands, what a sound record is, the times at each frequency, what the transfers of a plan may be answered, and captures.
 * Compiles as C99 and as C++98.
 * Prints a line for each check that fails, then 'N passed, M failed', and fails where M is not 0. */
#include <stdio.h>
#include <string.h>
#include "yaropesk.h"

/* Each with a byte more than it needs, so that other lengths can be tried. */
static uint8_t record[YAROPESK_RECORD_SIZE + 1];
static uint8_t memory[YAROPESK_MEMORY_SIZE + 1];
static uint8_t wish[YAROPESK_WISH_SIZE + 1];
static uint8_t marks[YAROPESK_MEMORY_SIZE + 1];
static uint8_t values[YAROPESK_MEMORY_SIZE + 1];
static uint8_t out[YAROPESK_PLAN_SIZE + 1];
static unsigned passed, failed;

/* Counts a check; the number helps to find it. */
static void check(const char *what, unsigned number, int holds) {
    if (holds) {
        passed++;
    } else {
        failed++;
        printf("header: FAILED: %s %u\n", what, number);
    }
}

/* The answer in what is returned is this one. */
static void answered(const char *what, uint64_t returned, uint32_t answer) {
    check(what, answer, YAROPESK_ANSWER(returned) == answer);
}

static uint32_t reset(size_t record_length, size_t memory_length) {
    return yaropesk_reset(record, record_length, memory, memory_length);
}

static uint32_t transfer(unsigned kind, unsigned byte, uint32_t wait) {
    return yaropesk_transfer(record, YAROPESK_RECORD_SIZE, memory, YAROPESK_MEMORY_SIZE, (uint8_t)kind, (uint8_t)byte, wait);
}

/* A transfer after a wait that always suffices. */
static uint32_t sent(unsigned kind, unsigned byte) {
    return transfer(kind, byte, 10000);
}

static uint32_t plan(size_t wish_length, size_t marks_length, size_t values_length, size_t out_length) {
    return yaropesk_plan(wish, wish_length, marks, marks_length, values, values_length, out, out_length);
}

static uint32_t plan_all(void) {
    return plan(YAROPESK_WISH_SIZE, YAROPESK_MEMORY_SIZE, YAROPESK_MEMORY_SIZE, YAROPESK_PLAN_SIZE);
}

static uint32_t picture_on(unsigned profile, unsigned columns, unsigned lines, size_t out_length) {
    return yaropesk_picture(record, YAROPESK_RECORD_SIZE, memory, YAROPESK_MEMORY_SIZE, (uint8_t)profile, (uint8_t)columns,
                            (uint8_t)lines, 1, out, out_length);
}

static uint32_t picture(unsigned columns, unsigned lines, size_t out_length) {
    return picture_on(YAROPESK_PLAIN, columns, lines, out_length);
}

/* A frequency, as its two bytes. */
static void put_khz(uint8_t *at, unsigned khz) {
    at[0] = (uint8_t)(khz % 256);
    at[1] = (uint8_t)(khz / 256);
}

/* A controller after a reset, its pattern cells 00h. */
static void start(void) {
    memset(memory, 0, sizeof memory);
    memset(record, 0, sizeof record);
    reset(YAROPESK_RECORD_SIZE, YAROPESK_MEMORY_SIZE);
}

/* The same where this oscillator is fitted. */
static void start_at(unsigned khz) {
    start();
    put_khz(record + YAROPESK_RECORD_FREQUENCY, khz);
}

/* The first at width 4. */
static void start_narrow(void) {
    start();
    sent(YAROPESK_INSTRUCTION_WRITE, 0x20);
}

/* Sizes: the size itself is taken, one byte less and, where it must be met, one more are not. */
static void try_lent_sizes(void) {
    answered("record and memory", reset(YAROPESK_RECORD_SIZE, YAROPESK_MEMORY_SIZE), YAROPESK_DONE);
    answered("short record", reset(YAROPESK_RECORD_SIZE - 1, YAROPESK_MEMORY_SIZE), YAROPESK_UNSOUND);
    answered("long record", reset(YAROPESK_RECORD_SIZE + 1, YAROPESK_MEMORY_SIZE), YAROPESK_UNSOUND);
    answered("short memory", reset(YAROPESK_RECORD_SIZE, YAROPESK_MEMORY_SIZE - 1), YAROPESK_NOT_WHOLE);
    answered("long memory", reset(YAROPESK_RECORD_SIZE, YAROPESK_MEMORY_SIZE + 1), YAROPESK_NOT_WHOLE);
    size_t m = YAROPESK_MEMORY_SIZE, w = YAROPESK_WISH_SIZE;
    answered("wish", plan_all(), YAROPESK_DONE);
    answered("short wish", plan(w - 1, m, m, YAROPESK_PLAN_SIZE), YAROPESK_NOT_WISH);
    answered("long wish", plan(w + 1, m, m, YAROPESK_PLAN_SIZE), YAROPESK_NOT_WISH);
    answered("short marks", plan(w, m - 1, m, YAROPESK_PLAN_SIZE), YAROPESK_NOT_WHOLE);
    answered("long marks", plan(w, m + 1, m, YAROPESK_PLAN_SIZE), YAROPESK_NOT_WHOLE);
    answered("short values", plan(w, m, m - 1, YAROPESK_PLAN_SIZE), YAROPESK_NOT_WHOLE);
    answered("long values", plan(w, m, m + 1, YAROPESK_PLAN_SIZE), YAROPESK_NOT_WHOLE);
}

/* Output sizes, and that what they are the size of can be so long. */
static void try_output_sizes(void) {
    size_t m = YAROPESK_MEMORY_SIZE, w = YAROPESK_WISH_SIZE;
    start();
    answered("short plan", plan(w, m, m, YAROPESK_PLAN_SIZE - 1), YAROPESK_OUTPUT_SHORT);
    memset(marks, 1, sizeof marks);
    wish[YAROPESK_WISH_SHIFT] = 79;
    check("longest plan", 0, YAROPESK_VALUE(plan_all()) * YAROPESK_TRANSFER_SIZE == YAROPESK_PLAN_SIZE);
    memset(marks, 0, sizeof marks);
    wish[YAROPESK_WISH_SHIFT] = 0;
    answered("largest picture", picture(40, 2, YAROPESK_PICTURE_SIZE), YAROPESK_DONE);
    answered("short picture", picture(40, 2, YAROPESK_PICTURE_SIZE - 1), YAROPESK_OUTPUT_SHORT);
    answered("columns", picture(41, 2, YAROPESK_PICTURE_SIZE), YAROPESK_BAD_SIZE);
    answered("lines", picture(40, 3, YAROPESK_PICTURE_SIZE), YAROPESK_BAD_SIZE);
    uint32_t line = yaropesk_write_line(YAROPESK_DATA_WRITE, 0xFF, 4294967295u, out, YAROPESK_LINE_SIZE);
    check("longest line", 0, line == YAROPESK_DONE + 256 * YAROPESK_LINE_SIZE);
    answered("short line", yaropesk_write_line(YAROPESK_DATA_WRITE, 0, 0, out, YAROPESK_LINE_SIZE - 1), YAROPESK_OUTPUT_SHORT);
}

/* The panels of fixed size: how long their pictures are, whatever the columns and lines, and that no other is known. */
static void try_profiles(void) {
    start();
    answered("four rows", picture_on(YAROPESK_FOUR_ROWS, 0, 255, 640), YAROPESK_DONE);
    answered("four rows, short", picture_on(YAROPESK_FOUR_ROWS, 1, 1, 639), YAROPESK_OUTPUT_SHORT);
    answered("divided row", picture_on(YAROPESK_DIVIDED, 255, 0, 128), YAROPESK_DONE);
    answered("divided row, short", picture_on(YAROPESK_DIVIDED, 1, 1, 127), YAROPESK_OUTPUT_SHORT);
    for (unsigned profile = 3; profile < 256; profile++)
        answered("unknown profile", picture_on(profile, 16, 2, YAROPESK_PICTURE_SIZE), YAROPESK_BAD_SIZE);
}

/* Where a panel shows the display cell at each address: a pattern of all dots there is seen at this line and column alone. */
static void try_places(void) {
    static const struct {
        unsigned profile, columns, lines, line, column, address;
    } rows[] = {
        {YAROPESK_PLAIN, 16, 2, 0, 0, 0x00},      {YAROPESK_PLAIN, 16, 2, 1, 15, 0x4F},
        {YAROPESK_FOUR_ROWS, 20, 4, 0, 0, 0x00},  {YAROPESK_FOUR_ROWS, 20, 4, 0, 19, 0x13},
        {YAROPESK_FOUR_ROWS, 20, 4, 1, 0, 0x40},  {YAROPESK_FOUR_ROWS, 20, 4, 2, 0, 0x14},
        {YAROPESK_FOUR_ROWS, 20, 4, 3, 0, 0x54},  {YAROPESK_FOUR_ROWS, 20, 4, 3, 19, 0x67},
        {YAROPESK_DIVIDED, 16, 1, 0, 7, 0x07},    {YAROPESK_DIVIDED, 16, 1, 0, 8, 0x40},
        {YAROPESK_DIVIDED, 16, 1, 0, 15, 0x47},
    };
    for (unsigned i = 0; i < sizeof rows / sizeof rows[0]; i++) {
        unsigned bytes = rows[i].lines * 8 * rows[i].columns, lit = 0;
        start();
        memset(memory + YAROPESK_PATTERN_START, 0x1F, 8);
        sent(YAROPESK_INSTRUCTION_WRITE, 0x38); /* N=1 */
        sent(YAROPESK_INSTRUCTION_WRITE, 0x0C); /* D=1 */
        sent(YAROPESK_INSTRUCTION_WRITE, 0x80 | rows[i].address);
        sent(YAROPESK_DATA_WRITE, 0x00);
        picture_on(rows[i].profile, rows[i].columns, rows[i].lines, bytes);
        for (unsigned at = 0; at < bytes; at++)
            lit += out[at] != 0;
        check("dots of one cell", i, lit == 8);
        for (unsigned row = 0; row < 8; row++)
            check("place of a cell", i, out[(rows[i].line * 8 + row) * rows[i].columns + rows[i].column] == 0x1F);
    }
}

/* Session lines: each kind's letter, and where a transfer's bytes stand. */
static void try_lines(void) {
    static const char letters[] = "IDSR";
    static const uint8_t text[] = "D\t41\t305419896\n"; /* 12345678h */
    static const unsigned kinds[] = {YAROPESK_INSTRUCTION_WRITE, YAROPESK_DATA_WRITE, YAROPESK_STATUS_READ, YAROPESK_DATA_READ};
    for (unsigned i = 0; i < 4; i++) {
        yaropesk_write_line((uint8_t)kinds[i], 0, 0, out, YAROPESK_LINE_SIZE);
        check("letter", i, out[0] == (uint8_t)letters[i]);
    }
    answered("kind", yaropesk_write_line(YAROPESK_DATA_READ + 1, 0, 0, out, YAROPESK_LINE_SIZE), YAROPESK_BAD_TRANSFER);
    /* A line that is cut, or has a byte that cannot stand, after so many bytes: its field, and where. */
    for (unsigned at = 0; at < sizeof text - 1; at++) {
        static const unsigned field[] = {YAROPESK_BAD_KIND, YAROPESK_BAD_KIND, YAROPESK_BAD_BYTE, YAROPESK_BAD_BYTE,
                                         YAROPESK_BAD_BYTE, YAROPESK_BAD_WAIT};
        unsigned answer = at < 6 ? field[at] : YAROPESK_NO_NEWLINE;
        uint8_t bent[sizeof text];
        memcpy(bent, text, sizeof text);
        bent[at] = 'x';
        memset(out, 0xA5, sizeof out);
        check("cut line", at, yaropesk_read_line(text, at, out, YAROPESK_TRANSFER_SIZE) == answer + 65536 * at);
        uint32_t refused = yaropesk_read_line(bent, sizeof text - 1, out, YAROPESK_TRANSFER_SIZE);
        answered("bent line", refused, answer);
        check("offset of a fault", at, YAROPESK_OFFSET(refused) == at);
        check("output of a bent line", at, out[0] == 0xA5 && out[YAROPESK_TRANSFER_SIZE - 1] == 0xA5);
    }
    answered("short transfer", yaropesk_read_line(text, sizeof text - 1, out, YAROPESK_TRANSFER_SIZE - 1),
             YAROPESK_OUTPUT_SHORT);
    uint32_t read = yaropesk_read_line(text, sizeof text - 1, out, YAROPESK_TRANSFER_SIZE);
    answered("line", read, YAROPESK_DONE);
    check("length of a line", 0, YAROPESK_VALUE(read) == sizeof text - 1);
    check("no offset of a line", 0, YAROPESK_OFFSET(read) == 0);
    check("kind of a transfer", 0, out[YAROPESK_TRANSFER_KIND] == YAROPESK_DATA_WRITE);
    check("byte of a transfer", 0, out[YAROPESK_TRANSFER_BYTE] == 0x41);
    check("wait of a transfer", 0, memcmp(out + YAROPESK_TRANSFER_WAIT, "\x78\x56\x34\x12", 4) == 0);
}

/* The answers of a transfer. 9 cannot be had; 14, 15 and 28 are for captures. */
static void try_answers(void) {
    start();
    answered("busy", transfer(YAROPESK_INSTRUCTION_WRITE, 0x38, 9999), YAROPESK_BUSY);
    answered("done", transfer(YAROPESK_INSTRUCTION_WRITE, 0x38, 1), YAROPESK_DONE);
    answered("no cell", sent(YAROPESK_INSTRUCTION_WRITE, 0xA8), YAROPESK_NO_CELL);
    answered("stale read", sent(YAROPESK_DATA_READ, 0), YAROPESK_STALE_READ);
    answered("fresh read", sent(YAROPESK_DATA_READ, 0), YAROPESK_DONE);
    answered("kind", sent(YAROPESK_DATA_READ + 1, 0), YAROPESK_BAD_TRANSFER);
    answered("read with a byte", sent(YAROPESK_STATUS_READ, 1), YAROPESK_BAD_TRANSFER);
    answered("no memory", yaropesk_transfer(record, YAROPESK_RECORD_SIZE, memory, 0, 0, 0, 0), YAROPESK_NOT_WHOLE);
    start_narrow();
    answered("first half", sent(YAROPESK_DATA_WRITE, 0x4F), YAROPESK_FIRST_HALF);
    answered("crossed halves", sent(YAROPESK_INSTRUCTION_WRITE, 0x1F), YAROPESK_CROSSED_HALVES);
    check("halves in bits 7 to 4", memory[0], memory[0] == 0x41);
    sent(YAROPESK_INSTRUCTION_WRITE, 0x80);
    sent(YAROPESK_INSTRUCTION_WRITE, 0x00);
    check("high half read", 0, sent(YAROPESK_DATA_READ, 0) == YAROPESK_FIRST_HALF + 256 * 0x40);
    check("low half read", 0, sent(YAROPESK_DATA_READ, 0) == YAROPESK_DONE + 256 * 0x10);
    record[YAROPESK_RECORD_SHIFT] = 80;
    answered("unsound", sent(YAROPESK_INSTRUCTION_WRITE, 0), YAROPESK_UNSOUND);
}

/* Where the bytes of a record stand: each instruction, at width 8 after a reset, changes one byte, and busy. */
static void try_record(void) {
    static const struct {
        uint8_t instruction, place, value;
    } rows[] = {
        {0x20, YAROPESK_RECORD_WIDTH, 4}, {0x38, YAROPESK_RECORD_N, 1},  {0x34, YAROPESK_RECORD_F, 1},
        {0x0C, YAROPESK_RECORD_D, 1},     {0x0A, YAROPESK_RECORD_C, 1},  {0x09, YAROPESK_RECORD_B, 1},
        {0x04, YAROPESK_RECORD_ID, 0},    {0x07, YAROPESK_RECORD_S, 1},  {0x18, YAROPESK_RECORD_SHIFT, 1},
    };
    uint8_t want[YAROPESK_RECORD_SIZE] = {0};
    start();
    want[YAROPESK_RECORD_WIDTH] = 8;
    want[YAROPESK_RECORD_ID] = 1;
    memcpy(want + YAROPESK_RECORD_BUSY, "\x10\x27\x00\x00", 4);
    put_khz(want + YAROPESK_RECORD_FREQUENCY, YAROPESK_KHZ_OLDER);
    check("record after reset", 0, memcmp(record, want, sizeof want) == 0);
    memcpy(want + YAROPESK_RECORD_BUSY, "\x28\x00\x00\x00", 4);
    for (unsigned i = 0; i < sizeof rows / sizeof rows[0]; i++) {
        uint8_t changed[YAROPESK_RECORD_SIZE];
        memcpy(changed, want, sizeof want);
        changed[rows[i].place] = rows[i].value;
        start();
        sent(YAROPESK_INSTRUCTION_WRITE, rows[i].instruction);
        check("record byte", rows[i].place, memcmp(record, changed, sizeof changed) == 0);
    }
}

/* The counter and the register, and where the second line and the pattern cells begin. */
static void try_counter(void) {
    start();
    sent(YAROPESK_INSTRUCTION_WRITE, 0x38);
    sent(YAROPESK_INSTRUCTION_WRITE, 0xC0);
    check("line 2", record[YAROPESK_RECORD_COUNTER_CELL],
          record[YAROPESK_RECORD_COUNTER_CELL] == YAROPESK_LINE_2_START
              && record[YAROPESK_RECORD_COUNTER_MEMORY] == YAROPESK_COUNTER_DISPLAY);
    check("fresh", 0, record[YAROPESK_RECORD_FRESH] == 1 && record[YAROPESK_RECORD_REGISTER] == 0x20);
    sent(YAROPESK_INSTRUCTION_WRITE, 0x45);
    sent(YAROPESK_DATA_WRITE, 0x1F);
    check("pattern cell", 5, memory[YAROPESK_PATTERN_START + 5] == 0x1F);
    check("counter behind it", record[YAROPESK_RECORD_COUNTER_CELL],
          record[YAROPESK_RECORD_COUNTER_CELL] == 6
              && record[YAROPESK_RECORD_COUNTER_MEMORY] == YAROPESK_COUNTER_PATTERN);
    check("stale", 0, record[YAROPESK_RECORD_FRESH] == 0 && record[YAROPESK_RECORD_REGISTER] == 0x1F);
}

/* The half that a first transfer at width 4 leaves: its number, and its value. */
static void try_halves(void) {
    static const struct {
        uint8_t kind, byte, half, value;
    } rows[] = {
        {YAROPESK_INSTRUCTION_WRITE, 0x38, YAROPESK_HALF_INSTRUCTION_WRITE, 3},
        {YAROPESK_DATA_WRITE, 0x41, YAROPESK_HALF_DATA_WRITE, 4},
        {YAROPESK_STATUS_READ, 0, YAROPESK_HALF_STATUS_READ, 0x05},
        {YAROPESK_DATA_READ, 0, YAROPESK_HALF_DATA_READ, 0x20},
    };
    for (unsigned i = 0; i < 4; i++) {
        start_narrow();
        sent(YAROPESK_INSTRUCTION_WRITE, 0x80);
        sent(YAROPESK_INSTRUCTION_WRITE, 0x50);
        check("no half", i, record[YAROPESK_RECORD_HALF] == YAROPESK_HALF_NONE && record[YAROPESK_RECORD_HALF_VALUE] == 0);
        sent(rows[i].kind, rows[i].byte);
        check("half", rows[i].half, record[YAROPESK_RECORD_HALF] == rows[i].half);
        check("value of half", rows[i].half, record[YAROPESK_RECORD_HALF_VALUE] == rows[i].value);
    }
}

/* The record is sound exactly where this byte of it is from least to most. */
static void try_range(const char *what, unsigned place, unsigned least, unsigned most) {
    int holds = 1;
    uint8_t was = record[place];
    for (unsigned value = 0; value < 256; value++) {
        record[place] = (uint8_t)value;
        uint32_t answer = least <= value && value <= most ? YAROPESK_DONE : YAROPESK_UNSOUND;
        if (picture(1, 1, 8) != answer)
            holds = 0;
    }
    record[place] = was;
    check(what, place, holds);
}

static void try_sound_bytes(void) {
    static const uint8_t bits[] = {YAROPESK_RECORD_N, YAROPESK_RECORD_F,  YAROPESK_RECORD_D, YAROPESK_RECORD_C,
                                   YAROPESK_RECORD_B, YAROPESK_RECORD_ID, YAROPESK_RECORD_S, YAROPESK_RECORD_FRESH};
    static const uint8_t zeros[] = {15, 22, 23};
    start();
    for (unsigned i = 0; i < sizeof bits; i++)
        try_range("bit", bits[i], 0, 1);
    for (unsigned i = 0; i < sizeof zeros; i++)
        try_range("zero", zeros[i], 0, 0);
    try_range("shift", YAROPESK_RECORD_SHIFT, 0, 79);
    try_range("register", YAROPESK_RECORD_REGISTER, 0, 255);
    try_range("counter's memory", YAROPESK_RECORD_COUNTER_MEMORY, YAROPESK_COUNTER_DISPLAY, YAROPESK_COUNTER_PATTERN);
    try_range("display cell", YAROPESK_RECORD_COUNTER_CELL, 0, 79);
    record[YAROPESK_RECORD_COUNTER_MEMORY] = YAROPESK_COUNTER_PATTERN;
    try_range("pattern cell", YAROPESK_RECORD_COUNTER_CELL, 0, 63);
    try_range("busy 10,000", YAROPESK_RECORD_BUSY, 0, 0x10);
    try_range("half at width 8", YAROPESK_RECORD_HALF, YAROPESK_HALF_NONE, YAROPESK_HALF_NONE);
    record[YAROPESK_RECORD_WIDTH] = 4;
    answered("width 4", picture(1, 1, 8), YAROPESK_DONE);
    record[YAROPESK_RECORD_WIDTH] = 6;
    answered("width 6", picture(1, 1, 8), YAROPESK_UNSOUND);
}

/* At width 4: which halves may wait while not busy and while busy, and what they may hold. */
static void try_sound_halves(void) {
    static const uint8_t most[] = {0, 15, 15, 255, 255};
    start_narrow();
    for (unsigned half = YAROPESK_HALF_NONE; half <= YAROPESK_HALF_DATA_READ; half++) {
        int while_busy = half == YAROPESK_HALF_NONE || half == YAROPESK_HALF_STATUS_READ;
        record[YAROPESK_RECORD_HALF] = (uint8_t)half;
        record[YAROPESK_RECORD_BUSY] = 0;
        try_range("half's value", YAROPESK_RECORD_HALF_VALUE, 0, most[half]);
        try_range("busy with a half", YAROPESK_RECORD_BUSY, 0, while_busy ? 255 : 0);
    }
    record[YAROPESK_RECORD_HALF] = YAROPESK_HALF_NONE;
    try_range("half", YAROPESK_RECORD_HALF, YAROPESK_HALF_NONE, YAROPESK_HALF_DATA_READ);
}

/* Plays the plan in the output. Bit n of what is returned says that its first transfer was answered n, bit 16 + n that a later
 * one was. */
static uint32_t play(uint32_t count) {
    uint32_t told = 0;
    for (uint32_t i = 0; i < count; i++) {
        const uint8_t *t = out + i * YAROPESK_TRANSFER_SIZE, *w = t + YAROPESK_TRANSFER_WAIT;
        uint32_t wait = w[0] | (uint32_t)w[1] << 8 | (uint32_t)w[2] << 16 | (uint32_t)w[3] << 24;
        uint32_t answer = YAROPESK_ANSWER(transfer(t[YAROPESK_TRANSFER_KIND], t[YAROPESK_TRANSFER_BYTE], wait));
        told |= (uint32_t)1 << (i == 0 ? answer : 16 + answer);
    }
    return told;
}

/* Where the bytes of a wish stand: a plan that wishes one thing changes one byte of the record that it leaves. */
static void try_wish(void) {
    static const struct {
        uint8_t wished, value, place;
    } rows[] = {
        {YAROPESK_WISH_N, 1, YAROPESK_RECORD_N},
        {YAROPESK_WISH_F, 1, YAROPESK_RECORD_F},
        {YAROPESK_WISH_D, 1, YAROPESK_RECORD_D},
        {YAROPESK_WISH_C, 1, YAROPESK_RECORD_C},
        {YAROPESK_WISH_B, 1, YAROPESK_RECORD_B},
        {YAROPESK_WISH_ID, 1, YAROPESK_RECORD_ID},
        {YAROPESK_WISH_S, 1, YAROPESK_RECORD_S},
        {YAROPESK_WISH_SHIFT, 7, YAROPESK_RECORD_SHIFT},
        {YAROPESK_WISH_CURSOR, 79, YAROPESK_RECORD_COUNTER_CELL},
    };
    uint8_t want[YAROPESK_RECORD_SIZE];
    start();
    play(YAROPESK_VALUE(plan_all()));
    memcpy(want, record, sizeof want);
    for (unsigned i = 0; i < sizeof rows / sizeof rows[0]; i++) {
        wish[rows[i].wished] = rows[i].value;
        start();
        play(YAROPESK_VALUE(plan_all()));
        wish[rows[i].wished] = 0;
        record[rows[i].place] = (uint8_t)(record[rows[i].place] - rows[i].value);
        check("wish byte", rows[i].wished, memcmp(record, want, sizeof want) == 0);
    }
}

/* This byte is too much for a wish or a mark. */
static void try_too_much(const char *what, uint8_t *byte, unsigned value) {
    uint8_t was = *byte;
    *byte = (uint8_t)(value - 1);
    answered(what, plan_all(), YAROPESK_DONE);
    *byte = (uint8_t)value;
    answered(what, plan_all(), YAROPESK_NOT_WISH);
    *byte = was;
}

/* What is no wish. */
static void try_wish_ranges(void) {
    for (unsigned i = YAROPESK_WISH_N; i <= YAROPESK_WISH_S; i++)
        try_too_much("wish bit", wish + i, 2);
    for (unsigned i = YAROPESK_WISH_FREQUENCY + 2; i < YAROPESK_WISH_SIZE; i++)
        try_too_much("wish zero", wish + i, 1);
    try_too_much("wish cursor", wish + YAROPESK_WISH_CURSOR, 80);
    try_too_much("wish shift with N=0", wish + YAROPESK_WISH_SHIFT, 80);
    try_too_much("mark", marks + YAROPESK_PATTERN_START, 2);
    wish[YAROPESK_WISH_N] = 1;
    try_too_much("wish shift with N=1", wish + YAROPESK_WISH_SHIFT, 40);
    try_too_much("wish N with F", wish + YAROPESK_WISH_F, 1);
    wish[YAROPESK_WISH_N] = 0;
}

/* With this half waiting and this N, the register fresh or stale. */
static void start_half(unsigned half, unsigned value, unsigned n, unsigned fresh) {
    start_narrow();
    record[YAROPESK_RECORD_BUSY] = 0;
    record[YAROPESK_RECORD_N] = (uint8_t)n;
    record[YAROPESK_RECORD_FRESH] = (uint8_t)fresh;
    record[YAROPESK_RECORD_HALF] = (uint8_t)half;
    record[YAROPESK_RECORD_HALF_VALUE] = (uint8_t)value;
}

/* A plan begun with any half waiting, and begun again after any cut: the first transfer of a run is answered 0, 5, 6, 7 or 8,
 * and each of these comes; all others 0 or 5. */
static void try_restarts(void) {
    static const unsigned most[] = {0, 15, 15, 255, 255};
    const uint32_t taken = 1u << YAROPESK_DONE | 1u << YAROPESK_FIRST_HALF;
    const uint32_t besides = 1u << YAROPESK_NO_CELL | 1u << YAROPESK_STALE_READ | 1u << YAROPESK_CROSSED_HALVES;
    memset(marks, 1, sizeof marks);
    uint32_t told = 0, count = YAROPESK_VALUE(plan_all());
    for (unsigned half = YAROPESK_HALF_NONE; half <= YAROPESK_HALF_DATA_READ; half++)
        for (unsigned value = 0; value <= most[half]; value++)
            for (unsigned bits = 0; bits < 4; bits++) {
                start_half(half, value, bits / 2, bits % 2);
                told |= play(count);
            }
    start();
    for (uint32_t cut = 0; cut <= count; cut++)
        told |= play(cut);
    check("answers of a plan's transfers", told, told == (taken << 16 | taken | besides));
}

/* The frequencies: which are sound, which may be wished for, and which a reset keeps. */
static void try_frequencies(void) {
    int sound = 1, wished = 1, kept = 1;
    uint8_t older[2];
    put_khz(older, YAROPESK_KHZ_OLDER);
    start();
    for (unsigned khz = 0; khz < 65536; khz++) {
        int in_range = YAROPESK_KHZ_LEAST <= khz && khz <= YAROPESK_KHZ_MOST;
        uint8_t was[2];
        put_khz(was, khz);
        put_khz(record + YAROPESK_RECORD_FREQUENCY, khz);
        put_khz(wish + YAROPESK_WISH_FREQUENCY, khz);
        sound = sound && picture(1, 1, 8) == (uint32_t)(in_range ? YAROPESK_DONE : YAROPESK_UNSOUND);
        wished = wished && YAROPESK_ANSWER(plan_all()) == (uint32_t)(in_range ? YAROPESK_DONE : YAROPESK_NOT_WISH);
        reset(YAROPESK_RECORD_SIZE, YAROPESK_MEMORY_SIZE);
        kept = kept && memcmp(record + YAROPESK_RECORD_FREQUENCY, in_range ? was : older, 2) == 0;
    }
    put_khz(wish + YAROPESK_WISH_FREQUENCY, YAROPESK_KHZ_OLDER);
    check("sound frequencies", 0, sound);
    check("wished frequencies", 0, wished);
    check("frequencies after a reset", 0, kept);
}

/* The busy time that this instruction leaves at this frequency. */
static unsigned busy_after(unsigned instruction, unsigned khz) {
    start_at(khz);
    sent(YAROPESK_INSTRUCTION_WRITE, instruction);
    return record[YAROPESK_RECORD_BUSY] + 256u * record[YAROPESK_RECORD_BUSY + 1];
}

/* The times: the least whole ones that reach far enough, and those that the header names. */
static void try_times(void) {
    static const struct {
        unsigned instruction, time;
    } rows[] = {{0x01, 1640}, {0x02, 1640}, {0x00, 40}, {0x80, 40}};
    for (unsigned i = 0; i < sizeof rows / sizeof rows[0]; i++) {
        int least = 1;
        for (unsigned khz = YAROPESK_KHZ_LEAST; khz <= YAROPESK_KHZ_MOST; khz++) {
            unsigned busy = busy_after(rows[i].instruction, khz);
            least = least && busy * khz >= rows[i].time * 250 && (busy - 1) * khz < rows[i].time * 250;
        }
        check("least time of instruction", rows[i].instruction, least);
    }
    check("older module", 0, busy_after(0x01, YAROPESK_KHZ_OLDER) == 1640 && busy_after(0x06, YAROPESK_KHZ_OLDER) == 40);
    check("newer module", 0, busy_after(0x01, YAROPESK_KHZ_NEWER) == 1519 && busy_after(0x06, YAROPESK_KHZ_NEWER) == 38);
}

/* A plan for the lowest frequency serves on every module, and one for the highest not on the slowest. */
static void try_slower_plan(void) {
    int served = 1;
    put_khz(wish + YAROPESK_WISH_FREQUENCY, YAROPESK_KHZ_LEAST);
    uint32_t count = YAROPESK_VALUE(plan_all());
    for (unsigned khz = YAROPESK_KHZ_LEAST; khz <= YAROPESK_KHZ_MOST; khz++) {
        start_at(khz);
        served = served && (play(count) >> (16 + YAROPESK_BUSY) & 1) == 0;
    }
    check("plan for the lowest frequency", 0, served);
    put_khz(wish + YAROPESK_WISH_FREQUENCY, YAROPESK_KHZ_MOST);
    count = YAROPESK_VALUE(plan_all());
    start_at(YAROPESK_KHZ_LEAST);
    check("plan for the highest frequency", 0, (play(count) >> (16 + YAROPESK_BUSY) & 1) == 1);
    put_khz(wish + YAROPESK_WISH_FREQUENCY, YAROPESK_KHZ_OLDER);
}

/* The one exception: a cell that the wish does not name gets the half that waits for it, and 3h below. All others stay. */
static void try_exception(void) {
    uint8_t want[YAROPESK_MEMORY_SIZE];
    memset(marks, 0, sizeof marks);
    uint32_t count = YAROPESK_VALUE(plan_all());
    for (unsigned value = 0; value < 16; value++) {
        start_half(YAROPESK_HALF_DATA_WRITE, value, 1, 0);
        record[YAROPESK_RECORD_COUNTER_CELL] = YAROPESK_LINE_2_START;
        memcpy(want, memory, sizeof want);
        want[YAROPESK_LINE_2_START] = (uint8_t)(value * 16 + 3);
        play(count);
        check("excepted cell", value, memcmp(memory, want, sizeof want) == 0);
    }
}

/* The definitions of a capture: RS, RW and E under the codes s, w and e, DB0 to DB6 under 0 to 6, and this name under 7. */
#define DEFINITIONS(last)                                                                                     \
    "$timescale 1 us $end $var wire 1 s RS $end $var wire 1 w RW $end $var wire 1 e E $end "                  \
    "$var wire 1 0 DB0 $end $var wire 1 1 DB1 $end $var wire 1 2 DB2 $end $var wire 1 3 DB3 $end "            \
    "$var wire 1 4 DB4 $end $var wire 1 5 DB5 $end $var wire 1 6 DB6 $end $var wire 1 7 " last " $end "       \
    "$enddefinitions $end "
#define ALL_DEFINED DEFINITIONS("DB7")
#define LETTER "1s 0w 10 01 02 03 04 05 16 07 " /* the lines of a data write of 41h */
#define PULSE "#0 1e #1 0e "

/* Imports into so much of the output, all of which holds EEh before. */
static uint64_t imported(const char *capture, size_t out_length) {
    memset(out, 0xEE, sizeof out);
    return yaropesk_import((const uint8_t *)capture, strlen(capture), out, out_length);
}

/* The output has this text and behind it what it held before. */
static int holds_text(const char *text) {
    size_t length = strlen(text);
    int holds = memcmp(out, text, length) == 0;
    for (size_t i = length; i < sizeof out; i++)
        holds = holds && out[i] == 0xEE;
    return holds;
}

/* A capture of a write and of a read with x on a data line, its stamp once round: the session's text fits exactly, a longer
 * output stays as it was behind it, and one byte less is too short. */
static void try_import(void) {
    static const char capture[] = ALL_DEFINED LETTER "#4294967295 1e #1 0e #2 0s 1w x7 1e #40 0e ";
    static const char lines[] = "D\t41\t0\nS\t00\t39\n";
    const size_t length = sizeof lines - 1, rooms[] = {length, sizeof out};
    for (unsigned i = 0; i < 2; i++) {
        uint64_t returned = imported(capture, rooms[i]);
        answered("capture", returned, YAROPESK_DONE);
        check("length of a session", i, YAROPESK_VALUE(returned) == length);
        check("lines of a session", i, holds_text(lines));
    }
    check("short session", 0, imported(capture, length - 1) == YAROPESK_OUTPUT_SHORT && holds_text(""));
    check("no transfers", 0, imported(ALL_DEFINED, 0) == YAROPESK_DONE && holds_text(""));
}

/* The refusals of an import, in their order: each capture would be refused for what stands below it too, and no output is
 * lent. */
static void try_import_refusals(void) {
    static const struct {
        const char *capture;
        uint32_t answer;
    } rows[] = {
        {"", YAROPESK_OUTSIDE_SUBSET},
        {DEFINITIONS("other") PULSE "$comment $end ", YAROPESK_OUTSIDE_SUBSET},
        {DEFINITIONS("other") PULSE "1? ", YAROPESK_OUTSIDE_SUBSET},
        {DEFINITIONS("DB6") PULSE, YAROPESK_OUTSIDE_SUBSET},
        {DEFINITIONS("other") PULSE, YAROPESK_SIGNAL_MISSING},
        {ALL_DEFINED PULSE, YAROPESK_LEVEL_UNKNOWN},
        {ALL_DEFINED LETTER PULSE, YAROPESK_OUTPUT_SHORT},
    };
    for (unsigned i = 0; i < sizeof rows / sizeof rows[0]; i++)
        check("refused import", i, imported(rows[i].capture, 0) == rows[i].answer && holds_text(""));
}

/* What an output that always serves is reckoned from: pulses of 12 bytes with lines of 16, but for the first, whose wait is
 * 0. Each stamp of a fall is one below the one before it, so that the wait is 4,294,967,295. */
static void try_longest_session(void) {
    static const char capture[] = ALL_DEFINED LETTER "#1 1e #9 0e #1 1e #8 0e #1 1e #7 0e ";
    static const char lines[] = "D\t41\t0\nD\t41\t4294967295\nD\t41\t4294967295\n";
    check("longest session", 0, YAROPESK_VALUE(imported(capture, 2 * strlen(capture))) == 7 + 2 * YAROPESK_LINE_SIZE);
    check("longest session's lines", 0, holds_text(lines));
}

int main(void) {
    put_khz(wish + YAROPESK_WISH_FREQUENCY, YAROPESK_KHZ_OLDER);
    try_lent_sizes();
    try_output_sizes();
    try_profiles();
    try_places();
    try_lines();
    try_answers();
    try_record();
    try_counter();
    try_halves();
    try_sound_bytes();
    try_sound_halves();
    try_wish();
    try_wish_ranges();
    try_restarts();
    try_frequencies();
    try_times();
    try_slower_plan();
    try_exception();
    try_import();
    try_import_refusals();
    try_longest_session();
    printf("header: %u passed, %u failed\n", passed, failed);
    return failed == 0 ? 0 : 1;
}
