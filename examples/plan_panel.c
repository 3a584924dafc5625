/* A board has kept an account in the cells behind the glass. It plans a panel that shows "HELLO", plays the plan, stops in
 * the middle of a letter, begins the same plan again and lets it finish. The panel stands as wished, and the account too.
 *
 *     tests/build.sh interface
 *     cc -Iinclude examples/plan_panel.c target/staticlib/libinterface.a -o target/plan_panel
 *     target/plan_panel [none | instruction | data | status | read]
 *
 * The word says which half waits before the first run; without it none does. */
#include <stdio.h>
#include <stdlib.h>
#include <string.h>
#include "yaropesk.h"

#define TEXT "HELLO" /* on display cells 0 to 4 */
#define ACCOUNT "ada 4711"
#define ACCOUNT_CELL 16 /* behind a glass of 16 columns */

struct controller {
    uint8_t record[YAROPESK_RECORD_SIZE];
    uint8_t memory[YAROPESK_MEMORY_SIZE];
};

struct plan {
    uint8_t wish[YAROPESK_WISH_SIZE];
    uint8_t marks[YAROPESK_MEMORY_SIZE];
    uint8_t values[YAROPESK_MEMORY_SIZE];
    uint8_t transfers[YAROPESK_PLAN_SIZE];
    unsigned count;
};

/* How a half comes to wait: its word on the command line, and the transfer that leaves it. */
struct start {
    const char *word;
    uint8_t kind, byte;
};

/* By the record's numbers for halves. The plan's first transfer, 30h, completes the instruction as D3h, an address without
 * a cell, and the data write as 43h. */
static const struct start starts[] = {
    [YAROPESK_HALF_NONE] = {"none", 0, 0},
    [YAROPESK_HALF_INSTRUCTION_WRITE] = {"instruction", YAROPESK_INSTRUCTION_WRITE, 0xD0},
    [YAROPESK_HALF_DATA_WRITE] = {"data", YAROPESK_DATA_WRITE, 0x40},
    [YAROPESK_HALF_STATUS_READ] = {"status", YAROPESK_STATUS_READ, 0},
    [YAROPESK_HALF_DATA_READ] = {"read", YAROPESK_DATA_READ, 0},
};

#define STARTS (sizeof starts / sizeof starts[0])

/* The half of this word; STARTS where there is none. */
static size_t half_named(const char *word) {
    size_t half = 0;
    while (half < STARTS && strcmp(starts[half].word, word) != 0)
        half++;
    return half;
}

static void stop(const char *what, unsigned number) {
    fprintf(stderr, "plan_panel: %s %u\n", what, number);
    exit(1);
}

/* One transfer. On a board this is the bus, and nobody answers. */
static unsigned transfer(struct controller *c, uint8_t kind, uint8_t byte, uint32_t wait) {
    return YAROPESK_ANSWER(
        yaropesk_transfer(c->record, sizeof c->record, c->memory, sizeof c->memory, kind, byte, wait));
}

/* What every transfer may be answered. */
static int is_taken(unsigned answer) {
    return answer == YAROPESK_DONE || answer == YAROPESK_FIRST_HALF;
}

/* A transfer that must be taken. */
static void must_send(struct controller *c, uint8_t kind, uint8_t byte, uint32_t wait) {
    unsigned answer = transfer(c, kind, byte, wait);
    if (!is_taken(answer))
        stop("before the plan a transfer is answered", answer);
}

/* A byte over four wires: two halves, each in bits 7 to 4. */
static void send_halves(struct controller *c, uint8_t kind, uint8_t byte) {
    must_send(c, kind, byte & 0xF0, 40);
    must_send(c, kind, (uint8_t)(byte << 4), 1);
}

/* A controller over four wires, the account in its cells, the counter behind it, and this half waiting. */
static void make_controller(struct controller *c, size_t half) {
    memset(c, 0, sizeof *c);
    uint32_t returned = yaropesk_reset(c->record, sizeof c->record, c->memory, sizeof c->memory);
    if (YAROPESK_ANSWER(returned) != YAROPESK_DONE)
        stop("the reset is answered", YAROPESK_ANSWER(returned));
    must_send(c, YAROPESK_INSTRUCTION_WRITE, 0x20, 15000);
    send_halves(c, YAROPESK_INSTRUCTION_WRITE, 0x80 + ACCOUNT_CELL);
    for (const char *letter = ACCOUNT; *letter != 0; letter++)
        send_halves(c, YAROPESK_DATA_WRITE, (uint8_t)*letter);
    if (half != YAROPESK_HALF_NONE)
        must_send(c, starts[half].kind, starts[half].byte, 40);
}

/* Says which half waits. */
static void print_half(const struct controller *c) {
    uint8_t half = c->record[YAROPESK_RECORD_HALF];
    printf("waiting half: %s", starts[half].word);
    if (half != YAROPESK_HALF_NONE)
        printf(", %02Xh, counter on cell %u", c->record[YAROPESK_RECORD_HALF_VALUE],
               c->record[YAROPESK_RECORD_COUNTER_CELL]);
    printf("\n");
}

/* The wish: two lines, display on, the text on the first cells and the cursor behind it. The board does not know its
 * module's oscillator, so that it wishes for the lowest frequency, which is safe on every module. */
static void make_plan(struct plan *p) {
    memset(p, 0, sizeof *p);
    p->wish[YAROPESK_WISH_N] = 1;
    p->wish[YAROPESK_WISH_D] = 1;
    p->wish[YAROPESK_WISH_ID] = 1;
    p->wish[YAROPESK_WISH_CURSOR] = sizeof TEXT - 1;
    p->wish[YAROPESK_WISH_FREQUENCY] = YAROPESK_KHZ_LEAST; /* below 256, so that its high byte is 0 */
    memset(p->marks, 1, sizeof TEXT - 1);
    memcpy(p->values, TEXT, sizeof TEXT - 1);
    uint32_t returned = yaropesk_plan(p->wish, sizeof p->wish, p->marks, sizeof p->marks, p->values, sizeof p->values,
                                      p->transfers, sizeof p->transfers);
    if (YAROPESK_ANSWER(returned) != YAROPESK_DONE)
        stop("the plan is answered", YAROPESK_ANSWER(returned));
    p->count = YAROPESK_VALUE(returned);
}

static const uint8_t *planned(const struct plan *p, unsigned i) {
    return p->transfers + i * YAROPESK_TRANSFER_SIZE;
}

static uint32_t little_endian(const uint8_t *b) {
    return b[0] | (uint32_t)b[1] << 8 | (uint32_t)b[2] << 16 | (uint32_t)b[3] << 24;
}

/* The count of transfers up to the first half of the first letter. */
static unsigned count_to_letter(const struct plan *p) {
    unsigned i = 0;
    while (planned(p, i)[YAROPESK_TRANSFER_KIND] != YAROPESK_DATA_WRITE)
        i++;
    return i + 1;
}

/* What the first transfer of a run may be answered besides, where it completes a half that was left waiting. */
static int is_completion(unsigned answer) {
    return answer == YAROPESK_NO_CELL || answer == YAROPESK_STALE_READ || answer == YAROPESK_CROSSED_HALVES;
}

/* Begins the plan and sends so many of its transfers, each after the least wait. */
static void run(struct controller *c, const struct plan *p, unsigned count) {
    unsigned first = 0;
    for (unsigned i = 0; i < count; i++) {
        const uint8_t *t = planned(p, i);
        unsigned answer = transfer(c, t[YAROPESK_TRANSFER_KIND], t[YAROPESK_TRANSFER_BYTE],
                                   little_endian(t + YAROPESK_TRANSFER_WAIT));
        if (!is_taken(answer) && !(i == 0 && is_completion(answer)))
            stop("a planned transfer is answered", answer);
        if (i == 0)
            first = answer;
    }
    printf("%u of %u transfers sent: the first answered %u, all others 0 or 5, none 4\n", count, p->count, first);
}

/* Every byte of the record is as wished, the frequency and the busy time as the module has them, which reset has left at
 * 250 kHz; and every marked cell holds its value. */
static int stands(const struct controller *c, const struct plan *p) {
    uint8_t cursor = p->wish[YAROPESK_WISH_CURSOR], want[YAROPESK_RECORD_SIZE] = {0};
    want[YAROPESK_RECORD_WIDTH] = 4;
    memcpy(want + YAROPESK_RECORD_N, p->wish + YAROPESK_WISH_N, 7); /* N to S stand in the same order */
    want[YAROPESK_RECORD_SHIFT] = p->wish[YAROPESK_WISH_SHIFT];
    want[YAROPESK_RECORD_COUNTER_CELL] = cursor;
    want[YAROPESK_RECORD_REGISTER] = c->memory[cursor];
    want[YAROPESK_RECORD_FRESH] = 1;
    want[YAROPESK_RECORD_BUSY] = 40;
    want[YAROPESK_RECORD_FREQUENCY] = YAROPESK_KHZ_OLDER;
    for (unsigned place = 0; place < YAROPESK_MEMORY_SIZE; place++)
        if (p->marks[place] == 1 && c->memory[place] != p->values[place])
            return 0;
    return memcmp(c->record, want, sizeof want) == 0;
}

/* The one exception: the place of the cell that a data write's waiting half is meant for. Past the last where none waits. */
static unsigned excepted(const struct controller *c) {
    if (c->record[YAROPESK_RECORD_HALF] != YAROPESK_HALF_DATA_WRITE)
        return YAROPESK_MEMORY_SIZE;
    unsigned cell = c->record[YAROPESK_RECORD_COUNTER_CELL];
    return c->record[YAROPESK_RECORD_COUNTER_MEMORY] == YAROPESK_COUNTER_PATTERN ? YAROPESK_PATTERN_START + cell : cell;
}

/* Every cell that the wish does not name is as before, save the excepted one. */
static int are_spared(const struct controller *before, const struct controller *c, const struct plan *p) {
    for (unsigned place = 0; place < YAROPESK_MEMORY_SIZE; place++)
        if (p->marks[place] == 0 && place != excepted(before) && c->memory[place] != before->memory[place])
            return 0;
    return 1;
}

/* Says how all stands; 0 where it is as guaranteed. */
static int report(const struct controller *before, const struct controller *c, const struct plan *p) {
    unsigned place = excepted(before);
    int as_wished = stands(c, p), spared = are_spared(before, c, p);
    printf("panel: \"%.*s\", cursor on cell %u, %s as wished\n", (int)sizeof TEXT - 1, (const char *)c->memory,
           c->record[YAROPESK_RECORD_COUNTER_CELL], as_wished ? "all" : "NOT");
    printf("account: \"%.*s\"\n", (int)sizeof ACCOUNT - 1, (const char *)c->memory + ACCOUNT_CELL);
    printf("cells that the wish does not name: %s as before", spared ? "all" : "NOT");
    if (place < YAROPESK_MEMORY_SIZE)
        printf(" save cell %u, %02Xh before and %02Xh now: a data write, half sent, was meant for it", place,
               before->memory[place], c->memory[place]);
    printf("\n");
    return as_wished && spared ? 0 : 1;
}

int main(int argc, char **argv) {
    size_t half = half_named(argc > 1 ? argv[1] : "none");
    if (argc > 2 || half == STARTS) {
        fprintf(stderr, "usage: plan_panel [none | instruction | data | status | read]\n");
        return 2;
    }
    struct controller c;
    struct plan p;
    make_controller(&c, half);
    make_plan(&p);
    struct controller before = c;
    print_half(&c);
    run(&c, &p, count_to_letter(&p));
    print_half(&c);
    run(&c, &p, p.count);
    return report(&before, &c, &p);
}
