/* Yaropesk: a proved bench for HD44780-type character displays, for programs in C and C++.
 * The library is for x86-64 alone. Times are whole microseconds.
 *
 * Calls. Every call takes any numbers and lengths. Bytes are lent as a pointer, which is not null, and the count of bytes
 * behind it; what a call writes overlaps nothing else that it is lent. Each call returns one number, the answer plus 256
 * times a value: a byte, a count or a length. YAROPESK_ANSWER and YAROPESK_VALUE take it apart. Where several answers would
 * fit, the first of them is given, in the order that stands at the call.
 *
 * Refusals. The answers 0, 5, 7 and 8 are no refusals; all others are. A refused call returns the value 0, but for a line
 * that is not read, of which YAROPESK_OFFSET tells where it is at fault. It leaves all that it was lent as found, but for a
 * transfer answered 4 or 6, which changes the record: after 4 busy is less by the wait; after 6 the wait is counted and the
 * half is gone. Output bytes past those written stay as they were. */
#ifndef YAROPESK_H
#define YAROPESK_H

#include <stddef.h>
#include <stdint.h>

#define YAROPESK_ANSWER(returned) ((returned) % 256)
#define YAROPESK_VALUE(returned) ((returned) / 256)
#define YAROPESK_OFFSET(returned) ((returned) / 65536) /* of yaropesk_read_line alone */

/* Answers. */
#define YAROPESK_DONE 0            /* no refusal */
#define YAROPESK_UNSOUND 1         /* the record is unsound */
#define YAROPESK_NOT_WHOLE 2       /* the memory, the marks or the values are not 144 bytes */
#define YAROPESK_BAD_TRANSFER 3    /* a kind above 3, or a read with a byte other than 0 */
#define YAROPESK_BUSY 4            /* the transfer came too early and is lost */
#define YAROPESK_FIRST_HALF 5      /* no refusal: the first half is taken and waits for the second */
#define YAROPESK_NO_CELL 6         /* a display address without a cell */
#define YAROPESK_STALE_READ 7      /* no refusal: a data read of a stale register, done */
#define YAROPESK_CROSSED_HALVES 8  /* no refusal: done, the second half was of another kind than the first */
#define YAROPESK_COUNTER_OFF 9     /* the counter is on no cell; never given, since such a record is answered 1 before */
#define YAROPESK_BAD_SIZE 10       /* columns or lines out of range, or an unknown profile */
#define YAROPESK_OUTPUT_SHORT 11   /* the output is too short */
#define YAROPESK_NOT_WISH 13       /* the wish or a mark is none */
#define YAROPESK_OUTSIDE_SUBSET 14 /* a capture's text outside the subset */
#define YAROPESK_SIGNAL_MISSING 15 /* a capture without a needed signal */
#define YAROPESK_BAD_KIND 16       /* a session line's kind or its tab */
#define YAROPESK_BAD_BYTE 17       /* a session line's byte or its tab */
#define YAROPESK_BAD_WAIT 18       /* a session line's wait */
#define YAROPESK_NO_NEWLINE 19     /* no newline where one must stand in a session line */
#define YAROPESK_LEVEL_UNKNOWN 28  /* a capture with x or z on a needed line where E falls */

/* Sizes in bytes. */
#define YAROPESK_RECORD_SIZE 24
#define YAROPESK_MEMORY_SIZE 144  /* marks and values too: a byte for each cell */
#define YAROPESK_WISH_SIZE 16
#define YAROPESK_TRANSFER_SIZE 6
#define YAROPESK_PLAN_SIZE 2808   /* the longest plan, 468 transfers */
#define YAROPESK_LINE_SIZE 16     /* the longest session line */
#define YAROPESK_PICTURE_SIZE 640 /* the largest picture, 2 lines of 8 rows of 40 columns, or 4 of 20 */

/* A memory: display cells 0 to 79, then pattern cells 0 to 63.
 * With N=0 the display cells are one line, and cell c has the address c. With N=1 cells 0 to 39 are line 1, addresses 00h
 * to 27h, and cells 40 to 79 are line 2, addresses 40h to 67h. */
#define YAROPESK_LINE_2_START 40  /* where line 2 begins, with N=1 */
#define YAROPESK_PATTERN_START 80 /* where pattern cell 0 stands */

/* The frequency of the oscillator that is fitted, in kHz: its range, and the two named module kinds. In a record and in a
 * wish it is two bytes, little-endian. */
#define YAROPESK_KHZ_LEAST 190
#define YAROPESK_KHZ_MOST 350
#define YAROPESK_KHZ_OLDER 250
#define YAROPESK_KHZ_NEWER 270

/* A record: where each byte stands, and what it holds in a sound record. Any other length or value is unsound.
 * A half waits only at width 4, and only with busy 0, unless it is a status read's. */
#define YAROPESK_RECORD_WIDTH 0          /* 8 or 4 */
#define YAROPESK_RECORD_N 1              /* 0 or 1, as are F to S: 1 for two lines */
#define YAROPESK_RECORD_F 2              /* 1 for the tall font; it does not alter the picture */
#define YAROPESK_RECORD_D 3              /* 1 for display on */
#define YAROPESK_RECORD_C 4              /* 1 for a cursor */
#define YAROPESK_RECORD_B 5              /* 1 for blinking */
#define YAROPESK_RECORD_ID 6             /* I/D: data writes and reads move the counter up (1) or down (0) */
#define YAROPESK_RECORD_S 7              /* 1: the shift moves with each data write to the display cells */
#define YAROPESK_RECORD_SHIFT 8          /* 0 to 79 */
#define YAROPESK_RECORD_COUNTER_MEMORY 9 /* one of the two below */
#define YAROPESK_RECORD_COUNTER_CELL 10  /* 0 to 79 in the display cells, 0 to 63 in the pattern cells */
#define YAROPESK_RECORD_REGISTER 11      /* the data register, any byte */
#define YAROPESK_RECORD_FRESH 12         /* the register is fresh (1) or stale (0) */
#define YAROPESK_RECORD_HALF 13          /* the half that waits, one of the five below */
#define YAROPESK_RECORD_HALF_VALUE 14    /* no half: 0; a write's: 0 to 15, its high four bits; a read's: its whole byte */
                                         /* 15 is zero */
#define YAROPESK_RECORD_BUSY 16          /* 16 to 19, little-endian: 0 to 10,000 */
#define YAROPESK_RECORD_FREQUENCY 20     /* 20 and 21, little-endian: 190 to 350 */
                                         /* 22 and 23 are zero */

#define YAROPESK_COUNTER_DISPLAY 0
#define YAROPESK_COUNTER_PATTERN 1

#define YAROPESK_HALF_NONE 0
#define YAROPESK_HALF_INSTRUCTION_WRITE 1
#define YAROPESK_HALF_DATA_WRITE 2
#define YAROPESK_HALF_STATUS_READ 3
#define YAROPESK_HALF_DATA_READ 4

/* A panel's profile: its columns and lines, and the addresses that they start at, with N=1 and the shift 0. With N=1 the
 * panel of four rows shows every one of the 80 display cells, at every shift: none is spare there, so keep nothing in them
 * that is not to be seen. */
#define YAROPESK_PLAIN 0     /* 1 to 40 columns; line 1 at 00h and, where there is one, line 2 at 40h */
#define YAROPESK_FOUR_ROWS 1 /* 20 columns; lines 1 to 4 at 00h, 40h, 14h and 54h */
#define YAROPESK_DIVIDED 2   /* 16 columns, one line: columns 1 to 8 at 00h, columns 9 to 16 at 40h */

/* A transfer's kind. */
#define YAROPESK_INSTRUCTION_WRITE 0
#define YAROPESK_DATA_WRITE 1
#define YAROPESK_STATUS_READ 2
#define YAROPESK_DATA_READ 3

/* A transfer as six bytes, as plans and session lines give it. */
#define YAROPESK_TRANSFER_KIND 0
#define YAROPESK_TRANSFER_BYTE 1 /* 0 for a read */
#define YAROPESK_TRANSFER_WAIT 2 /* 2 to 5, little-endian: the time since the transfer before */

/* A wish: where each byte stands, and what it may hold. Any other length or value is no wish, and N=1 with F=1 is none. */
#define YAROPESK_WISH_N 0         /* 0 or 1, as are F to S, each as in a record */
#define YAROPESK_WISH_F 1
#define YAROPESK_WISH_D 2
#define YAROPESK_WISH_C 3
#define YAROPESK_WISH_B 4
#define YAROPESK_WISH_ID 5
#define YAROPESK_WISH_S 6
#define YAROPESK_WISH_SHIFT 7     /* with N=0 0 to 79, with N=1 0 to 39 */
#define YAROPESK_WISH_CURSOR 8    /* the cursor's display cell, 0 to 79 */
#define YAROPESK_WISH_FREQUENCY 9 /* 9 and 10, little-endian: that of the module, 190 to 350 */
                                  /* 11 to 15 are zero */

#ifdef __cplusplus
extern "C" {
#endif

/* Power on. Any 24 bytes will do for the record; it becomes width 8, I/D 1, busy 10,000, and all else 0, but for the
 * frequency: one in range stays, and any other becomes 250. Display cells become 20h, pattern cells stay.
 * Answers: 1 (only for a record that is not 24 bytes), 2, or 0. The value is 0. */
uint32_t yaropesk_reset(uint8_t *record, size_t record_length, uint8_t *memory, size_t memory_length);

/* One bus transfer: its kind, its byte, 0 for a read, and the wait since the transfer before it.
 * First the wait comes off busy, not below 0. If then no half waits and busy is above 0, all but a status read is answered
 * 4. When done, Clear and Home leave busy at 1,640, other instructions, data writes and data reads at 40, a status read as
 * it is. So at 250 kHz; at another frequency each time is taken times 250, divided by the frequency and rounded up: 1,519
 * and 38 at 270. No transfer alters the frequency.
 * At width 8 a transfer is complete at once. At width 4 it takes two calls, one for each half, the high one first. Halves
 * travel in bits 7 to 4, in what is sent and in what is read: 41h is sent as 40h, then 10h. Bits 3 to 0 do not count in
 * what is sent, and are 0 in what is read. The first call is answered 5. If the second is of another kind, the first one's
 * kind decides: a write's half takes bits 7 to 4 of whatever byte comes, a read's half returns its low half to any kind.
 * Answers: 1, 2, 3, 4, 9, 5, 6, 7, 8, or 0. The value is the byte or the half that is read, 0 for a write. */
uint32_t yaropesk_transfer(uint8_t *record, size_t record_length, uint8_t *memory, size_t memory_length, uint8_t kind,
                           uint8_t byte, uint32_t wait);

/* What a panel shows, into an output of at least lines x 8 x columns bytes. profile is one of the three above; columns, 1 to
 * 40, and lines, 1 or 2, are those of a plain panel, and the other two take no notice of them: they are 20 x 4, 640 bytes,
 * and 16 x 1, 128 bytes. Byte (line x 8 + row) x columns + column, each counted from 0, holds five dots, bit 4 leftmost,
 * below three zeros. With N=0 what starts at 40h or 54h is zero. lit is the phase of the blinking: 0 dark, any other lit.
 * Answers: 1, 2, 10, 11, or 0. The value is 0. */
uint32_t yaropesk_picture(const uint8_t *record, size_t record_length, const uint8_t *memory, size_t memory_length,
                          uint8_t profile, uint8_t columns, uint8_t lines, uint8_t lit, uint8_t *out, size_t out_length);

/* The plan of a wish: the transfers, six bytes each, that bring a panel into the wished state. A mark, 1 or 0 for each of
 * the 144 cells, says whether to write the cell; its value, read only where marked, says what. The waits follow the wish's
 * frequency. The output is at least 2,808 bytes, however short the plan.
 * Answers: 2, 13, 11, or 0. The value is the count of transfers.
 *
 * How to send it. The waits are the least allowed: wait as long or longer. A run may be stopped after any transfer, and
 * the same plan begun again from its first transfer, as often as you like; send nothing else between the runs, and let the
 * last run finish. The first transfer of a run may be answered 6, 7 or 8, where it completes a half that was left waiting:
 * go on. All other transfers are answered 0 or 5.
 *
 * What it guarantees, from any sound record whose frequency is the wish's or higher, and any bytes in the memory; so a
 * plan for 190 kHz serves on every module. No transfer is answered 4. At the end the record is as wished: width 4, N to S
 * and the shift as in the wish, the counter on the cursor's display cell, the register fresh with that cell's byte, no
 * half, busy 40 or what that is at the record's frequency. Every marked cell holds its value. Every other cell holds what
 * it held before the first run, with one exception: if a data write's half was waiting then, the cell that the counter was
 * on gets that half as its high four bits, and 3h below. */
uint32_t yaropesk_plan(const uint8_t *wish, size_t wish_length, const uint8_t *marks, size_t marks_length,
                       const uint8_t *values, size_t values_length, uint8_t *out, size_t out_length);

/* The session line of a transfer, into an output of at least 16 bytes: I, D, S or R for its kind, a tab, two upper-case
 * hexadecimal digits, a tab, the wait in decimal without leading zeros, a newline.
 * Answers: 3, 11, or 0. The value is the line's length. */
uint32_t yaropesk_write_line(uint8_t kind, uint8_t byte, uint32_t wait, uint8_t *out, size_t out_length);

/* The session line at the start of a text, as a transfer of six bytes into an output of at least six.
 * Answers: 16, 17, 18 or 19, by the field of the first byte from the left that cannot stand, 11, or 0. The value is the
 * line's length, so that the next line begins there. After 16 to 19 the offset is that of this byte, or the text's length
 * where the text ends early; it is at most 15, and 0 after every other answer. */
uint32_t yaropesk_read_line(const uint8_t *text, size_t text_length, uint8_t *out, size_t out_length);

/* The session of a capture from a logic pod, as session lines, into an output at least as long as their text. An output
 * twice as long as the capture always serves: a line has at most 16 bytes, and its transfer takes at least 12 bytes of the
 * capture, two stamps and two changes of E, each of two characters and a blank.
 * Answers: 14, 15, 28, 11, or 0; 14, 15 and 28 each look at the whole capture. The value is the length of the lines' text,
 * for which the returned number has 64 bits.
 *
 * What a capture is. Value Change Dump text (IEEE 1364), a subset of it. Words are parted by spaces, tabs, newlines and
 * carriage returns. First stand the sections $scope, $upscope, $var and, once, $timescale, which says 1 us, in any order,
 * then $enddefinitions, then stamps, # and a decimal number up to 4,294,967,295, and changes of scalars, 0, 1, x, X, z or
 * Z before a code; some of these may stand in $dumpvars. All else is answered 14: comments, vectors, a code that is not
 * declared, a needed name that is declared twice. Needed are the scalars RS, RW, E and DB0 to DB7, named exactly so; where
 * one is missing the answer is 15. All others are skipped.
 *
 * What a transfer is. E counts as it stands after all changes at a stamp; a stamp repeated at once is one stamp, and what
 * is set before the first counts as at it. Where E goes from 1 at one stamp to 0 at the next there is one transfer, with
 * the other lines as they then stand: RW is 0 for a write, whose byte is on DB7 to DB0, and 1 for a read, whose byte is
 * 0; RS is 0 for an instruction or the status, and 1 for data. x or z on one of them is answered 28, on DB7 to DB0 only
 * for a write; a line is x until it is set. The wait is the time since the fall before, modulo 4,294,967,296, since the
 * pod's stamp starts again from 0.
 *
 * The first wait is 0, since a capture does not tell it. Raise it, to at least 10,000, before the session is played after a
 * reset: else its first transfers, but for status reads, are answered 4. */
uint64_t yaropesk_import(const uint8_t *capture, size_t capture_length, uint8_t *out, size_t out_length);

#ifdef __cplusplus
}
#endif

#endif
