/*
 * The scan-cycle checker: reading and writing its coding, running tables, judging and translating requirements.
 *
 * Every function takes any bytes and any numbers, ends, and answers by the numbers of document 01. What is proved of each stands
 * in crates/interface/src/lib.rt. Nothing can check the following here, so the caller must see to it:
 *   - a pointer is valid for the length that follows it (counted in elements; with length 0 it may be any pointer), and one to
 *     16-bit numbers is aligned for them;
 *   - a buffer that is written to overlaps no other argument;
 *   - a bool is 0 or 1, and an argument of 16 bits is not above 65,535 before the call (C would cut it).
 *
 * Bytes, numbers and places count from 0. A reader's places are bytes, a writer's are indices of numbers. The place of refusal 10 is how many bytes (for a reader:
 * numbers) are needed. A trace has 5 bytes a position: the phase (0 Input, 1 Exe, 2 Output), then 32 atoms, atom 0 the lowest bit, low byte first.
 */
#ifndef SCANCHECK_H
#define SCANCHECK_H

#include <stdbool.h>
#include <stddef.h>
#include <stdint.h>

#ifdef __cplusplus
extern "C" {
#endif

/* refusal: the refusal's number, or 0 if nothing is refused. first: the refusal's place, or the first value. second: the second value, or 0. */
typedef struct {
    uint64_t refusal;
    uint64_t first;
    uint64_t second;
} scancheck_told;

/* The number whose first byte is at `at`. first: the number; second: the place after it. Refusal 1 at `at`. */
scancheck_told scancheck_read_number(const uint8_t *code, size_t code_length, size_t at);

/* The number's bytes into the first bytes of buf. first: how many (1 to 3). Refusal 10. The rest of buf stays; on a refusal all of it. */
scancheck_told scancheck_write_number(uint16_t number, uint8_t *buf, size_t buf_length);

/* A requirement's bytes, untranslated or translated. first: its nodes; second: its depth. Refusals 1, 3, 4. */
scancheck_told scancheck_check_requirement(bool translated, const uint8_t *code, size_t code_length);

/*
 * Reading: bytes into 16-bit numbers from out[0] on. first: how many. 10 comes last, its place the numbers needed.
 * Writing: numbers into bytes from buf[0] on. first: how many. Places are indices of numbers; 10 comes last, its place the bytes needed.
 * The rest of the buffer stays as it was; on a refusal all of it.
 */
/* Refusals 1, 3, 4, 10. A requirement has at most 96 numbers, a translated one 1,056, and as many bytes. */
scancheck_told scancheck_read_requirement(bool translated, const uint8_t *code, size_t code_length, uint16_t *out, size_t out_length);
scancheck_told scancheck_write_requirement(bool translated, const uint16_t *numbers, size_t count, uint8_t *buf, size_t buf_length);

/* Refusals 1, 2, 10. A table has at most 6,348 numbers. */
scancheck_told scancheck_read_table(const uint8_t *code, size_t code_length, uint16_t *out, size_t out_length);
scancheck_told scancheck_write_table(const uint16_t *numbers, size_t count, uint8_t *buf, size_t buf_length);

/* Refusals 1, 2, 10. `inputs` is the table's count of input variables; above 32 it is refusal 2 at 0, first.
   An inputs record has at most 43,682 numbers. */
scancheck_told scancheck_read_inputs(uint16_t inputs, const uint8_t *code, size_t code_length, uint16_t *out, size_t out_length);
scancheck_told scancheck_write_inputs(uint16_t inputs, const uint16_t *numbers, size_t count, uint8_t *buf, size_t buf_length);

/* An untranslated requirement's translation to plain operators and marks, as its code, from out[0] on. first: how many bytes. Refusals 10 (room under
   1,408 bytes, whatever the length; its place is 1,408), then 1, 3, 4. The rest of out stays as it was; on a refusal all of it. The answer is always accepted as a translated
   requirement, and holds at the same moments of every well-formed trace. */
scancheck_told scancheck_translate(const uint8_t *code, size_t code_length, uint8_t *out, size_t out_length);

/*
 * A table run over recorded inputs, by the published rules, into a lasso trace: 5 bytes a position from trace[0] on. first: how many positions; second: the loop
 * start. Checks in this order: trace under 20,480 bytes (10, its place 20,480), the table (1, 2, the place in its bytes), the inputs (1, 2, the place in theirs;
 * which of the two it was is not told), then the scans: 6, 5 and 7 at each action, read or write, in this order, their place the scan, from 1; at the end 8, its
 * place the last scan. The bytes behind the last position are zero, whatever is lent. 5 to 8 leave all of trace zero; 1, 2 and 10 leave it as it was. The first
 * 5 * first bytes of the trace of a run that closes, with second as the loop start, are never refused by 9 in scancheck_judge: pass 5 * first as its trace_length, for with the zeros behind it the buffer is no well-formed trace. A call takes
 * about 100 KB of stack.
 */
scancheck_told scancheck_run(const uint8_t *table, size_t table_length, const uint8_t *inputs, size_t inputs_length, uint8_t *trace, size_t trace_length);

/*
 * A requirement, untranslated or translated, on a lasso trace (5 bytes a position) whose loop starts at position `start`. first: 1 if it holds at moment 0,
 * else 0; second: how many findings, the Input positions at which it fails. Checks in this order: the requirement (1, 3, 4), the trace (9: its length, at the
 * length; the loop start, at the position count; the first position that is no phase or is followed by one that may not follow it; no Output in the loop, at the
 * loop start), then 10: work under depth times row bytes (positions over 8, rounded up), then list under 2 bytes for every Input position. A refusal changes no buffer. Otherwise all of work is
 * zero, and list begins with the findings, ascending, 2 bytes each, low byte first; its rest stays.
 */
scancheck_told scancheck_judge(bool translated, const uint8_t *code, size_t code_length, const uint8_t *trace, size_t trace_length, size_t start,
                               uint8_t *work, size_t work_length, uint8_t *list, size_t list_length);

/* The body of a name in a sheet. first: the place where it begins; second: the place after its end. Refusals 1, 2, then 11 at 0. */
scancheck_told scancheck_find(const uint8_t *sheet, size_t sheet_length, const uint8_t *name, size_t name_length);

#ifdef __cplusplus
}
#endif

#endif
