/* Every function of include/scancheck.h at least once, mostly on document 01's own examples: the header itself is what is
   tried here. */
#include "../../include/scancheck.h"
#include <stdio.h>
#include <string.h>

static int wrong = 0;

static void expect(const char *what, scancheck_told told, uint64_t refusal, uint64_t first, uint64_t second) {
    if (told.refusal != refusal || told.first != first || told.second != second) {
        printf("%s: %llu %llu %llu, wanted %llu %llu %llu\n", what, (unsigned long long)told.refusal,
               (unsigned long long)told.first, (unsigned long long)told.second, (unsigned long long)refusal,
               (unsigned long long)first, (unsigned long long)second);
        wrong++;
    }
}

static void expect_bytes(const char *what, const void *given, const void *wanted, size_t length) {
    if (memcmp(given, wanted, length) != 0) {
        printf("%s: other bytes\n", what);
        wrong++;
    }
}

int main(void) {
    const uint8_t code[] = {0xAC, 0x02, 0x80, 0x00, 0x80, 0x80, 0x04};
    expect("300", scancheck_read_number(code, sizeof code, 0), 0, 300, 2);
    expect("80 00", scancheck_read_number(code, sizeof code, 2), 1, 2, 0);
    expect("80 80 04", scancheck_read_number(code, sizeof code, 4), 1, 4, 0);
    expect("no bytes", scancheck_read_number(NULL, 0, 0), 1, 0, 0);

    uint8_t bytes[4] = {9, 9, 9, 9};
    expect("65,535", scancheck_write_number(65535, bytes, 4), 0, 3, 0);
    expect_bytes("65,535", bytes, "\xFF\xFF\x03\x09", 4);
    memset(bytes, 9, sizeof bytes);
    expect("no room", scancheck_write_number(65535, bytes, 2), 10, 3, 0);
    expect_bytes("no room", bytes, "\x09\x09\x09\x09", 4);

    const uint8_t m1[] = {1, 2, 0, 0, 1, 0, 1};
    const uint8_t m11[] = {11, 1, 3, 2, 3, 8, 11, 1, 3, 2, 3, 0, 1};
    uint16_t numbers[32];
    expect("M1", scancheck_check_requirement(false, m1, sizeof m1), 0, 5, 4);
    expect("M1 read", scancheck_read_requirement(false, m1, sizeof m1, numbers, 32), 0, 7, 0);
    expect("M11 read", scancheck_read_requirement(true, m11, sizeof m11, numbers, 32), 0, 13, 0);
    uint8_t again[32];
    expect("M11 written", scancheck_write_requirement(true, numbers, 13, again, 32), 0, 13, 0);
    expect_bytes("M11 written", again, m11, 13);

    const uint8_t table[] = {1, 1, 1, 1, 2, 0, 0, 1, 0, 2, 1, 1, 1, 1, 2, 1, 0, 0, 0, 0};
    expect("bench table", scancheck_read_table(table, sizeof table, numbers, 32), 0, 20, 0);
    expect("written", scancheck_write_table(numbers, 20, again, 19), 10, 20, 0);
    const uint8_t variables[] = {0x14, 0x0D, 0x00};
    expect("33 variables", scancheck_read_table(variables, sizeof variables, numbers, 32), 2, 1, 0);
    const uint8_t inputs[] = {3, 1, 0, 1, 0};
    expect("bench inputs", scancheck_read_inputs(1, inputs, sizeof inputs, numbers, 32), 0, 5, 0);
    expect("33 inputs", scancheck_read_inputs(33, inputs, sizeof inputs, numbers, 32), 2, 0, 0);
    expect("inputs written", scancheck_write_inputs(1, numbers, 5, again, 32), 0, 5, 0);

    const uint8_t next_input[] = {16, 0, 1};
    uint8_t plain[1408];
    expect("M11 translated", scancheck_translate(next_input, sizeof next_input, plain, sizeof plain), 0, 13, 0);
    expect_bytes("M11 translated", plain, m11, 13);
    expect("no room to translate", scancheck_translate(next_input, sizeof next_input, plain, 1407), 10, 1408, 0);

    const uint8_t trace[] = {2, 0, 0, 0, 0, 0, 0, 0, 0, 0, 1, 0, 0, 0, 0, 1, 0, 0, 0, 0, 2, 0, 0, 0, 0, 0, 1, 0, 0, 0,
                             1, 1, 0, 0, 0, 1, 1, 0, 0, 0, 2, 3, 0, 0, 0, 0, 2, 0, 0, 0, 1, 2, 0, 0, 0, 1, 2, 0, 0, 0};
    uint8_t work[9] = {7, 7, 7, 7, 7, 7, 7, 7, 7};
    uint8_t list[7] = {9, 9, 9, 9, 9, 9, 9};
    expect("M1 judged", scancheck_judge(false, m1, sizeof m1, trace, sizeof trace, 4, work, sizeof work, list, sizeof list), 0, 1, 1);
    expect_bytes("M1's list", list, "\x05\x00\x09\x09\x09\x09\x09", 7);
    expect_bytes("work is zero", work, "\0\0\0\0\0\0\0\0\0", 9);
    expect("work too short", scancheck_judge(false, m1, sizeof m1, trace, sizeof trace, 4, work, 7, list, sizeof list), 10, 8, 0);
    expect("list too short", scancheck_judge(false, m1, sizeof m1, trace, sizeof trace, 4, work, 8, list, 5), 10, 6, 0);
    expect("bad loop start", scancheck_judge(false, m1, sizeof m1, trace, sizeof trace, 12, work, 8, list, 6), 9, 12, 0);

    /* One byte longer than is needed, and filled before each call: every byte is seen to change, or to stay. */
    static uint8_t run[20481], sevens[sizeof run];
    static const uint8_t zeros[sizeof run];
    memset(sevens, 7, sizeof sevens);
    memset(run, 7, sizeof run);
    expect("bench run", scancheck_run(table, sizeof table, inputs, sizeof inputs, run, sizeof run), 0, 12, 4);
    expect_bytes("bench trace", run, trace, sizeof trace);
    expect_bytes("zero behind it", run + sizeof trace, zeros, sizeof run - sizeof trace);
    const uint8_t other[] = {3, 1, 0, 1, 1};
    memset(run, 7, sizeof run);
    expect("not closed", scancheck_run(table, sizeof table, other, sizeof other, run, sizeof run), 8, 3, 0);
    expect_bytes("all zero", run, zeros, sizeof run);
    memset(run, 7, sizeof run);
    expect("no room to run", scancheck_run(table, sizeof table, inputs, sizeof inputs, run, 20479), 10, 20480, 0);
    expect_bytes("untouched", run, sevens, sizeof run);

    const uint8_t sheet[] = {2, 1, 'a', 2, 'x', 'y', 1, 'b', 0};
    expect("a", scancheck_find(sheet, sizeof sheet, (const uint8_t *)"a", 1), 0, 4, 6);
    expect("b", scancheck_find(sheet, sizeof sheet, (const uint8_t *)"b", 1), 0, 9, 9);
    expect("c", scancheck_find(sheet, sizeof sheet, (const uint8_t *)"c", 1), 11, 0, 0);

    printf("C calls: %d wrong\n", wrong);
    return wrong != 0;
}
