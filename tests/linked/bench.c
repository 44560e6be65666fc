/*
 * bench run|access: what the program `probe` does, by the linked library. It reads a state image and a journal and
 * writes the answers, the final state and the lines (docs/FORMATS.md). With `run` the journal is one call; with
 * `access` each record of a journal that a run serves is a call of its own.
 *
 * bench lend BYTES: one call with a buffer of that many bytes, each 0xEE before it. In place of the answers it writes
 * the number of the run and the whole of that buffer.
 */
#include "image.h"

#include <stdio.h>
#include <stdlib.h>

/* Twice the longest journal, so that it is the library that refuses a longer one, and not the end of a buffer. */
enum { ROOM = 2 * ELSTERKABEL_RECORD_BYTES * ELSTERKABEL_RECORD_LIMIT, UNTOUCHED = 0xEE };

static uint8_t input[IMAGE_BYTES + ROOM];
static uint8_t answers[ROOM];

static uint64_t big_endian(const uint8_t *bytes, size_t length) {
    uint64_t x = 0;
    for (size_t i = 0; i < length; i++)
        x = x << 8 | bytes[i];
    return x;
}

static void put_big_endian(uint8_t *bytes, uint64_t x) {
    for (unsigned i = 0; i < 8; i++)
        bytes[i] = (uint8_t)(x >> (56 - 8 * i));
}

/* A record with a reserved bit set is no access, so there is nothing to call; it gets 6 (RULES, 'The numbers'). */
static struct elsterkabel_answer serve(struct elsterkabel_state *state, const uint8_t *record) {
    uint64_t head = big_endian(record, 8);
    if (head << 34 != 0)
        return (struct elsterkabel_answer){.number = ELSTERKABEL_RESERVED_BIT_SET};
    struct elsterkabel_access access = {
        .word = (uint32_t)(head >> 32),
        .level = head >> 30 & 3,
        .operand = big_endian(record + 8, 8),
        .count = big_endian(record + 16, 8),
    };
    struct elsterkabel_answer answer;
    elsterkabel_access_in(state, &access, &answer);
    return answer;
}

static void pack(uint8_t *bytes, struct elsterkabel_answer answer) {
    put_big_endian(bytes, (uint64_t)answer.number << 60 | (uint64_t)answer.rt << 55);
    put_big_endian(bytes + 8, answer.value);
    put_big_endian(bytes + 16, answer.mask);
}

static void access_each(struct elsterkabel_state *state, const uint8_t *journal, size_t length) {
    for (size_t at = 0; at < length; at += ELSTERKABEL_RECORD_BYTES)
        pack(answers + at, serve(state, journal + at));
}

static uint8_t lines_byte(struct elsterkabel_lines lines) {
    return (uint8_t)(lines.cntp | lines.cntv << 1 | lines.cnthp << 2 | lines.cnthv << 3 | lines.cnthps << 4 |
                     lines.cnthvs << 5);
}

static bool put(const void *bytes, size_t length) { return fwrite(bytes, 1, length, stdout) == length; }

static bool put_end(struct elsterkabel_state *state, uint64_t count) {
    struct elsterkabel_lines lines;
    elsterkabel_lines(state, count, &lines);
    uint8_t end[IMAGE_BYTES + 2];
    write_image(end, state);
    end[IMAGE_BYTES] = lines.number;
    end[IMAGE_BYTES + 1] = lines_byte(lines);
    return put(end, sizeof end);
}

struct asked {
    bool by_access;
    bool lends;
    size_t lent;
};

static bool is_length(const char *text, size_t *length) {
    char *end;
    *length = strtoul(text, &end, 10);
    return end != text && *end == '\0' && *length <= sizeof answers;
}

static bool understood(int argc, char **argv, struct asked *asked) {
    *asked = (struct asked){.lent = sizeof answers};
    asked->by_access = argc == 2 && strcmp(argv[1], "access") == 0;
    asked->lends = argc == 3 && strcmp(argv[1], "lend") == 0 && is_length(argv[2], &asked->lent);
    return asked->by_access || asked->lends || (argc == 2 && strcmp(argv[1], "run") == 0);
}

static bool answer(struct asked asked, const uint8_t *journal, size_t length) {
    struct elsterkabel_state state = {0};
    read_image(input, &state);
    struct elsterkabel_state start = state;
    memset(answers, UNTOUCHED, sizeof answers);
    uint8_t number = elsterkabel_run_in(&state, journal, length, answers, asked.lent);
    size_t answered = number == ELSTERKABEL_DONE ? length : 0;
    if (asked.by_access && answered > 0) {
        state = start;
        access_each(&state, journal, answered);
    }
    uint64_t last_count = answered > 0 ? big_endian(journal + answered - 8, 8) : 0;
    bool written = asked.lends ? put(&number, 1) && put(answers, asked.lent) : put(answers, answered);
    return written && put_end(&state, last_count);
}

int main(int argc, char **argv) {
    struct asked asked;
    if (!understood(argc, argv, &asked)) {
        fprintf(stderr, "usage: bench run|access|lend BYTES, and BYTES is at most %zu\n", sizeof answers);
        return 2;
    }
    size_t length = fread(input, 1, sizeof input, stdin);
    if (length < IMAGE_BYTES)
        return 0;
    bool written = answer(asked, input + IMAGE_BYTES, length - IMAGE_BYTES);
    return written && fflush(stdout) == 0 ? 0 : 1;
}
