/*
 * What a journal on standard input cannot ask: levels above 3, a trap to EL3, for which the state that `board` starts
 * from has no ECV, an answer buffer that is too short or too long, and that refusals leave the lent state and every
 * lent byte as they were. The expected values are those of docs/RULES.md.
 */
#include "image.h"

#include <stdio.h>

enum { RECORD = ELSTERKABEL_RECORD_BYTES, LIMIT = ELSTERKABEL_RECORD_LIMIT, UNTOUCHED = 0xEE };

static const uint32_t MRS_CNTVCT = 0xD53BE040;
static const uint32_t MSR_CNTV_TVAL_X1 = 0xD51BE301;
static const uint32_t MSR_CNTPOFF_X2 = 0xD51CE0C2;

static int failed;

static void check(const char *what, bool holds) {
    printf("%s linked: %s\n", holds ? "ok  " : "FAIL", what);
    failed |= !holds;
}

/* The state that the readings begin with (RULES, 'Twelve readings from the bench'). */
static struct elsterkabel_state start(void) {
    struct elsterkabel_state state;
    memset(&state, 0, sizeof state);
    state.features.vhe = true;
    state.features.sel2 = true;
    state.controls.ns = true;
    state.controls.cntkctl = 0x303;
    state.cntvoff = 400;
    return state;
}

static bool same_state(struct elsterkabel_state a, struct elsterkabel_state b) {
    uint8_t of_a[IMAGE_BYTES], of_b[IMAGE_BYTES];
    write_image(of_a, &a);
    write_image(of_b, &b);
    return memcmp(of_a, of_b, IMAGE_BYTES) == 0;
}

/* The answer's number, Rt and value to an access at count 1000; its mask is 0. */
static bool answers_with(struct elsterkabel_state *state, uint32_t word, uint8_t level, uint64_t operand,
                         uint8_t number, uint8_t rt, uint64_t value) {
    struct elsterkabel_access access = {word, level, operand, 1000};
    struct elsterkabel_answer answer;
    memset(&answer, UNTOUCHED, sizeof answer);
    elsterkabel_access_in(state, &access, &answer);
    return answer.number == number && answer.rt == rt && answer.value == value && answer.mask == 0;
}

/* MSR CNTV_TVAL_EL0, X1 with operand 0xFFFFFFFF at EL1 and count 1000: reading 4 as a record, which moves the state. */
static const uint8_t RECORD_4[RECORD] = {0xD5, 0x1B, 0xE3, 0x01, 0x40, 0, 0, 0, 0, 0, 0,    0,
                                         0xFF, 0xFF, 0xFF, 0xFF, 0,    0, 0, 0, 0, 0, 0x03, 0xE8};
/* Number 0, Rt 1, value 0, mask 0. */
static const uint8_t ANSWER_4[RECORD] = {0x00, 0x80};

static uint8_t journal[RECORD * (LIMIT + 1)];
static uint8_t answers[RECORD * (LIMIT + 1)];

static bool untouched_from(size_t from) {
    for (size_t i = from; i < sizeof answers; i++)
        if (answers[i] != UNTOUCHED)
            return false;
    return true;
}

/* A run over the first bytes of the journal with the first bytes of the buffer. */
static uint8_t run(struct elsterkabel_state *state, size_t journal_length, size_t answers_length) {
    memset(answers, UNTOUCHED, sizeof answers);
    return elsterkabel_run_in(state, journal, journal_length, answers, answers_length);
}

static bool moves_nothing(uint8_t number, size_t journal_length, size_t answers_length) {
    struct elsterkabel_state state = start();
    return run(&state, journal_length, answers_length) == number && same_state(state, start()) && untouched_from(0);
}

static void levels(void) {
    struct elsterkabel_state state = start();
    check("EL1 reads 600 with Rt 0", answers_with(&state, MRS_CNTVCT, 1, 0, 0, 0, 600));
    check("level 4 gets 5", answers_with(&state, MSR_CNTV_TVAL_X1, 4, 77, 5, 0, 0));
    check("level 255 gets 5", answers_with(&state, MSR_CNTV_TVAL_X1, 255, 77, 5, 0, 0));
    check("and the state stays", same_state(state, start()));
}

static void a_trap_to_el3(void) {
    struct elsterkabel_state state = start();
    state.features.ecv = true;
    struct elsterkabel_state before = state;
    check("CNTPOFF at EL2 with ECVEn 0 gets 10 and Rt 2",
          answers_with(&state, MSR_CNTPOFF_X2, 2, 77, ELSTERKABEL_TRAP_TO_EL3, 2, 0));
    check("and the state stays", same_state(state, before));
}

static void a_write(void) {
    struct elsterkabel_state state = start(), moved = start();
    moved.timers.cntv.cval = 599;
    check("a write gives 0 and Rt 1", answers_with(&state, MSR_CNTV_TVAL_X1, 1, 0xFFFFFFFF, 0, 1, 0));
    check("and moves CNTV's CVAL alone", same_state(state, moved));
}

static void a_run(void) {
    struct elsterkabel_state state = start(), moved = start();
    moved.timers.cntv.cval = 599;
    check("a run with a longer buffer gives 0", run(&state, RECORD, sizeof answers) == ELSTERKABEL_DONE);
    check("its answer is written", memcmp(answers, ANSWER_4, RECORD) == 0);
    check("the bytes after it stay", untouched_from(RECORD));
    check("the state is the run's", same_state(state, moved));
    check("an empty journal and an empty buffer give 0, and nothing moves", moves_nothing(ELSTERKABEL_DONE, 0, 0));
}

static void refusals(void) {
    check("a ragged journal gets 7, and nothing moves",
          moves_nothing(ELSTERKABEL_BAD_JOURNAL, RECORD + 1, sizeof answers));
    check("1,025 records get 7, and nothing moves",
          moves_nothing(ELSTERKABEL_BAD_JOURNAL, sizeof journal, sizeof answers));
    check("a buffer one byte short gets 8, and nothing moves",
          moves_nothing(ELSTERKABEL_BUFFER_TOO_SHORT, 2 * RECORD, 2 * RECORD - 1));
    check("7 comes before 8", moves_nothing(ELSTERKABEL_BAD_JOURNAL, RECORD + 1, 0));
}

/* Reading 2's syndrome is the one that document 02 gives; the others are of the same fields by hand. */
static void syndromes(void) {
    check("the word of MRS X0, CNTPCT_EL0", elsterkabel_word_of(0x32F801) == 0xD53BE020);
    check("the word of MSR CNTV_TVAL_EL0, X1", elsterkabel_word_of(0x30F826) == MSR_CNTV_TVAL_X1);
    check("of a whole ESR_EL2, class and IL too", elsterkabel_word_of(0x6232F801) == 0xD53BE020);

    struct elsterkabel_state state = start();
    check("a SYS instruction's syndrome gets 4", answers_with(&state, elsterkabel_word_of(0x12F801), 1, 0, 4, 0, 0));
}

static void version(void) {
    check("the archive is of the header's interface", elsterkabel_version() == ELSTERKABEL_VERSION);
}

int main(void) {
    for (size_t at = 0; at < sizeof journal; at += RECORD)
        memcpy(journal + at, RECORD_4, RECORD);
    levels();
    a_trap_to_el3();
    a_write();
    a_run();
    refusals();
    syndromes();
    version();
    return failed;
}
