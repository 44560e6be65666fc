/* The constants, and sizes, alignments and offsets of each type of elsterkabel.h, in the words of the Rust binding's
 * example `layout`. */
#include "elsterkabel.h"

#include <stdalign.h>
#include <stdio.h>

#define NUMBER(name) printf(#name " %d\n", ELSTERKABEL_##name)
#define TYPE(name, type) printf(#name " size %zu align %zu\n", sizeof(struct type), alignof(struct type))
#define FIELD(name, type, field) printf(#name "." #field " at %zu\n", offsetof(struct type, field))

#define FEATURES(field) FIELD(Features, elsterkabel_features, field)
#define CONTROLS(field) FIELD(Controls, elsterkabel_controls, field)
#define TIMER(field) FIELD(Timer, elsterkabel_timer, field)
#define TIMERS(field) FIELD(Timers, elsterkabel_timers, field)
#define STATE(field) FIELD(State, elsterkabel_state, field)
#define ACCESS(field) FIELD(Access, elsterkabel_access, field)
#define ANSWER(field) FIELD(Answer, elsterkabel_answer, field)
#define LINES(field) FIELD(Lines, elsterkabel_lines, field)

int main(void) {
    printf("VERSION %d\nRECORD_BYTES %d\nRECORD_LIMIT %d\n", ELSTERKABEL_VERSION, ELSTERKABEL_RECORD_BYTES,
           ELSTERKABEL_RECORD_LIMIT);
    NUMBER(DONE), NUMBER(UNDEFINED), NUMBER(TRAP_TO_EL1), NUMBER(TRAP_TO_EL2), NUMBER(NOT_A_TIMER_ACCESS);
    NUMBER(IMPOSSIBLE_CONTEXT), NUMBER(RESERVED_BIT_SET), NUMBER(BAD_JOURNAL), NUMBER(BUFFER_TOO_SHORT);
    NUMBER(TRAP_TO_EL3);
    TYPE(Features, elsterkabel_features);
    FEATURES(vhe), FEATURES(sel2), FEATURES(ecv);
    TYPE(Controls, elsterkabel_controls);
    CONTROLS(ns), CONTROLS(eel2), CONTROLS(ecven), CONTROLS(e2h), CONTROLS(tge), CONTROLS(cntkctl), CONTROLS(cnthctl);
    TYPE(Timer, elsterkabel_timer);
    TIMER(cval), TIMER(enable), TIMER(imask);
    TYPE(Timers, elsterkabel_timers);
    TIMERS(cntp), TIMERS(cntv), TIMERS(cnthp), TIMERS(cnthv), TIMERS(cnthps), TIMERS(cnthvs);
    TYPE(State, elsterkabel_state);
    STATE(features), STATE(controls), STATE(cntvoff), STATE(cntpoff), STATE(timers);
    TYPE(Access, elsterkabel_access);
    ACCESS(word), ACCESS(level), ACCESS(operand), ACCESS(count);
    TYPE(Answer, elsterkabel_answer);
    ANSWER(number), ANSWER(rt), ANSWER(value), ANSWER(mask);
    TYPE(Lines, elsterkabel_lines);
    LINES(number), LINES(cntp), LINES(cntv), LINES(cnthp), LINES(cnthv), LINES(cnthps), LINES(cnthvs);
    return 0;
}
