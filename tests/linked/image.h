/* The state image of docs/FORMATS.md, read into a state or written from one: its fields are walked once for both. */
#ifndef IMAGE_H
#define IMAGE_H

#include "elsterkabel.h"

#include <string.h>

enum { IMAGE_BYTES = 128, LAST_BYTE = 0xA5 };

/* The place of the next field, in bits from the highest of byte 0. */
struct image {
    uint8_t *bytes;
    unsigned at;
    bool writing;
};

/* The field's value: the one in the image, or the one that was written there. */
static inline uint64_t field(struct image *image, unsigned width, uint64_t value) {
    uint64_t found = 0;
    for (unsigned end = image->at + width; image->at < end; image->at++) {
        uint8_t *byte = &image->bytes[image->at / 8];
        unsigned place = 7 - image->at % 8;
        if (image->writing)
            *byte |= (uint8_t)((value >> (end - image->at - 1) & 1) << place);
        found = found << 1 | (*byte >> place & 1);
    }
    return found;
}

static inline void flag_field(struct image *image, bool *flag) { *flag = field(image, 1, *flag) != 0; }

static inline void half_field(struct image *image, uint32_t *half) { *half = (uint32_t)field(image, 32, *half); }

static inline void word_field(struct image *image, uint64_t *word) { *word = field(image, 64, *word); }

static inline void timer_fields(struct image *image, struct elsterkabel_timer *timer) {
    word_field(image, &timer->cval);
    flag_field(image, &timer->enable);
    flag_field(image, &timer->imask);
}

static inline void state_fields(struct image *image, struct elsterkabel_state *state) {
    flag_field(image, &state->features.vhe);
    flag_field(image, &state->features.sel2);
    flag_field(image, &state->features.ecv);
    flag_field(image, &state->controls.ns);
    flag_field(image, &state->controls.eel2);
    flag_field(image, &state->controls.ecven);
    flag_field(image, &state->controls.e2h);
    flag_field(image, &state->controls.tge);
    half_field(image, &state->controls.cntkctl);
    half_field(image, &state->controls.cnthctl);
    word_field(image, &state->cntvoff);
    word_field(image, &state->cntpoff);
    timer_fields(image, &state->timers.cntp);
    timer_fields(image, &state->timers.cntv);
    timer_fields(image, &state->timers.cnthp);
    timer_fields(image, &state->timers.cnthv);
    timer_fields(image, &state->timers.cnthps);
    timer_fields(image, &state->timers.cnthvs);
}

static inline void read_image(uint8_t *bytes, struct elsterkabel_state *state) {
    struct image image = {.bytes = bytes, .at = 0, .writing = false};
    state_fields(&image, state);
}

static inline void write_image(uint8_t *bytes, struct elsterkabel_state *state) {
    struct image image = {.bytes = bytes, .at = 0, .writing = true};
    memset(bytes, 0, IMAGE_BYTES);
    state_fields(&image, state);
    bytes[IMAGE_BYTES - 1] = LAST_BYTE;
}

#endif
