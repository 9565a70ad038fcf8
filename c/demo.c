/*
 * A small host: starts a regulator, lets the voltage be low until raise comes on, follows the move to its end, and looks ahead to
 * the next raise.
 */
#include <stdio.h>
#include <string.h>

#include "avr.h"

static void fill(uint32_t *s, int first, int last, uint32_t number) {
    for (int i = first; i <= last; i++) s[i] = number;
}

/* A sheet with all that is not needed here switched off: U_supp 100 V, dU 2 V, T1 20 ticks, taps 1 to 19, 10 now. */
static void sheet(uint32_t *s) {
    memset(s, 0, AVR_SLOTS * sizeof *s);
    s[AVR_SLOT_IN_SERVICE] = 1;
    s[AVR_SLOT_TAP_SOURCE] = 3; /* counted */
    s[AVR_SLOT_WEAR_COUNT] = 1;
    fill(s, AVR_SLOT_U_SUPP1, AVR_SLOT_U_SUPP4, 100000);
    s[AVR_SLOT_D_U] = 2000;
    s[AVR_SLOT_U_COMP] = 1000;
    fill(s, AVR_SLOT_I_SET1, AVR_SLOT_I_SET3, 1000);
    fill(s, AVR_SLOT_U_SET1, AVR_SLOT_U_SET4, 50000);
    s[AVR_SLOT_U_SET5] = 120000;
    fill(s, AVR_SLOT_T1, AVR_SLOT_T5, 20);
    s[AVR_SLOT_T7] = 2;
    s[AVR_SLOT_T8] = 20;
    s[AVR_SLOT_N_POS] = 10;
    s[AVR_SLOT_N_R] = 19;
    s[AVR_SLOT_N_L] = 1;
    s[AVR_SLOT_N_MAX] = 100;
    fill(s, AVR_SLOT_CT_RATING, AVR_SLOT_BREAKER_RATING, 2000);
}

static void show(int tick, uint32_t answer, const avr_image *m, const avr_outputs *o) {
    printf("tick %2d: answer %u, raise %u, low %u, drive kind %u ticks %u, wait %u, tap %u, operations %u\n", tick, answer,
           o->fields[AVR_OUT_RAISE], o->fields[AVR_OUT_LOW], m->drive.kind, m->drive.ticks, m->wait.ticks, m->counted_tap,
           m->operations);
}

/* A tick of an image that is to be refused: whether it was, and was left as it was. */
static int refused(const char *what, avr_image image, const avr_brought *in) {
    avr_outputs outputs;
    avr_image before = image;
    uint32_t answer = avr_tick(&image, in, &outputs);
    int same = memcmp(&before, &image, sizeof image) == 0;
    printf("%s: answer %u, image %s\n", what, answer, same ? "as it was" : "changed");
    return answer == AVR_REFUSED_IMAGE && same;
}

static int refusals(avr_image image, const avr_brought *in, const uint32_t *list) {
    avr_image far = image, none = image;
    far.operations = 1000000;        /* outside a record's limits */
    none.fault = AVR_FAULT_FAST + 1; /* no record's image */
    int both = refused("operations 1000000", far, in) & refused("fault 5", none, in);
    avr_started t = avr_start(list, AVR_SLOTS - 1);
    printf("a list too short: number %u, slot %u\n", t.number, t.slot);
    uint32_t held[AVR_SLOTS];
    memcpy(held, list, sizeof held);
    held[AVR_SLOT_CONTINUOUS] = 1; /* the tap is counted */
    avr_started u = avr_start(held, AVR_SLOTS);
    printf("counted without a contact: number %u, slot %u\n", u.number, u.slot);
    return both && t.number == AVR_REFUSED_LENGTH && u.number == AVR_REFUSED_COUNTED ? 0 : 1;
}

int main(void) {
    uint32_t list[AVR_SLOTS];
    sheet(list);
    avr_started s = avr_start(list, AVR_SLOTS);
    printf("start: number %u, slot %u\n", s.number, s.slot);
    if (s.number != AVR_ACCEPTED) return 1;

    avr_image image = s.image;
    avr_outputs outputs;
    avr_brought in;
    memset(&in, 0, sizeof in);
    in.u_ab.value = 98.5f; /* low: the band's edge is 99 V */
    in.i_bus.value = 2.0f;
    in.contacts = AVR_CONTACT_BREAKER_CLOSED | AVR_CONTACT_AUTOMATIC;

    int tick = 0;
    uint32_t answer;
    do {
        answer = avr_tick(&image, &in, &outputs);
        tick++;
    } while (answer == AVR_ACCEPTED && outputs.fields[AVR_OUT_RAISE] == 0 && tick < 1000);
    show(tick, answer, &image, &outputs);
    if (tick != 20) return 1;

    in.contacts |= AVR_CONTACT_SWITCHING; /* the drive moves for three ticks */
    for (int i = 0; i < 3; i++) {
        answer = avr_tick(&image, &in, &outputs);
        show(++tick, answer, &image, &outputs);
    }
    in.contacts &= ~(uint32_t)AVR_CONTACT_SWITCHING;
    answer = avr_tick(&image, &in, &outputs);
    show(++tick, answer, &image, &outputs);
    if (image.counted_tap != 11 || image.operations != 1) return 1;

    avr_outlook next = avr_ahead(image, in, AVR_LONGEST_HORIZON); /* if the voltage stays low: a repeated raise, after T2 */
    printf("ahead: answer %u, tick %u, way %u, drive kind %u\n", next.refusal, next.tick, next.way, next.next.drive.kind);
    if (next.tick != 20 || next.way != AVR_WAY_RAISE) return 1;

    return refusals(image, &in, list);
}
