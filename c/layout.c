/*
 * Holds the layout of avr.h to the bytes that the library reads and writes: what is lent stands between canaries, and a known
 * sheet and known ticks give a number of its own to each place. Prints a line for each place that differs.
 */
#include <stdio.h>
#include <string.h>

#include "avr.h"

enum { CANARY = 0xA5, ROOM = 64, TICKS = 3, DELAY = 25 };

/* What is lent, with room on both sides. */
typedef struct {
    unsigned char before[ROOM];
    avr_image image;
    unsigned char between[ROOM];
    avr_outputs outputs;
    unsigned char after[ROOM];
} lent;

/* An answer, with room on both sides. */
typedef struct {
    unsigned char before[ROOM];
    avr_outlook outlook;
    unsigned char after[ROOM];
} answered;

static int wrong = 0;

static void hold(const char *what, uint32_t got, uint32_t wanted) {
    if (got == wanted) return;
    printf("layout: %s is %u, and not %u\n", what, got, wanted);
    wrong = 1;
}

static void hold_canaries(const char *what, const lent *l) {
    for (int i = 0; i < ROOM; i++) {
        if (l->before[i] == CANARY && l->between[i] == CANARY && l->after[i] == CANARY) continue;
        printf("layout: %s wrote beside what was lent, %d bytes off\n", what, i);
        wrong = 1;
        return;
    }
}

static int untouched(const unsigned char *room) {
    for (int i = 0; i < ROOM; i++) {
        if (room[i] != CANARY) return 0;
    }
    return 1;
}

/*
 * The lowest numbers, but for what the ticks below need: U2's organ with a delay, a tap that the sensor shows, the coupler's
 * current along a line that is all but a reactance, and a delay of its own for the look ahead.
 */
static void sheet(uint32_t *s) {
    memset(s, 0, AVR_SLOTS * sizeof *s);
    s[AVR_SLOT_IN_SERVICE] = 1;
    s[AVR_SLOT_COMPENSATION] = 2;
    s[AVR_SLOT_COMPENSATION_CURRENT] = 1;
    s[AVR_SLOT_TAP_SOURCE] = 2;
    s[AVR_SLOT_ON_U2_OVER_U_SET4] = 1;
    s[AVR_SLOT_VOLTAGE_ORGANS] = 1;
    for (int i = AVR_SLOT_U_SUPP1; i <= AVR_SLOT_U_SUPP4; i++) s[i] = 80000;
    s[AVR_SLOT_D_U] = s[AVR_SLOT_U_COMP] = 1000;
    for (int i = AVR_SLOT_I_SET1; i <= AVR_SLOT_I_SET3; i++) s[i] = 100;
    for (int i = AVR_SLOT_U_SET1; i <= AVR_SLOT_U_SET5; i++) s[i] = 5000;
    for (int i = AVR_SLOT_T1; i <= AVR_SLOT_T5; i++) s[i] = 20;
    s[AVR_SLOT_T3] = DELAY;
    s[AVR_SLOT_T8] = 20;
    s[AVR_SLOT_T15] = 30;
    s[AVR_SLOT_N_POS] = 11;
    s[AVR_SLOT_N_R] = 40;
    s[AVR_SLOT_N_L] = 2;
    s[AVR_SLOT_N_START] = 17;
    s[AVR_SLOT_N_MAX] = 18;
    s[AVR_SLOT_N10] = 39;
    s[AVR_SLOT_CONTINUOUS] = 1;
    s[AVR_SLOT_RESISTANCE] = 1;
    s[AVR_SLOT_REACTANCE] = 10000;
    s[AVR_SLOT_CT_RATING] = 3;
    s[AVR_SLOT_BREAKER_RATING] = 20000;
}

/*
 * High voltage, U2 over its limit, the raise button pressed. The voltage is 87 V, less the drop; it is below 73 V, and not high,
 * where two parts of a pair, or R and X, are read from each other's places. The other readings are not there.
 */
static avr_brought brought(void) {
    avr_brought in;
    memset(&in, 0, sizeof in);
    in.u_ab.quality = in.u0.quality = in.i_high.quality = in.i_bus.quality = in.i_coupler.quality = AVR_QUALITY_INVALID;
    in.i_bus_re.quality = in.i_bus_im.quality = AVR_QUALITY_INVALID;
    in.u2.value = 6.0f;
    in.u_ab_re.value = 70.0f;
    in.i_coupler_im.value = 1.0f;
    in.contacts = AVR_CONTACT_BREAKER_CLOSED | AVR_CONTACT_AUTOMATIC | AVR_CONTACT_RAISE_BUTTON;
    in.contacts |= AVR_CONTACT_REMOTE | AVR_CONTACT_REMOTE_LOWER;
    in.bcd = 0x12;
    in.sensor = 13;
    return in;
}

static void hold_started(const avr_started *s, const uint32_t *list) {
    hold("the answer to the sheet", s->number, AVR_ACCEPTED);
    hold("its slot", s->slot, 0);
    hold("the settings' difference", memcmp(s->image.settings, list, sizeof s->image.settings) != 0, 0);
    hold("the fresh counted tap", s->image.counted_tap, list[AVR_SLOT_N_POS]);
    hold("the fresh operations", s->image.operations, list[AVR_SLOT_N_START]);
    hold("the fresh raise button", s->image.keys.raise_button, 1);
    hold("the fresh lower button", s->image.keys.lower_button, 1);
    hold("the dispatcher's fresh raise", s->image.keys.remote_raise, 1);
    hold("the dispatcher's fresh lower", s->image.keys.remote_lower, 1);
    hold("the fresh mode", s->image.keys.remote, 0);
    hold("the fresh remembered press", s->image.remembered, AVR_WAY_NEITHER);
}

static void hold_image(const avr_image *m, const uint32_t *list) {
    hold("the settings' difference after ticks", memcmp(m->settings, list, sizeof m->settings) != 0, 0);
    hold("the first mark", m->organ_marks[0], 0);
    hold("the last mark", m->organ_marks[AVR_ORGANS - 1], 1);
    hold("the last count", m->organ_counts[AVR_ORGANS - 1], TICKS);
    hold("the drive", m->drive.kind, AVR_DRIVE_RESTING);
    hold("the fault", m->fault, AVR_FAULT_NONE);
    hold("the wait's side", m->wait.side, AVR_WAIT_HIGH);
    hold("the wait", m->wait.ticks, TICKS);
    hold("the repeat", m->repeat, AVR_WAY_NEITHER);
    hold("the last direction", m->last, AVR_WAY_NEITHER);
    hold("the counted tap", m->counted_tap, list[AVR_SLOT_N_POS]);
    hold("the operations", m->operations, list[AVR_SLOT_N_START]);
    hold("the raise button", m->keys.raise_button, 1);
    hold("the lower button", m->keys.lower_button, 0);
    hold("the dispatcher's raise", m->keys.remote_raise, 0);
    hold("the dispatcher's lower", m->keys.remote_lower, 1);
    hold("the mode", m->keys.remote, 1);
    hold("the remembered press", m->remembered, AVR_WAY_NEITHER);
}

/* Ticks between canaries, on a record with a remembered press, which the first one drops; then the same by value. */
static void hold_ticks(lent *l, const uint32_t *list) {
    avr_brought in = brought();
    avr_ticked by_value = {0};
    l->image.remembered = AVR_WAY_LOWER;
    by_value.next = l->image;
    for (int i = 0; i < TICKS; i++) {
        memset(&l->outputs, CANARY, sizeof l->outputs);
        hold("the answer to a tick", avr_tick(&l->image, &in, &l->outputs), AVR_ACCEPTED);
        by_value = avr_tick_by_value(by_value.next, in);
    }
    hold_canaries("a tick", l);
    hold_image(&l->image, list);
    hold("output tap", l->outputs.fields[AVR_OUT_TAP], in.sensor);
    hold("output high", l->outputs.fields[AVR_OUT_HIGH], 1);
    hold("the last output", l->outputs.fields[AVR_FIELDS - 1], 1);
    hold("the answer by value", by_value.refusal, AVR_ACCEPTED);
    hold("the outputs' difference by value", memcmp(&by_value.outputs, &l->outputs, sizeof l->outputs) != 0, 0);
    hold("the image's difference by value", memcmp(&by_value.next, &l->image, sizeof l->image) != 0, 0);
}

/* A look ahead from that image, its answer between canaries. */
static avr_outlook look(const char *what, avr_image image, uint32_t horizon) {
    answered a;
    memset(&a, CANARY, sizeof a);
    a.outlook = avr_ahead(image, brought(), horizon);
    hold(what, untouched(a.before) && untouched(a.after), 1);
    return a.outlook;
}

/* After those ticks: a lower on the tick on which the delay is over, and too short a look for it. */
static void hold_ahead(const avr_image *image, const uint32_t *list) {
    avr_outlook o = look("whether canaries stand on both sides of an outlook", *image, AVR_LONGEST_HORIZON);
    hold("the answer to a look", o.refusal, AVR_ACCEPTED);
    hold("the tick of a look", o.tick, DELAY - TICKS);
    hold("the way of a look", o.way, AVR_WAY_LOWER);
    hold("the raise of a look", o.outputs.fields[AVR_OUT_RAISE], 0);
    hold("the lower of a look", o.outputs.fields[AVR_OUT_LOWER], 1);
    hold("the tap of a look", o.outputs.fields[AVR_OUT_TAP], 13);
    hold("the last output of a look", o.outputs.fields[AVR_FIELDS - 1], 1);
    hold("the settings' difference after a look", memcmp(o.next.settings, list, sizeof o.next.settings) != 0, 0);
    hold("the last count after a look", o.next.organ_counts[AVR_ORGANS - 1], DELAY);
    hold("the drive after a look", o.next.drive.kind, AVR_DRIVE_ASKED);
    hold("its direction", o.next.drive.direction, AVR_DIRECTION_LOWER);
    hold("the wait after a look", o.next.wait.ticks, 0);
    hold("the repeat after a look", o.next.repeat, AVR_WAY_LOWER);
    hold("the operations after a look", o.next.operations, list[AVR_SLOT_N_START]);
    hold("the mode after a look", o.next.keys.remote, 1);
    o = look("whether canaries stand on both sides of a short outlook", *image, 5);
    hold("the answer to a short look", o.refusal, AVR_ACCEPTED);
    hold("the tick of a short look", o.tick, 0);
    hold("the way of a short look", o.way, AVR_WAY_NEITHER);
    hold("the high of a short look", o.outputs.fields[AVR_OUT_HIGH], 1);
    hold("the wait after a short look", o.next.wait.ticks, TICKS + 5);
}

/* A refused look has 0 in each place before the image, which is the one handed in. */
static void hold_refused_look(avr_image image, uint32_t horizon, uint32_t number) {
    avr_outlook o = look("whether canaries stand on both sides of a refused outlook", image, horizon);
    hold("the answer to a refused look", o.refusal, number);
    hold("the tick of a refused look", o.tick, 0);
    hold("the way of a refused look", o.way, AVR_WAY_NEITHER);
    for (int i = 0; i < AVR_FIELDS; i++) hold("an output of a refused look", o.outputs.fields[i], 0);
    hold("the image's difference after a refused look", memcmp(&o.next, &image, sizeof image) != 0, 0);
}

/* A refused tick writes 0 to each output, and nothing else. */
static void hold_refused(lent *l) {
    avr_brought in = brought();
    l->image.remembered = AVR_WAY_LOWER + 1;
    avr_image before = l->image;
    memset(&l->outputs, CANARY, sizeof l->outputs);
    hold("the answer to no record's image", avr_tick(&l->image, &in, &l->outputs), AVR_REFUSED_IMAGE);
    hold_canaries("a refused tick", l);
    hold("the refused image's difference", memcmp(&before, &l->image, sizeof before) != 0, 0);
    for (int i = 0; i < AVR_FIELDS; i++) hold("an output of a refused tick", l->outputs.fields[i], 0);
}

int main(void) {
    uint32_t list[AVR_SLOTS];
    sheet(list);
    avr_started s = avr_start(list, AVR_SLOTS);
    hold_started(&s, list);
    lent l;
    memset(&l, CANARY, sizeof l);
    l.image = s.image;
    hold_ticks(&l, list);
    hold_ahead(&l.image, list);
    hold_refused_look(l.image, 0, AVR_REFUSED_HORIZON);
    hold_refused_look(l.image, AVR_LONGEST_HORIZON + 1, AVR_REFUSED_HORIZON);
    hold_refused(&l);
    hold_refused_look(l.image, 0, AVR_REFUSED_IMAGE); /* tested before the horizon */
    return wrong;
}
