/*
 * avr.h - a transformer tap-changer voltage regulator, for a host in C.
 *
 * The functions are those of the crate `boundary`, proved against their
 * contracts and archived by `tools/build boundary` as
 * target/staticlib/libboundary.a (x86-64 Linux). No compiler checks this file
 * against the proved sources; tools/boundary-tests does: it reads every name,
 * number and struct below beside the sources in crates/, and the bytes that
 * the library reads and writes beside what this file says of them.
 *
 * The host holds the image of one record, all that a tick hands to the next,
 * and lends it for each tick. The library has no state and allocates nothing.
 * It may be called from several threads, each with an image of its own.
 *
 * README.md, beside this file, tells what is proved of each function and what
 * the host owes.
 */
#ifndef AVR_H
#define AVR_H

#include <stddef.h>
#include <stdint.h>

#ifdef __cplusplus
extern "C" {
#endif

#define AVR_SLOTS 68              /* numbers of a setting sheet */
#define AVR_ORGANS 7              /* measuring organs */
#define AVR_READINGS 12           /* readings of a tick, each part of a pair being one */
#define AVR_FIELDS 28             /* outputs of a tick */
#define AVR_LONGEST_HORIZON 36000 /* ticks of the longest look ahead, 180 s */

/*
 * The slots of a setting sheet: the manual's name, the meaning and unit; the
 * lowest and highest number taken, and the step from the lowest, 1 where none
 * is named. k is 1 for a 1 A module and 5 for a 5 A one. A tick is 5 ms.
 */
enum avr_slot {
    AVR_SLOT_IN_SERVICE = 0,            /* XB1: in service: 0 no, 1 yes; 0-1 */
    AVR_SLOT_MODULE = 1,                /* I_nom: rated current of the module: 0 1 A (k = 1), 1 5 A (k = 5); 0-1 */
    AVR_SLOT_SECTION_NEEDS_CURRENT = 2, /* XB3: the section needs load current above I_set3: 0 no, 1 yes; 0-1 */
    AVR_SLOT_COMPENSATION = 3,          /* XB4: compensation: 0 none, 1 by U_comp, 2 along R and X; 0-2 */
    AVR_SLOT_COMPENSATION_CURRENT = 4,  /* XB5: its current: 0 bus, 1 coupler, 2 bus - coupler, 3 bus + coupler; 0-3 */
    AVR_SLOT_TAP_SOURCE = 5,            /* XB6: tap from: 0 nothing, 1 BCD, 2 sensor, 3 counted, 4 counted reversed; 0-4 */
    AVR_SLOT_ON_I_HIGH_OVER_I_SET1 = 6, /* XB7: organ on, I_high over I_set1: 0 no, 1 yes; 0-1 */
    AVR_SLOT_ON_I_BUS_OVER_I_SET2 = 7,  /* XB8: organ on, I_bus over I_set2: 0 no, 1 yes; 0-1 */
    AVR_SLOT_ON_I_BUS_UNDER_I_SET3 = 8, /* XB9: organ on, I_bus under I_set3: 0 no, 1 yes; 0-1 */
    AVR_SLOT_ON_U_AB_OVER_U_SET1 = 9,   /* XB10: organ on, U_AB over U_set1: 0 no, 1 yes; 0-1 */
    AVR_SLOT_ON_U_AB_UNDER_U_SET2 = 10, /* XB11: organ on, U_AB under U_set2: 0 no, 1 yes; 0-1 */
    AVR_SLOT_ON_3U0_OVER_U_SET3 = 11,   /* XB12: organ on, 3U0 over U_set3: 0 no, 1 yes; 0-1 */
    AVR_SLOT_ON_U2_OVER_U_SET4 = 12,    /* XB13: organ on, U2 over U_set4: 0 no, 1 yes; 0-1 */
    AVR_SLOT_CURRENT_ORGANS = 13,       /* XB14: a current organ's trip: 0 blocks automatic, 1 does not; 0-1 */
    AVR_SLOT_VOLTAGE_ORGANS = 14,       /* XB15: a voltage organ's trip: 0 blocks automatic, 1 does not; 0-1 */
    AVR_SLOT_END_TAP_BLOCK = 15,        /* XB16: block at an end tap: 0 no, 1 yes; 0-1 */
    AVR_SLOT_SUPPLY_TRIP = 16,          /* XB17: supply trip: 0 pulse of T8, 1 lasting; 0-1 */
    AVR_SLOT_WEAR_COUNT = 17,           /* XB18: wear count on: 0 no, 1 yes; 0-1 */
    AVR_SLOT_ORGANS_BLOCK_MANUAL = 18,  /* XB20: a trip blocks manual too: 0 no, 1 yes; 0-1 */
    AVR_SLOT_U_SUPP1 = 19,              /* U_supp1: voltage to hold 1, mV; 80000-140000, step 100 */
    AVR_SLOT_U_SUPP2 = 20,              /* U_supp2: voltage to hold 2, mV; 80000-140000, step 100 */
    AVR_SLOT_U_SUPP3 = 21,              /* U_supp3: voltage to hold 3, mV; 80000-140000, step 100 */
    AVR_SLOT_U_SUPP4 = 22,              /* U_supp4: voltage to hold 4, mV; 80000-140000, step 100 */
    AVR_SLOT_D_U = 23,                  /* dU_set: width of the dead band, mV; 1000-40000, step 100 */
    AVR_SLOT_U_COMP = 24,               /* U_comp: voltage drop of the line at the breaker's rating, mV; 1000-40000, step 100 */
    AVR_SLOT_I_SET1 = 25,               /* I_set1: I_high: overload of the tap changer, mA; 100k-40000k */
    AVR_SLOT_I_SET2 = 26,               /* I_set2: I_bus: overload of the infeed, mA; 100k-40000k */
    AVR_SLOT_I_SET3 = 27,               /* I_set3: I_bus: least load current, mA; 50k-5000k */
    AVR_SLOT_U_SET1 = 28,               /* U_set1: U_AB too high, mV; 5000-200000, step 100 */
    AVR_SLOT_U_SET2 = 29,               /* U_set2: U_AB too low, mV; 5000-100000, step 100 */
    AVR_SLOT_U_SET3 = 30,               /* U_set3: 3U0 too high, mV; 2000-100000, step 100 */
    AVR_SLOT_U_SET4 = 31,               /* U_set4: U2 too high, mV; 2000-60000, step 100 */
    AVR_SLOT_U_SET5 = 32,               /* U_set5: above it a lower comes after T3 (also U_set9), mV; 5000-200000, step 100 */
    AVR_SLOT_T1 = 33,                   /* T1: delay of the first automatic command, ticks; 20-36000 */
    AVR_SLOT_T2 = 34,                   /* T2: delay of a repeated automatic command, ticks; 20-36000 */
    AVR_SLOT_T3 = 35,                   /* T3: delay of an accelerated lower, ticks; 20-36000 */
    AVR_SLOT_T4 = 36,                   /* T4: longest move of the drive, ticks; 20-36000 */
    AVR_SLOT_T5 = 37,                   /* T5: longest wait for the drive to start, ticks; 20-36000 */
    AVR_SLOT_T6 = 38,                   /* T6: shortest move of the drive, ticks; 0-36000 */
    AVR_SLOT_T7 = 39,                   /* T7: a command stays so long after the move began, ticks; 0-36000 */
    AVR_SLOT_T8 = 40,                   /* T8: pulse of the supply trip, ticks; 20-2000 */
    AVR_SLOT_T9 = 41,                   /* T9: delay of the organ I_high over I_set1, ticks; 0-36000 */
    AVR_SLOT_T10 = 42,                  /* T10: delay of the organ I_bus over I_set2, ticks; 0-36000 */
    AVR_SLOT_T11 = 43,                  /* T11: delay of the organ I_bus under I_set3, ticks; 0-36000 */
    AVR_SLOT_T12 = 44,                  /* T12: delay of the organ U_AB over U_set1, ticks; 0-36000 */
    AVR_SLOT_T13 = 45,                  /* T13: delay of the organ U_AB under U_set2, ticks; 0-36000 */
    AVR_SLOT_T14 = 46,                  /* T14: delay of the organ 3U0 over U_set3, ticks; 0-36000 */
    AVR_SLOT_T15 = 47,                  /* T15: delay of the organ U2 over U_set4, ticks; 0-36000 */
    AVR_SLOT_N_POS = 48,                /* N_pos: counted tap at the start, from N_L to N_R; 1-40 */
    AVR_SLOT_N_R = 49,                  /* N_R: highest tap, above N_L; 1-40 */
    AVR_SLOT_N_L = 50,                  /* N_L: lowest tap; 1-40 */
    AVR_SLOT_N_START = 51,              /* N_start: operations at the start; 0-499999 */
    AVR_SLOT_N_MAX = 52,                /* N_max: operations at which the drive is worn; 1-500000 */
    AVR_SLOT_N1 = 53,                   /* N1: sliding tap 1, 0 = empty; 0-40 */
    AVR_SLOT_N2 = 54,                   /* N2: sliding tap 2, 0 = empty; 0-40 */
    AVR_SLOT_N3 = 55,                   /* N3: sliding tap 3, 0 = empty; 0-40 */
    AVR_SLOT_N4 = 56,                   /* N4: sliding tap 4, 0 = empty; 0-40 */
    AVR_SLOT_N5 = 57,                   /* N5: sliding tap 5, 0 = empty; 0-40 */
    AVR_SLOT_N6 = 58,                   /* N6: sliding tap 6, 0 = empty; 0-40 */
    AVR_SLOT_N7 = 59,                   /* N7: sliding tap 7, 0 = empty; 0-40 */
    AVR_SLOT_N8 = 60,                   /* N8: sliding tap 8, 0 = empty; 0-40 */
    AVR_SLOT_N9 = 61,                   /* N9: sliding tap 9, 0 = empty; 0-40 */
    AVR_SLOT_N10 = 62,                  /* N10: sliding tap 10, 0 = empty; 0-40 */
    AVR_SLOT_CONTINUOUS = 63,           /* XB2: regulation: 0 impulse, by the switching contact, 1 continuous, without it; 0-1 */
    AVR_SLOT_RESISTANCE = 64,           /* R_set: resistance of the line, mohm; 0-400000/k */
    AVR_SLOT_REACTANCE = 65,            /* X_set: reactance of the line, mohm; 0-400000/k */
    AVR_SLOT_CT_RATING = 66,            /* Inom_ct1: primary rating of the current transformer, A; 1-20000 */
    AVR_SLOT_BREAKER_RATING = 67,       /* Inom_bus1: primary rating of the breaker, A; 1-20000 */

    /* The first slot of each run: the organs in the order of their outputs, U_supp 1 to 4, the sliding taps 1 to 10. */
    AVR_SLOT_ORGANS_ON = AVR_SLOT_ON_I_HIGH_OVER_I_SET1,
    AVR_SLOT_U_SUPP = AVR_SLOT_U_SUPP1,
    AVR_SLOT_ORGAN_LIMITS = AVR_SLOT_I_SET1,
    AVR_SLOT_ORGAN_DELAYS = AVR_SLOT_T9,
    AVR_SLOT_SLIDING_TAPS = AVR_SLOT_N1
};

/* The contacts and keys of a tick, as masks: a contact that is on has its bit set. The bits after them are ignored. */
enum avr_contact {
    AVR_CONTACT_BREAKER_CLOSED = 1 << 0, /* infeed breaker closed */
    AVR_CONTACT_SWITCHING = 1 << 1,      /* the drive's switching contact is closed; ignored with continuous regulation */
    AVR_CONTACT_SUPPLY_OFF = 1 << 2,     /* the drive's supply is off; blocks */
    AVR_CONTACT_OIL_COLD = 1 << 3,       /* oil cold; blocks */
    AVR_CONTACT_OIL_LOW = 1 << 4,        /* oil level low; blocks */
    AVR_CONTACT_OIL_HIGH = 1 << 5,       /* oil level high; blocks */
    AVR_CONTACT_END_UP = 1 << 6,         /* upper end; blocks raise */
    AVR_CONTACT_END_DOWN = 1 << 7,       /* lower end; blocks lower */
    AVR_CONTACT_OVERCURRENT = 1 << 8,    /* external overcurrent; blocks */
    AVR_CONTACT_EXTERNAL_BLOCK = 1 << 9, /* external block */
    AVR_CONTACT_RAISE_BLOCK = 1 << 10,   /* external raise block */
    AVR_CONTACT_LOWER_BLOCK = 1 << 11,   /* external lower block */
    AVR_CONTACT_RESET = 1 << 12,         /* reset: clears the fault */
    AVR_CONTACT_OUT = 1 << 13,           /* key: the regulator is out, and its record made fresh */
    AVR_CONTACT_AUTOMATIC = 1 << 14,     /* key: automatic; else manual */
    AVR_CONTACT_LOCAL_DRIVE = 1 << 15,   /* key: the drive is worked at its own place; blocks */
    AVR_CONTACT_U_SUPP2 = 1 << 16,       /* key: hold U_supp2 */
    AVR_CONTACT_U_SUPP3 = 1 << 17,       /* key: hold U_supp3, before U_supp2 */
    AVR_CONTACT_U_SUPP4 = 1 << 18,       /* key: hold U_supp4, before both */
    AVR_CONTACT_RAISE_BUTTON = 1 << 19,  /* the panel's raise button pressed; acts in local mode */
    AVR_CONTACT_LOWER_BUTTON = 1 << 20,  /* the panel's lower button pressed; acts in local mode */
    AVR_CONTACT_REMOTE = 1 << 21,        /* key: remote mode, the dispatcher's buttons act; else local, the panel's */
    AVR_CONTACT_REMOTE_RAISE = 1 << 22,  /* the dispatcher's raise pressed; acts in remote mode */
    AVR_CONTACT_REMOTE_LOWER = 1 << 23   /* the dispatcher's lower pressed; acts in remote mode */
};

/* The outputs of a tick, by field. */
enum avr_out {
    AVR_OUT_RAISE = 0,                      /* raise command, 0 or 1 */
    AVR_OUT_LOWER = 1,                      /* lower command, 0 or 1 */
    AVR_OUT_SECTION = 2,                    /* the section is there, 0 or 1 */
    AVR_OUT_TAP = 3,                        /* the tap, 0 if it is not known */
    AVR_OUT_WRONG_CODE = 4,                 /* the BCD lines show no number, 0 or 1 */
    AVR_OUT_RANGE_ERROR = 5,                /* the tap is outside N_L to N_R, or a counted step past an end, 0 or 1 */
    AVR_OUT_I_HIGH_OVER_I_SET1 = 6,         /* trip of the organ, 0 or 1 */
    AVR_OUT_I_BUS_OVER_I_SET2 = 7,          /* trip of the organ, 0 or 1 */
    AVR_OUT_I_BUS_UNDER_I_SET3 = 8,         /* trip of the organ, 0 or 1 */
    AVR_OUT_U_AB_OVER_U_SET1 = 9,           /* trip of the organ, 0 or 1 */
    AVR_OUT_U_AB_UNDER_U_SET2 = 10,         /* trip of the organ, 0 or 1 */
    AVR_OUT_3U0_OVER_U_SET3 = 11,           /* trip of the organ, 0 or 1 */
    AVR_OUT_U2_OVER_U_SET4 = 12,            /* trip of the organ, 0 or 1 */
    AVR_OUT_AUTOMATIC_BLOCKED = 13,         /* 0 or 1 */
    AVR_OUT_MANUAL_BLOCKED = 14,            /* 0 or 1 */
    AVR_OUT_RAISE_BLOCKED = 15,             /* 0 or 1, with what blocks both ways */
    AVR_OUT_LOWER_BLOCKED = 16,             /* 0 or 1, with what blocks both ways */
    AVR_OUT_LOW = 17,                       /* U is at or below the low edge of the band, 0 or 1 */
    AVR_OUT_HIGH = 18,                      /* U is at or above the high edge of the band, 0 or 1 */
    AVR_OUT_RUN_AWAY = 19,                  /* fault: the drive moved without a command, 0 or 1 */
    AVR_OUT_NOT_STARTED = 20,               /* fault: the drive did not start within T5, 0 or 1 */
    AVR_OUT_LONG = 21,                      /* fault: a move longer than T4, or a continuous command that T4 ended, 0 or 1 */
    AVR_OUT_FAST = 22,                      /* fault: a commanded move shorter than T6, 0 or 1 */
    AVR_OUT_SUPPLY_TRIP = 23,               /* trip the drive's supply, 0 or 1 */
    AVR_OUT_ASKED_OR_MOVING = 24,           /* the drive is asked or moves, 0 or 1 */
    AVR_OUT_OPERATIONS = 25,                /* operations so far, 0 to 999999; 0 without the wear count */
    AVR_OUT_OPERATIONS_AT_LEAST_N_MAX = 26, /* the drive is worn, 0 or 1; 0 without the wear count */
    AVR_OUT_AUTOMATIC = 27                  /* the mode: 1 automatic, 0 manual */
};

/* What a sheet, a tick or a look ahead is answered. */
enum avr_answer {
    AVR_ACCEPTED = 0,          /* a sheet that is taken, a tick that ran */
    AVR_REFUSED_LENGTH = 1,    /* a list that has not AVR_SLOTS numbers */
    AVR_REFUSED_RANGE = 2,     /* a slot out of its range */
    AVR_REFUSED_TAP_ORDER = 3, /* N_R not above N_L, or N_pos outside them */
    AVR_REFUSED_IMAGE = 4,     /* a tick or a look ahead, of an image that is no record's or of a record outside its limits */
    AVR_REFUSED_COUNTED = 5,   /* continuous regulation, and a counted tap: no contact tells of a move */
    AVR_REFUSED_HORIZON = 6    /* a look ahead of no tick, or of more than AVR_LONGEST_HORIZON */
};

/* The quality of a reading. */
enum avr_quality {
    AVR_QUALITY_GOOD = 0,   /* measured now */
    AVR_QUALITY_HELD = 1,   /* an older number: it feeds the organs only */
    AVR_QUALITY_INVALID = 2 /* as is every number above; the value is not looked at */
};

/* What the drive does. */
enum avr_drive_kind {
    AVR_DRIVE_RESTING = 0,        /* neither asked nor moving */
    AVR_DRIVE_ASKED = 1,          /* an automatic command is on and the contact has not closed yet, or there is none */
    AVR_DRIVE_COMMANDED_MOVE = 2, /* the contact is closed after a command */
    AVR_DRIVE_OWN_MOVE = 3,       /* the drive goes on by itself from a sliding tap */
    AVR_DRIVE_ASKED_MANUALLY = 4  /* as AVR_DRIVE_ASKED, by a manual command */
};

/* Where a command or a move goes. */
enum avr_direction {
    AVR_DIRECTION_RAISE = 0, /* to a higher voltage */
    AVR_DIRECTION_LOWER = 1  /* to a lower voltage */
};

/* A direction, or none. */
enum avr_way {
    AVR_WAY_NEITHER = 0, /* there was none */
    AVR_WAY_RAISE = 1,   /* AVR_DIRECTION_RAISE */
    AVR_WAY_LOWER = 2    /* AVR_DIRECTION_LOWER */
};

/* The latched fault of the drive. */
enum avr_fault {
    AVR_FAULT_NONE = 0,        /* no fault is latched */
    AVR_FAULT_RUN_AWAY = 1,    /* the contact closed without a command */
    AVR_FAULT_NOT_STARTED = 2, /* the contact did not close within T5 */
    AVR_FAULT_LONG = 3,        /* closed for more than T4, or a continuous command that T4 ended */
    AVR_FAULT_FAST = 4         /* a commanded move shorter than T6 */
};

/* To which side a wait runs. */
enum avr_wait_side {
    AVR_WAIT_NONE = 0, /* no wait runs */
    AVR_WAIT_LOW = 1,  /* U is low; a raise answers it */
    AVR_WAIT_HIGH = 2  /* U is high; a lower answers it */
};

/* At rest all three numbers are 0. */
typedef struct {
    uint32_t kind;      /* enum avr_drive_kind */
    uint32_t direction; /* enum avr_direction */
    uint32_t ticks;     /* the asked command's age, or the move's length */
} avr_drive;

/* Without a wait both numbers are 0. */
typedef struct {
    uint32_t side;  /* enum avr_wait_side */
    uint32_t ticks; /* ticks waited so far */
} avr_wait;

/* The keys of the previous tick. */
typedef struct {
    uint32_t raise_button; /* the panel's: 0 or 1 */
    uint32_t lower_button; /* the panel's: 0 or 1 */
    uint32_t remote_raise; /* the dispatcher's: 0 or 1 */
    uint32_t remote_lower; /* the dispatcher's: 0 or 1 */
    uint32_t remote;       /* the mode: 0 local, 1 remote; a change of it drops a remembered press */
} avr_keys;

/*
 * The image of a record, without padding. Each record has exactly one image.
 * An image with another number where a comment names an enum or 0 and 1 is no
 * record's: a tick refuses it.
 */
typedef struct {
    uint32_t settings[AVR_SLOTS];      /* by enum avr_slot */
    uint32_t organ_marks[AVR_ORGANS];  /* each 0 or 1 */
    uint32_t organ_counts[AVR_ORGANS]; /* marked ticks in a row, held at the organ's delay */
    avr_drive drive;
    uint32_t fault;     /* enum avr_fault */
    uint32_t fault_age; /* ticks that it has lasted, held at T8 */
    avr_wait wait;
    uint32_t repeat; /* enum avr_way: the last automatic command, until U is in band, on the other side, or the mode manual */
    uint32_t last;   /* enum avr_way: where the last ended move went */
    uint32_t counted_tap;
    uint32_t operations;
    avr_keys keys;
    uint32_t remembered; /* enum avr_way: the press made in manual mode while the drive ran; none beside a fault */
} avr_image;

/*
 * A reading. The value may be any float; one that is not finite, below 0, or
 * above 200 V or 40k A counts as missing. Any other counts as the nearest
 * whole mV or mA, a half going up. A part of a pair may be below 0: it counts
 * as its magnitude does, with its sign, and is missing where that is.
 */
typedef struct {
    uint32_t quality; /* enum avr_quality */
    float value;      /* V or A */
} avr_sample;

/*
 * What a tick brings: AVR_READINGS readings first, the last six of them three
 * pairs, real and imaginary part. The pairs are read only with compensation
 * along R and X, and of the currents' only the parts of those that
 * AVR_SLOT_COMPENSATION_CURRENT names; u_ab feeds the organs alone then. All
 * are measured against one axis, U_AB turned so that a current in phase with
 * it has a power factor of 1: the library turns nothing.
 */
typedef struct {
    avr_sample u_ab;         /* V */
    avr_sample u0;           /* 3U0, V */
    avr_sample u2;           /* V */
    avr_sample i_high;       /* A */
    avr_sample i_bus;        /* A */
    avr_sample i_coupler;    /* A */
    avr_sample u_ab_re;      /* V, -200 to 200 */
    avr_sample u_ab_im;      /* V, -200 to 200 */
    avr_sample i_bus_re;     /* A, -40k to 40k */
    avr_sample i_bus_im;     /* A, -40k to 40k */
    avr_sample i_coupler_re; /* A, -40k to 40k */
    avr_sample i_coupler_im; /* A, -40k to 40k */
    uint32_t contacts;       /* masks of enum avr_contact */
    uint8_t bcd;             /* the tap's lines: bits 0 to 3 units, 4 to 6 tens, 7 ignored */
    uint8_t sensor;          /* the tap as the sensor shows it */
} avr_brought;

typedef struct {
    uint32_t fields[AVR_FIELDS]; /* by enum avr_out */
} avr_outputs;

/* The answer to a sheet. */
typedef struct {
    uint32_t number; /* enum avr_answer */
    uint32_t slot;   /* the slot of the refusal, else 0 */
    avr_image image;
} avr_started;

/* What a tick by value gives. */
typedef struct {
    uint32_t refusal; /* AVR_ACCEPTED or AVR_REFUSED_IMAGE */
    avr_outputs outputs;
    avr_image next;
} avr_ticked;

/* What a look ahead gives. */
typedef struct {
    uint32_t refusal;    /* AVR_ACCEPTED, AVR_REFUSED_IMAGE or AVR_REFUSED_HORIZON */
    uint32_t tick;       /* on which the first command begins, counted from 1; 0 where none begins within the horizon */
    uint32_t way;        /* enum avr_way: of that command */
    avr_outputs outputs; /* of that tick; of the last one of the horizon where no command begins */
    avr_image next;      /* after the same tick */
} avr_outlook;

/*
 * Starts a regulator from a list of `length` numbers, which is left as it was.
 * `list` is not null, also where `length` is 0.
 *
 * AVR_ACCEPTED: slot 0, the image of the fresh record.
 * AVR_REFUSED_LENGTH: slot 0. AVR_REFUSED_RANGE: the lowest such slot.
 * AVR_REFUSED_TAP_ORDER: AVR_SLOT_N_R where N_R <= N_L, else AVR_SLOT_N_POS.
 * AVR_REFUSED_COUNTED: AVR_SLOT_CONTINUOUS.
 * The image is then all zeros, and every tick of it is refused.
 */
avr_started avr_start(const uint32_t *list, size_t length);

/*
 * One tick, 5 ms. Each pointer is not null and aligned, and what the three
 * point to does not overlap. *brought is left as it was.
 *
 * Returns AVR_ACCEPTED: *image is the next record's, *outputs are the outputs.
 * Returns AVR_REFUSED_IMAGE: *image is no record's, or a record's outside its
 * limits; it is left as it was, and *outputs are all 0.
 */
uint32_t avr_tick(avr_image *image, const avr_brought *brought, avr_outputs *outputs);

/* The same tick with everything by value; on refusal `next` is `image`, and the outputs are all 0. */
avr_ticked avr_tick_by_value(avr_image image, avr_brought brought);

/*
 * When would it move? If `brought` came again on each tick from `image` on, up
 * to `horizon` of them: on which tick the first command would begin, raise or
 * lower, automatic or manual, and what stands after that tick. A command that
 * is on already, and a move that the drive makes on its own, do not begin. The
 * answer is that of so many calls of avr_tick_by_value; the host's own image
 * stays as it is.
 *
 * AVR_ACCEPTED: a tick from 1 to `horizon` and its way; or tick 0 and
 * AVR_WAY_NEITHER, with what stands after the last tick of the horizon.
 * AVR_REFUSED_IMAGE, as a tick's; else AVR_REFUSED_HORIZON, where `horizon` is
 * 0 or above AVR_LONGEST_HORIZON: tick 0, AVR_WAY_NEITHER, outputs all 0, and
 * `next` is `image`.
 *
 * It takes as long as so many ticks, up to the command. Over the longest
 * horizon these are 100 to 120 million instructions, 6 to 9 ms on a desktop
 * processor (measured with the toolchain rattle-kit-5b): more than the 5 ms
 * from one tick to the next. So a host that
 * ticks calls it on a copy of its image, from another thread, or over a
 * shorter horizon and looks on from `next`.
 */
avr_outlook avr_ahead(avr_image image, avr_brought brought, uint32_t horizon);

#ifdef __cplusplus
}
#define AVR_ASSERT static_assert
#else
#define AVR_ASSERT _Static_assert
#endif

/* The structs lie as the library's do: each field right after the one before, and a reading in two 32-bit parts. */
#define AVR_FOLLOWS(type, field, before) \
    AVR_ASSERT(offsetof(type, field) == offsetof(type, before) + sizeof(((type *)0)->before), #type "." #field)
#define AVR_ENDS(type, field) AVR_ASSERT(sizeof(type) == offsetof(type, field) + sizeof(((type *)0)->field), #type)

AVR_FOLLOWS(avr_drive, direction, kind);
AVR_FOLLOWS(avr_drive, ticks, direction);
AVR_ENDS(avr_drive, ticks);
AVR_FOLLOWS(avr_wait, ticks, side);
AVR_ENDS(avr_wait, ticks);
AVR_FOLLOWS(avr_keys, lower_button, raise_button);
AVR_FOLLOWS(avr_keys, remote_raise, lower_button);
AVR_FOLLOWS(avr_keys, remote_lower, remote_raise);
AVR_FOLLOWS(avr_keys, remote, remote_lower);
AVR_ENDS(avr_keys, remote);

AVR_FOLLOWS(avr_image, organ_marks, settings);
AVR_FOLLOWS(avr_image, organ_counts, organ_marks);
AVR_FOLLOWS(avr_image, drive, organ_counts);
AVR_FOLLOWS(avr_image, fault, drive);
AVR_FOLLOWS(avr_image, fault_age, fault);
AVR_FOLLOWS(avr_image, wait, fault_age);
AVR_FOLLOWS(avr_image, repeat, wait);
AVR_FOLLOWS(avr_image, last, repeat);
AVR_FOLLOWS(avr_image, counted_tap, last);
AVR_FOLLOWS(avr_image, operations, counted_tap);
AVR_FOLLOWS(avr_image, keys, operations);
AVR_FOLLOWS(avr_image, remembered, keys);
AVR_ENDS(avr_image, remembered);

AVR_ASSERT(sizeof(float) == sizeof(uint32_t), "float");
AVR_FOLLOWS(avr_sample, value, quality);
AVR_ENDS(avr_sample, value);
AVR_ASSERT(offsetof(avr_brought, contacts) == AVR_READINGS * sizeof(avr_sample), "avr_brought.contacts");
AVR_FOLLOWS(avr_brought, bcd, contacts);
AVR_FOLLOWS(avr_brought, sensor, bcd);

AVR_ENDS(avr_outputs, fields);
AVR_FOLLOWS(avr_started, slot, number);
AVR_FOLLOWS(avr_started, image, slot);
AVR_ENDS(avr_started, image);
AVR_FOLLOWS(avr_ticked, outputs, refusal);
AVR_FOLLOWS(avr_ticked, next, outputs);
AVR_ENDS(avr_ticked, next);
AVR_FOLLOWS(avr_outlook, tick, refusal);
AVR_FOLLOWS(avr_outlook, way, tick);
AVR_FOLLOWS(avr_outlook, outputs, way);
AVR_FOLLOWS(avr_outlook, next, outputs);
AVR_ENDS(avr_outlook, next);

#undef AVR_ENDS
#undef AVR_FOLLOWS
#undef AVR_ASSERT

#endif
