/* The station for a shore set in C: libshore.a (docs/HOST.md). One owner at a time for each station; no call keeps a pointer, none allocates. */
#ifndef SHORE_H
#define SHORE_H

#include <stddef.h>
#include <stdint.h>

#ifdef __cplusplus
extern "C" {
#endif

/* ---- memory that the host lends */

#define SHORE_CELL 6400        /* bytes of store for each message cell; at least one */
#define SHORE_CELLS 64         /* cells that are used at most: a store of 409,600 bytes */
#define SHORE_OUT 8192         /* words of output for admit, receive and next */
#define SHORE_QUEUE 126976     /* bytes of the directed queue, for next and post */
#define SHORE_SHEET 9849       /* bytes of output for the sheet of short calls */
#define SHORE_SENDER 16384     /* bytes of each of the sending end's two memories */
#define SHORE_SLOTS 62         /* boats in a net: slots 0 to 61 */
#define SHORE_NOBODY 63        /* no relay; a frame to everyone */

/* ---- refusals: 0 is none; a refused call changes nothing */

enum shore_refusal {
    SHORE_CLOCK = 1,           /* clock not finite, negative or above 1,000,000,000 */
    SHORE_LEVEL = 2,           /* level not finite or outside -200 to 200 */
    SHORE_WORDS = 3,           /* words malformed */
    SHORE_SMALL_OUT = 4,       /* output too small */
    SHORE_SETTING = 5,         /* a setting outside its span; take: above 64 pieces, or a size of 0 or above 255 */
    SHORE_CELL_NUMBER = 6,     /* cell number not below the count */
    SHORE_SMALL_MEMORY = 7,    /* store, directed queue or a sending end's memory too small */
    SHORE_SLOT = 8,            /* slot above 61 */
    SHORE_CLOSING = 9,         /* closing count above 15 */
    SHORE_NO_MEMBER = 21,      /* no member in the slot */
    SHORE_NOT_LANDED = 22,     /* no landed message in the cell */
    SHORE_FULL = 23,           /* the net is full and the call unknown */
    SHORE_NO_SPACE = 24,       /* bytes kept for the boat and new ones above 2,048 */
    SHORE_TOTAL = 25,          /* total posted to the boat above 16,777,215 */
    SHORE_FIGURES = 26,        /* not 62 figures, or one above 1,000,000,000 */
    SHORE_MARKS = 27,          /* a fault in the marks of a log */
    SHORE_EIGHT = 28,          /* the sending end holds eight messages */
    SHORE_LONG = 29            /* a message above 2,046 bytes */
};

/* ---- what is given and what comes back */

/* The station, 24,816 bytes: nothing in it is for the host. All zero before the first start. */
struct shore_block { uint64_t held[3102]; };

/* The settings of a net. */
struct shore_setup {
    double turnaround, maxburst, replyslack, detect;  /* seconds */
    double beaconevery, quickbeacon, idleroundgap;    /* seconds */
    double durations[4];       /* seconds of a burst of 1 to 4 control frames */
    float thresholds[17];      /* decibels that each level of the ladder needs */
    float margin, relaysnr;    /* decibels */
    uint32_t misslimit;        /* missed turns that make a boat silent: 1 to 1,000 */
    uint8_t beaconlevel;       /* 0 to 16 */
    uint8_t windowslots;       /* check-in slots behind a beacon */
    uint8_t call[7];           /* not looked at: the plan's call counts */
    uint8_t name[6];           /* the net's name */
    uint8_t prime;             /* the beacon tells the check-in slots' times: 0 or 1 */
    double lead, latency;      /* seconds */
    uint8_t rooms[17];         /* not looked at */
    uint8_t payloads[17];      /* not looked at */
};

/* What a start is given. */
struct shore_plan {
    struct shore_setup settings;
    double times[1088];        /* seconds of a burst of n frames of data at a level: at 64 * level + n - 1 */
    uint8_t call[5];           /* the net's call, packed */
    uint8_t payloads[17];      /* largest payload of a frame at each level, 1 to 255 */
};

/* What a call gives back. */
struct shore_done {
    struct shore_block block;  /* the station from now on */
    size_t words;              /* how many words stand in the output */
    uint64_t mask;             /* receive: bit n is set where frame n was a piece that was not kept */
    uint8_t refusal;           /* 0, or why the call was refused */
};

/* Where a landed message stands in the store. */
struct shore_part { size_t offset, length; uint8_t refusal; };

/* A level in decibels; heard is 0 where nothing was measured. */
struct shore_reading { uint8_t heard; float decibels; };

/* A time in seconds; known is 0 for never. */
struct shore_time { uint8_t known; double seconds; };

/* The lowest of a boat's last 32 levels. */
struct shore_poorest { struct shore_reading level; uint8_t refusal; };

/* A boat of the roster; here is 0 where the slot is empty. */
struct shore_shown {
    struct shore_time lastheard;
    struct shore_reading snrup, snrdown;  /* how we hear it, how it hears us */
    uint32_t cap;              /* its level cap */
    uint32_t missed;           /* turns missed in a row */
    uint32_t bytesin;          /* bytes landed from it */
    uint8_t here, call[7], via;           /* via: its relay's slot, 63 for none */
    uint8_t hascaps, caps, hasversion, version;
};

/* The numbers of a boat: its messages landed, and the bytes posted to it. */
struct shore_counts {
    uint32_t next;             /* its first message that has not landed */
    uint32_t posted;           /* how many bytes were posted to it */
    uint32_t kept;             /* the first of them that is still kept */
    uint32_t reported;         /* how many of them it reported */
    uint8_t bitmap;            /* which of the eight messages after next have landed */
    uint8_t burst;             /* the number of the burst that it is polled with */
};

/* What the station has counted since its start; silent is how many boats are silent now. */
struct shore_sums { uint32_t polls, relays, rxlists, rounds, replies, silent; };

/* A month's dues in cents. */
struct shore_month {
    uint64_t takings;          /* the port's */
    uint32_t charges[62], credits[62];
    uint8_t refusal;
};

/* What the turn check says of a log. */
struct shore_checked { uint8_t refusal, accepted; };

/* ---- calls that change the station; a pointer is followed by how many elements it has */

/* A fresh start: the store sets how many cells there are. */
struct shore_done shore_start(struct shore_block, struct shore_plan, const uint8_t *store, size_t bytes);
/* A boat is admitted by hand: its packed call, and its relay's slot or 63. */
struct shore_done shore_admit(struct shore_block, const uint8_t call[5], uint8_t relay, double time, uint32_t *out, size_t room);
/* A burst was received at a level. */
struct shore_done shore_receive(struct shore_block, const uint32_t *words, size_t count, float snr, double time, uint8_t *store, size_t bytes, uint32_t *out, size_t room);
/* What to do now: events, and the burst to send, if any. */
struct shore_done shore_next(struct shore_block, double time, const uint8_t *queue, size_t bytes, uint32_t *out, size_t room);
/* The burst that was given to send has gone out. */
struct shore_done shore_sent(struct shore_block, double time);
/* The net closes, with so many closing bursts, 15 at most. */
struct shore_done shore_close(struct shore_block, uint32_t count);
/* The cell of a message that was read may be used again. */
struct shore_done shore_free(struct shore_block, size_t cell);
/* A message for the boat in a slot. */
struct shore_done shore_post(struct shore_block, uint8_t slot, const uint8_t *message, size_t length, uint8_t *queue, size_t bytes);
/* The boat in a slot leaves the net. */
struct shore_done shore_sign_off(struct shore_block, uint8_t slot);

/* ---- calls that only look */

/* Where the message of a landed cell stands. */
struct shore_part shore_read(struct shore_block, const uint8_t *store, size_t bytes, size_t cell);
/* A boat's poorest signal of late. */
struct shore_poorest shore_worst(struct shore_block, uint8_t slot);
/* How many boats are silent. */
uint32_t shore_silent(struct shore_block);
/* How many polls, polls by relay, received lists, rounds and replies there were, and the silent boats. */
struct shore_sums shore_totals(struct shore_block);
/* The boat in a slot. */
struct shore_shown shore_entry(struct shore_block, uint8_t slot);
/* The level at which the boat in slot r hears the one in slot a. */
struct shore_reading shore_hears(struct shore_block, uint8_t r, uint8_t a);
/* The level field at which the boat in slot r said that it hears slot a, whoever is there: decibels plus 24, 63 for nothing. */
uint8_t shore_hears_field(struct shore_block, uint8_t r, uint8_t a);
/* The numbers of the boat in a slot; they are no boat's where it has none. */
struct shore_counts shore_numbers(struct shore_block, uint8_t slot);
/* The month's dues, from the bytes landed of each slot. */
struct shore_month shore_dues(struct shore_block, const uint32_t *figures, size_t count);

/* ---- calls without a station */

/* Whether the turns of a log keep to the lists of its rounds. */
struct shore_checked shore_turn_check(const uint32_t *words, size_t count);
/* The sheet of short calls; gives back 0 or 4. */
uint8_t shore_short_calls(uint8_t *out, size_t bytes);

/* ---- the sending end, as a boat has it: messages, cut into pieces, kept until the far end holds them */

/* Its numbers: nothing in it is for the host. */
struct shore_outgoing { size_t count; uint32_t next, seqs[8]; uint16_t totals[8], cuts[8]; };

/* What a call gives back. */
struct shore_left {
    struct shore_outgoing sender;  /* the sending end from now on */
    size_t words;              /* take: how many words stand in the output */
    uint8_t refusal;           /* 0, or why the call was refused */
};

/* Bytes that are not sent yet, or in flight. */
struct shore_unsent { size_t bytes; uint8_t refusal; };

/* A fresh start. */
struct shore_outgoing shore_sender_new(void);
/* A message is queued. */
struct shore_left shore_sender_post(struct shore_outgoing, uint8_t *bytes, size_t size, const uint8_t *body, size_t length);
/* Up to `pieces` pieces of at most `max` bytes, as frames with flags 0: put the slot into them. */
struct shore_left shore_sender_take(struct shore_outgoing, const uint8_t *bytes, size_t size, uint8_t *marks, size_t marked, size_t max, size_t pieces, uint32_t *out, size_t room);
/* The piece of message seq at offset off was acknowledged. */
struct shore_left shore_sender_ack(struct shore_outgoing, uint8_t *bytes, size_t size, uint8_t *marks, size_t marked, uint32_t seq, size_t off);
/* The far end holds every message below next, and those in also. */
struct shore_left shore_sender_held(struct shore_outgoing, uint8_t *bytes, size_t size, uint8_t *marks, size_t marked, uint32_t next, const uint32_t *also, size_t count);
/* The last burst got no answer at all; gives back 0 or 7. */
uint8_t shore_sender_stale(struct shore_outgoing, uint8_t *marks, size_t marked);
/* How many bytes are not sent yet, or in flight. */
struct shore_unsent shore_sender_pending(struct shore_outgoing, const uint8_t *marks, size_t marked);
/* Whether there are bytes never sent yet: 1 or 0. */
uint8_t shore_sender_has_new(struct shore_outgoing);

#ifdef __cplusplus
}
#endif
#endif
