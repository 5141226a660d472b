/* The sending end joined with the station: a boat's messages are taken in pieces, received, lost, acknowledged, sent again; they land and are read back.
   Then what the sending end refuses. */
#include "plan.h"
#include <stdio.h>

enum { SLOT = 1 };  /* the boat's */

/* The station, and the sending end of the boat. */
static struct shore_block block;
static uint8_t store[10 * SHORE_CELL], queue[SHORE_QUEUE];
static struct shore_outgoing sender;
static uint8_t bytes[SHORE_SENDER], marks[SHORE_SENDER];

/* What each writes: the station its words, the boat its pieces. */
static uint32_t out[SHORE_OUT], pieces[SHORE_OUT];
static size_t written;

/* The number that the boat was last polled with. */
static unsigned number;

/* ---- the boat */

static void state(void)
{
    struct shore_unsent u = shore_sender_pending(sender, marks, sizeof marks);
    printf("  boat: %zu bytes pending, %s\n", u.bytes, shore_sender_has_new(sender) ? "some new" : "none new");
}

static void post(const char *message, size_t length)
{
    struct shore_left l = shore_sender_post(sender, bytes, sizeof bytes, (const uint8_t *)message, length);
    sender = l.sender;
    printf("boat: posts %zu bytes", length);
    if (l.refusal)
        printf(": refused, %u", l.refusal);
    printf("\n");
    state();
}

/* How many words the frame at w has. */
static size_t size_of(const uint32_t *w) { return 2 + ((w[0] & 255) + 2) / 3; }

static void take(size_t max, size_t count)
{
    struct shore_left l = shore_sender_take(sender, bytes, sizeof bytes, marks, sizeof marks, max, count, pieces, SHORE_OUT);
    sender = l.sender;
    written = l.words;
    printf("boat: takes %zu pieces of %zu bytes", count, max);
    if (l.refusal) {
        printf(": refused, %u\n", l.refusal);
        return;
    }
    size_t n = 0;
    for (size_t i = 0; i < written; i += size_of(pieces + i))
        n++;
    printf(", gets %zu\n", n);
    for (size_t i = 0; i < written; i += size_of(pieces + i))
        printf("  piece of message %u: %u bytes from %u\n", pieces[i + 1] >> 16 & 255, pieces[i] & 255, pieces[i + 1] & 65535);
}

/* Frame n of its last burst was acknowledged where bit n is set. */
static void acknowledged(unsigned heard)
{
    unsigned n = 0;
    for (size_t i = 0; i < written; i += size_of(pieces + i))
        if (heard >> n++ & 1)
            sender = shore_sender_ack(sender, bytes, sizeof bytes, marks, sizeof marks, pieces[i + 1] >> 16 & 255, pieces[i + 1] & 65535).sender;
}

static void held(uint32_t next, const uint32_t *also, size_t count)
{
    sender = shore_sender_held(sender, bytes, sizeof bytes, marks, sizeof marks, next, also, count).sender;
}

/* ---- the station */

/* A frame of the station's: a received list of our slot has its first message missing, and which of the eight after it are there. */
static void frame(const uint32_t *w)
{
    uint32_t also[8], next = w[2] & 255, after = w[3] >> 16 & 255;
    size_t n = 0;
    if ((w[0] & 255) != 4 || (w[2] >> 8 & 65535) != (6 << 8 | SLOT)) {
        printf("  station: sends other frames\n");
        return;
    }
    printf("  station: received all below message %u, after it %02X\n", next, after);
    for (uint32_t i = 0; i < 8; i++)
        if (after >> i & 1)
            also[n++] = next + 1 + i;
    held(next, also, n);
    state();
}

/* A burst of the station's, and what the boat does then. */
static void burst(const uint32_t *w)
{
    unsigned code = w[0] >> 21 & 127, kind = w[0] >> 17 & 15;
    if (code != 62) {
        frame(w + 2);
    } else if (kind == 1) {
        printf("  station: polls slot %u\n", w[0] & 63);
        number = w[0] >> 10 & 63;
    } else if (kind == 2 || kind == 3) {
        printf("  station: heard frames %02X\n", w[0] >> 8 & 255);
        acknowledged(w[0] >> 8 & 255);
    } else {
        printf("  station: another burst\n");
    }
}

/* Says what a call gave: events, then at most one burst. */
static void say(struct shore_done d)
{
    block = d.block;
    for (size_t i = 0; i < d.words; i++) {
        uint32_t w = out[i];
        switch (w >> 28) {
        case 1: printf("  station: slot %u checked in\n", w & 63); break;
        case 2: printf("  station: message %u is in cell %u\n", w >> 13 & 255, w >> 6 & 127); break;
        case 8: burst(out + i); return;
        default: printf("  station: another event\n");
        }
    }
}

static void decide(double time)
{
    printf("%.0f s, next decision\n", time);
    say(shore_next(block, time, queue, sizeof queue, out, SHORE_OUT));
    block = shore_sent(block, time + 1).block;
}

/* The boat answers with its pieces, the first `lost` of them unheard. */
static void answer(unsigned lost, double time)
{
    static uint32_t heard[1 + SHORE_OUT];
    size_t n = 0, frames = 0;
    heard[n++] = 8u << 28 | 3u << 21 | number << 17;
    for (size_t i = 0; i < written; i += size_of(pieces + i)) {
        if (frames++ < lost) {
            heard[n++] = 13u << 28;
            continue;
        }
        memcpy(heard + n, pieces + i, size_of(pieces + i) * sizeof *heard);
        heard[n] |= SLOT << 8;
        n += size_of(pieces + i);
    }
    printf("%.0f s, the boat answers, %u of %zu pieces lost\n", time, lost, frames);
    say(shore_receive(block, heard, n, 10, time, store, sizeof store, out, SHORE_OUT));
    block = shore_sent(block, time + 1).block;
    state();
}

/* The boat hears us at 6 dB and has nothing to send. */
static void idle(double time)
{
    uint32_t heard = 8u << 28 | 62u << 21 | 4u << 17 | 30u << 6 | SLOT;
    printf("%.0f s, the boat has nothing to send\n", time);
    say(shore_receive(block, &heard, 1, 10, time, store, sizeof store, out, SHORE_OUT));
    printf("  station: slot %d hears it at %.1f dB\n", SLOT, shore_entry(block, SLOT).snrdown.decibels);
}

static void read_cell(size_t cell)
{
    struct shore_part r = shore_read(block, store, sizeof store, cell);
    printf("  cell %zu: \"%.*s\"\n", cell, (int)r.length, (const char *)store + r.offset);
    block = shore_free(block, cell).block;
}

static void start(void)
{
    block = shore_start(block, small_net(), store, sizeof store).block;
    sender = shore_sender_new();
}

/* ---- the run */

/* Two boats are admitted and the first signs off: ours is in slot 1. */
static void enter(void)
{
    static const uint8_t calls[2][5] = {{1, 0, 0, 0, 0}, {0xd0, 0x88, 0x21, 0x80, 0x0c}};
    for (int i = 0; i < 2; i++)
        say(shore_admit(block, calls[i], SHORE_NOBODY, 0, out, SHORE_OUT));
    block = shore_sign_off(block, 0).block;
    decide(0);
    decide(10);
}

static void joined(void)
{
    state();
    post("Anchored at Cape Farewell.", 26);
    take(14, 4);
    answer(1, 12);
    post("Two aboard.", 11);
    /* No answer to a burst: its pieces go behind new ones. */
    shore_sender_stale(sender, marks, sizeof marks);
    decide(30);
    take(20, 1);
    answer(0, 32);
    decide(50);
    decide(52);
    take(20, 4);
    answer(0, 54);
    read_cell(0);
    read_cell(1);
    decide(70);
    idle(72);
}

/* What is refused changes nothing; what the far end holds is gone. */
static void refused(void)
{
    static const char long_one[2047] = "too long";
    static const uint32_t also[] = {6};
    post(long_one, sizeof long_one);
    for (int i = 0; i < 9; i++)
        post("Under way.", 10);
    take(0, 1);
    take(256, 1);
    take(20, 65);
    take(20, 3);
    held(4, also, 1);
    printf("boat: messages below 4 are held, and 6\n");
    state();
    held(10, also, 0);
    printf("boat: messages below 10 are held\n");
    state();
}

int main(void)
{
    start();
    enter();
    joined();
    refused();
    return 0;
}
