/* A day of a small net: one boat checks in, is polled, sends a message in two pieces of which one is lost and sent again; it lands and is read. A message
   goes out to the boat. Every word that the station gives is said in plain text. */
#include "plan.h"
#include <stdio.h>

static struct shore_block block;
static uint8_t store[10 * SHORE_CELL];
static uint8_t queue[SHORE_QUEUE];
static uint32_t out[SHORE_OUT];

/* ---- words for the station */

static uint32_t heard[512];
static size_t heards;

/* The head of a burst that a boat sends at a level. */
static void head(unsigned level, unsigned nibble)
{
    heards = 0;
    heard[heards++] = 8u << 28 | level << 21 | nibble << 17;
}

/* A frame: its flags, its field, its payload three bytes to a word. */
static void frame(unsigned flags, uint32_t field, const uint8_t *bytes, size_t n)
{
    heard[heards++] = 10u << 28 | flags << 8 | (uint32_t)n;
    heard[heards++] = 11u << 28 | field;
    for (size_t i = 0; i < n; i += 3) {
        uint32_t w = 0;
        for (size_t k = i; k < i + 3; k++)
            w = w << 8 | (k < n ? bytes[k] : 0);
        heard[heards++] = 12u << 28 | w;
    }
}

static void lost(void) { heard[heards++] = 13u << 28; }

/* ---- what the station says */

static void say_event(uint32_t w)
{
    unsigned slot = w & 63, relay = w >> 6 & 63;
    switch (w >> 28) {
    case 1: printf("  event: slot %u checked in", slot); break;
    case 2: printf("  event: message %u of slot %u is in cell %u\n", w >> 13 & 255, slot, w >> 6 & 127); return;
    case 3: printf("  event: slot %u missed its turn\n", slot); return;
    case 4: printf("  event: messages of slot %u came by relay", slot); break;
    case 5: printf("  event: slot %u has another route", slot); break;
    }
    printf(relay == SHORE_NOBODY ? ", direct\n" : ", by slot %u\n", relay);
}

static void say_head(uint32_t w, unsigned level)
{
    static const char *short_burst[] = {"", "poll", "acknowledgement, and another poll", "acknowledgement", "", "poll by relay", "closing"};
    unsigned code = w >> 21 & 127, nibble = w >> 17 & 15;
    printf("  send at level %u:", level);
    if (code == 62 && nibble < 7)
        printf(" %s", short_burst[nibble]);
    if (code == 62 && nibble < 6)
        printf(" of slot %u", w & 63);
    if (code == 62 && (nibble == 2 || nibble == 3))
        for (unsigned i = 0; i < 8; i++)
            if (w >> (8 + i) & 1)
                printf(", frame %u heard", i);
    printf("\n");
}

static const char *kind_of(unsigned flags, unsigned first)
{
    if (flags >> 6 == 1)
        return "data for the boat";
    switch (first) {
    case 1: return "beacon";
    case 5: return "members";
    case 6: return "received";
    case 8: return "tree";
    }
    return "control";
}

/* A frame of a sending; gives back how many words it is. */
static size_t say_frame(const uint32_t *w)
{
    unsigned flags = w[0] >> 8 & 255, n = w[0] & 255;
    printf("    %s, %u bytes:", kind_of(flags, n ? w[2] >> 16 & 255 : 0), n);
    for (unsigned i = 0; i < n; i++) {
        unsigned c = w[2 + i / 3] >> (16 - 8 * (i % 3)) & 255;
        printf(c >= 32 && c < 127 ? " %c" : " %02X", c);
    }
    printf("\n");
    return 2 + (n + 2) / 3;
}

/* Takes what a call gave back; says events, and the burst to send. Gives back whether there is one. */
static int take(const char *what, double time, const struct shore_done *d)
{
    int sends = 0;
    block = d->block;
    printf("%5.1f s, %s%s\n", time, what, d->refusal || d->words ? ":" : ".");
    if (d->refusal)
        printf("  refused, %u\n", d->refusal);
    if (d->mask)
        printf("  pieces not kept: %llX\n", (unsigned long long)d->mask);
    for (size_t i = 0; i < d->words;) {
        switch (out[i] >> 28) {
        case 8:
            sends = 1;
            say_head(out[i], out[i + 1] & 31);
            i += 2;
            break;
        case 10: i += say_frame(out + i); break;
        default: say_event(out[i++]);
        }
    }
    return sends;
}

/* ---- the calls, each with what it gives said */

static void decide(double time)
{
    struct shore_done d = shore_next(block, time, queue, sizeof queue, out, SHORE_OUT);
    if (take("next decision", time, &d)) {
        d = shore_sent(block, time + 1);
        block = d.block;
    }
}

static void receive(const char *what, double time)
{
    struct shore_done d = shore_receive(block, heard, heards, 10, time, store, sizeof store, out, SHORE_OUT);
    if (take(what, time, &d)) {
        d = shore_sent(block, time + 1);
        block = d.block;
    }
}

static void start(void)
{
    struct shore_done d = shore_start(block, small_net(), store, sizeof store);
    take("start", 0, &d);
}

static void read_cell(size_t cell)
{
    struct shore_part r = shore_read(block, store, sizeof store, cell);
    if (r.refusal)
        printf("         cell %zu: refused, %u\n", cell, r.refusal);
    else
        printf("         cell %zu: \"%.*s\"\n", cell, (int)r.length, (const char *)store + r.offset);
}

static void show(uint8_t slot)
{
    struct shore_shown e = shore_entry(block, slot);
    struct shore_poorest w = shore_worst(block, slot);
    printf("         slot %u: %.7s, up %.1f dB, worst %.1f dB, %u bytes landed, %u turns missed; %u boats silent\n", slot, (const char *)e.call, e.snrup.decibels, w.level.decibels, e.bytesin, e.missed, shore_silent(block));
}

/* ---- the day */

static const uint8_t check_in[] = {2, 0xd0, 0x88, 0x21, 0x80, 0x0c, 30, 12, 2, 1};
static const uint8_t message[] = "\x1a\x00" "Anchored at Cape Farewell.";

/* The boat's report: slot 0 hears us at 6 dB, and got so many bytes of ours. */
static void report(unsigned got)
{
    uint8_t r[12] = {3, 0, 30, 0, 0, 0, 0, 0, 0, (uint8_t)got, 0, 0};
    frame(0x80, 0, r, sizeof r);
}

static void morning(void)
{
    decide(0);
    head(8, 0);
    frame(0xbf, 0, check_in, sizeof check_in);
    receive("GULL checks in", 2);
    decide(20);
    decide(22);
    head(3, 0);
    report(0);
    lost();
    frame(0, 14, message + 14, 14);
    receive("its answer, the first piece lost", 24);
    decide(40);
    head(3, 1);
    report(0);
    frame(0, 0, message, 14);
    receive("its answer, the first piece once more", 42);
    read_cell(0);
    struct shore_done d = shore_free(block, 0);
    take("cell 0 is free", 43, &d);
    read_cell(0);
    show(0);
}

static void evening(void)
{
    struct shore_done d = shore_post(block, 0, (const uint8_t *)"Gale at six", 11, queue, sizeof queue);
    take("posted: Gale at six", 50, &d);
    decide(60);
    decide(62);
    decide(64);
    head(3, 0);
    report(13);
    receive("its report: 13 bytes of ours got", 66);
    show(0);
    decide(-1);
    d = shore_close(block, 1);
    take("the net closes", 100, &d);
    decide(101);
    decide(110);
}

int main(void)
{
    start();
    morning();
    evening();
    return 0;
}
