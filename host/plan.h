/* The settings of a small net, for the examples. */
#include "shore.h"
#include <string.h>

static struct shore_plan small_net(void)
{
    static struct shore_plan p;
    struct shore_setup *g = &p.settings;
    *g = (struct shore_setup){.turnaround = 0.3, .maxburst = 8, .replyslack = 1, .detect = 1, .beaconevery = 300, .quickbeacon = 45, .idleroundgap = 15, .margin = 1, .relaysnr = -8, .misslimit = 2, .windowslots = 4};
    memcpy(g->name, "PORT  ", 6);
    for (int i = 0; i < 4; i++)
        g->durations[i] = 1;
    for (int i = 0; i < 17; i++) {
        g->thresholds[i] = -20 + 2 * i;
        p.payloads[i] = i < 5 ? 22 : 170;
    }
    for (int i = 0; i < 1088; i++)
        p.times[i] = 1;
    memcpy(p.call, "\x40\x3e\x77\xb3\x00", 5);
    return p;
}
