/* How many frames should a store have for a class? Rehearses a class of benches that mostly go on with their next page, for 1 to 8
 * frames, and prints what each comes to. Links librehearsal_c.a alone. A rehearsal is short: it starts with an empty cache and has 1,024
 * turns at most, so that few blocks are rewritten. */
#include "clash_rehearse.h"
#include <stdio.h>

int main(void) {
    clash_setting setting = { 16, 16, 64, 16, 1, 1000, 4, 1024, 200, 230, 2026 };
    clash_tallies t;
    uint32_t frames, accepted, way;

    printf("%u benches, %u turns\nframes  erased  merged  read from the cache\n", setting.benches, setting.turns);
    for (frames = 1; frames <= 8; frames++) {
        setting.frames = frames;
        t = clash_rehearse(setting);
        for (accepted = 0, way = 1; way <= 3; way++) accepted += t.reads[way];
        printf("%6u%8u%8u%14u of %u\n", frames, t.erased, t.merged, t.reads[1] + t.reads[2], accepted);
        for (way = 1; way <= 7; way++) accepted += t.writes[way];
        if (t.refusal != CLASH_ACCEPTED || accepted + t.refused != setting.turns || t.erased != t.writes[7]) {
            printf("not what it must be\n");
            return 1;
        }
    }
    setting.benches = 17;
    if (clash_rehearse(setting).refusal != CLASH_SIZE) {
        printf("17 benches are too many\n");
        return 1;
    }
    return 0;
}
