/* Each refusal number that a library call gives, by the smallest change to a call that is accepted. 10 is for text alone
   (calls.c has one), 12 never comes. Expected output: refusals.out. */
#include <inttypes.h>
#include <stdio.h>

#include "flamecurl.h"

enum { G = 6, P = 1, S = 4, BASE = 1 << 20 };

static uint64_t map[G], words[512 * G], pool[512 * P * S], records[2 * P * S], slots[24 * P], answer[3];
static const uint64_t cr3s[P] = {0};

/* A fresh machine. */
static void begin(void)
{
    for (uint64_t f = 0; f < G; f++)
        map[f] = 100 + f;
    flamecurl_setup(map, G, cr3s, P, pool, 512 * P * S, records, 2 * P * S, slots, 24 * P, G, P, S, BASE);
}

static void put(const char *what, uint64_t share, uint64_t processor, uint64_t kind, uint64_t a, uint64_t b)
{
    flamecurl_event(map, G, words, 512 * G, pool, 512 * P * S, records, 2 * P * S, slots, 24 * P, answer, 3, G, P, share, BASE,
                    processor, kind, a, b);
    printf("%2" PRIu64 "  %s\n", answer[0], what);
    begin();
}

int main(void)
{
    begin();
    put("nothing wrong: drop slot 7", S, 0, 7, 7, 0);
    put("a share of 3 tables", 3, 0, 7, 7, 0);
    map[5] = 100;
    put("a host frame twice in the map", S, 0, 7, 7, 0);
    map[5] = BASE + 3;
    put("a host frame that is a shadow table's", S, 0, 7, 7, 0);
    records[2] = 1;
    put("a live table that no entry names", S, 0, 7, 7, 0);
    put("processor 1 of 1", S, 1, 7, 7, 0);
    put("an access to 2^47", S, 0, 4, (uint64_t)1 << 47, 0);
    put("an access with request 6", S, 0, 4, 8, 6);
    put("a CR3 write of frame 6 of 6", S, 0, 3, 6, 0);
    put("a store into word 3072 of 3072", S, 0, 1, 3072, 0);
    put("drop slot 8", S, 0, 7, 8, 0);
    put("kind 8", S, 0, 8, 0, 0);
    put("drop with b = 1", S, 0, 7, 7, 1);
    return 0;
}
