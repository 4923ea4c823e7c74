/* Every call of the library once, on the puzzle of the scope document: six frames, tables in frames 0 to 3, and a page whose
   last entry, word 1536, leads to frame 4. Expected output: calls.out. */
#include <inttypes.h>
#include <stdio.h>
#include <string.h>

#include "flamecurl.h"

#define COUNT(buffer) (buffer), (sizeof(buffer) / sizeof((buffer)[0]))

enum { G = 6, P = 1, S = 4, BASE = 1 << 20 };

static const uint64_t map[G] = {100, 101, 102, 103, 104, 105};
static const uint64_t cr3s[P] = {0};
static uint64_t words[FLAMECURL_WORDS(G)], pool[FLAMECURL_POOL(P, S)], records[FLAMECURL_RECORDS(P, S)];
static uint64_t slots[FLAMECURL_SLOTS(P)];

static void lay_tables(void)
{
    memset(words, 0, sizeof words);
    words[0] = 4103;
    words[512] = 8199;
    words[1024] = 12295;
    words[1536] = 16391;
}

/* Which outcomes may an access to address 8 have, after a store into the page's last entry? */
static void list(void)
{
    static const uint64_t events[] = {0, 1, 1536, 20487};
    uint8_t work[FLAMECURL_WORK(G)];
    uint64_t outcomes[FLAMECURL_OUTCOMES(G)], answer[FLAMECURL_LIST_ANSWER];

    lay_tables();
    uint64_t refusal = flamecurl_list(COUNT(map), COUNT(words), COUNT(cr3s), COUNT(events), COUNT(work), COUNT(outcomes),
                                      COUNT(answer), 0, 8, 0);
    printf("list: refusal %" PRIu64 ", count %" PRIu64 "\n", refusal, answer[1]);
    for (uint64_t i = 0; i < answer[1]; i++)
        printf("  %s %" PRIu64 "\n", outcomes[2 * i] == 0 ? "frame" : "fault", outcomes[2 * i + 1]);

    refusal = flamecurl_list(COUNT(map), COUNT(words), COUNT(cr3s), COUNT(events), COUNT(work), COUNT(outcomes),
                             COUNT(answer), 0, 8, 6);
    printf("list, request 6: refusal %" PRIu64 ", count %" PRIu64 "\n", refusal, answer[1]);
}

static void put(uint64_t kind, uint64_t a, uint64_t b)
{
    uint64_t answer[FLAMECURL_EVENT_ANSWER];

    flamecurl_event(COUNT(map), COUNT(words), COUNT(pool), COUNT(records), COUNT(slots), COUNT(answer), G, P, S, BASE, 0, kind,
                    a, b);
    printf("event %" PRIu64 " %" PRIu64 " %" PRIu64 ": refusal %" PRIu64 ", kind %" PRIu64 ", value %" PRIu64 "\n", kind, a, b,
           answer[0], answer[1], answer[2]);
}

/* The machine meets the same store: it answers from its shadow tables until INVLPG. */
static void machine(void)
{
    lay_tables();
    uint64_t refusal =
        flamecurl_setup(COUNT(map), COUNT(cr3s), COUNT(pool), COUNT(records), COUNT(slots), G, P, S, BASE);
    printf("setup: refusal %" PRIu64 "\n", refusal);
    put(4, 8, 0);
    put(4, 8, 0);
    put(1, 1536, 20487);
    put(4, 8, 0);
    put(2, 8, 0);
    put(4, 8, 0);
    put(4, 8, 0);
    put(6, 8, 0);
}

static void text(const char *puzzle)
{
    static uint64_t frames[FLAMECURL_TEXT_MAP], roots[FLAMECURL_TEXT_CR3S], start[FLAMECURL_TEXT_WORDS];
    static uint64_t events[FLAMECURL_TEXT_EVENTS], questions[FLAMECURL_TEXT_QUESTIONS];
    static uint8_t output[FLAMECURL_OUTPUT];
    uint64_t counts[FLAMECURL_READ_ANSWER], answer[FLAMECURL_PRINT_ANSWER];
    const uint8_t *bytes = (const uint8_t *)puzzle;

    flamecurl_read(bytes, strlen(puzzle), COUNT(frames), COUNT(roots), COUNT(start), COUNT(events), COUNT(questions),
                   COUNT(counts));
    printf("read: refusal %" PRIu64 ", line %" PRIu64 ", frames %" PRIu64 ", CR3s %" PRIu64 ", words %" PRIu64
           ", events %" PRIu64 ", questions %" PRIu64 "\n",
           counts[0], counts[1], counts[2], counts[3], counts[4], counts[5], counts[6]);
    flamecurl_answers(bytes, strlen(puzzle), COUNT(output), COUNT(answer));
    printf("answers: refusal %" PRIu64 ", bytes %" PRIu64 ", text's number %" PRIu64 ", line %" PRIu64 "\n%.*s", answer[0],
           answer[1], answer[2], answer[3], (int)answer[1], output);
    flamecurl_run(bytes, strlen(puzzle), COUNT(output), COUNT(answer));
    printf("run: refusal %" PRIu64 ", bytes %" PRIu64 ", text's number %" PRIu64 ", line %" PRIu64 "\n%.*s", answer[0],
           answer[1], answer[2], answer[3], (int)answer[1], output);
}

int main(void)
{
    list();
    machine();
    text("6 100 101 102 103 104 105\n1 0\n4 0 4103 512 8199 1024 12295 1536 16391\n1 0 1 1536 20487\n1 0 8 0\n");
    text("6 100 101 102 103 104 105\n1 6\n");
    return 0;
}
