/* Which addresses may an access to 8 reach after a store into the page's last entry? */
#include <inttypes.h>
#include <stdio.h>

#include "flamecurl.h"

int main(void)
{
    static const uint64_t map[6] = {100, 101, 102, 103, 104, 105};
    static uint64_t words[512 * 6] = {[0] = 4103, [512] = 8199, [1024] = 12295, [1536] = 16391};
    static const uint64_t cr3s[1] = {0};
    static const uint64_t events[4 * 1] = {0, 1, 1536, 20487};
    static uint8_t work[40 * 6];
    static uint64_t outcomes[2 * (6 + 3)], answer[2];
    const uint64_t address = 8;

    uint64_t refusal = flamecurl_list(map, 6, words, 512 * 6, cr3s, 1, events, 4, work, 40 * 6, outcomes, 2 * (6 + 3), answer, 2,
                                      0, address, 0);
    if (refusal != 0) {
        printf("refused: %" PRIu64 "\n", refusal);
        return 1;
    }
    for (uint64_t i = 0; i < answer[1]; i++) {
        uint64_t value = outcomes[2 * i + 1];
        if (outcomes[2 * i] == 0)
            printf("host address %" PRIu64 "\n", map[value] * 4096 + address % 4096);
        else
            printf("fault, code %" PRIu64 "\n", value);
    }
    return 0;
}
