/* Flamecurl as a C library: target/staticlib/libflamecurl.a, made by `./flamecurl build`, for x86-64 Linux.

   A buffer is a pointer and a count of its elements. A pointer must not be NULL, even if its count is 0, must be aligned for
   its elements, and must be good for that many of them; buffers that a call may write must not overlap any other.
   That is all a caller owes. What the numbers and the buffers hold, and how long they are, each call tests itself.

   Each function returns 0, or the number under which it was refused; then no buffer has changed but `answer`, which
   holds that number and zeros (flamecurl_read: and the line). An `answer` of another count than the one named below is
   refused with 1 and is left as it was. No function keeps anything between calls, allocates, or calls anything but memcpy and
   memset: calls from several threads are independent if their buffers are. flamecurl_read takes 140 KB of stack,
   flamecurl_answers and flamecurl_run 220 KB, the others less than 16 KB.

   Sizes. G guest frames of 512 words, 1 to 256; P processors, 1 to 4; S shadow tables for each processor, 4 to 16; at most
   4,096 events in a list call. Counts in brackets below are exact unless "at least" stands there.

     map        [G]        host frame of each guest frame: distinct, below 2^40, outside the pool
     words      [512*G]    the guest's memory: word i of frame f is words[512*f + i]
     cr3s       [P]        each processor's CR3 at the start, a guest frame
     events     [4*count]  processor, kind, a, b of each event
     work       [at least 40*G bytes]       byte ((l*G) + frame)*8 + rights is 1 for each held walk at level l (0 is
                                            complete), 0 otherwise; later bytes stay
     outcomes   [at least 2*(G+3)]          pairs: (0, guest frame) by rising frame, then (1, error code) by rising code
     pool       [512*P*S]  the shadow tables; table t is the host frame base + t
     records    [2*P*S]    level (0 free) and guest frame shadowed of each table
     slots      [24*P]     mark, page, place*8 + rights of eight TLB slots of each processor

   Events: 1 store, word a becomes b. 2 INVLPG of address a. 3 CR3 write of frame a. 4 access to a with request b.
   5 begin a walk of a in slot b. 6 extend slot a. 7 drop slot a. b is 0 where it is not named.
   Requests: 0 read, 1 write, 2 fetch; 3, 4, 5 the same by the user. */
#ifndef FLAMECURL_H
#define FLAMECURL_H

#include <stdint.h>

#define FLAMECURL_VERSION "0.9.0"

/* Lengths of buffers, in elements, by the numbers of guest frames G, processors P and shadow tables to a processor S. */
#define FLAMECURL_WORDS(G) (512 * (G))
#define FLAMECURL_WORK(G) (40 * (G))
#define FLAMECURL_OUTCOMES(G) (2 * ((G) + 3))
#define FLAMECURL_POOL(P, S) (512 * (P) * (S))
#define FLAMECURL_RECORDS(P, S) (2 * (P) * (S))
#define FLAMECURL_SLOTS(P) (24 * (P))

/* Of flamecurl_read: the buffers, and the most bytes of a text. */
#define FLAMECURL_TEXT_BYTES 65536
#define FLAMECURL_TEXT_MAP 16
#define FLAMECURL_TEXT_CR3S 4
#define FLAMECURL_TEXT_WORDS 8192
#define FLAMECURL_TEXT_EVENTS 1024
#define FLAMECURL_TEXT_QUESTIONS 48

/* Of flamecurl_answers and flamecurl_run: the output, in bytes. */
#define FLAMECURL_OUTPUT 16384

/* The answers. */
#define FLAMECURL_LIST_ANSWER 2
#define FLAMECURL_EVENT_ANSWER 3
#define FLAMECURL_READ_ANSWER 7
#define FLAMECURL_PRINT_ANSWER 4

#ifdef __cplusplus
extern "C" {
#endif

/* Refusal numbers. */
enum {
    FLAMECURL_SIZE = 1,      /* a count, G, P, S or the number of events is out of range */
    FLAMECURL_MAP = 2,       /* a map frame repeats, is 2^40 or more, or lies in the pool; or the pool passes 2^40 */
    FLAMECURL_STATE = 3,     /* the shadow state breaks a state rule */
    FLAMECURL_PROCESSOR = 4, /* processor >= P */
    FLAMECURL_ADDRESS = 5,   /* address neither below 2^47 nor at least 2^64 - 2^47 */
    FLAMECURL_REQUEST = 6,   /* request > 5 */
    FLAMECURL_CR3 = 7,       /* CR3 frame >= G */
    FLAMECURL_WORD = 8,      /* word >= 512*G */
    FLAMECURL_SLOT = 9,      /* slot > 7 */
    FLAMECURL_TEXT = 10,     /* text: bad byte, leading zero, 2^64 or more, a number missing or left over */
    FLAMECURL_RANGE = 11,    /* kind not 1 to 7, or b not 0 where it must be; in text any number out of range */
    FLAMECURL_TABLES = 12    /* too few tables in a share; proved never to come */
};

/* Kinds of an event's answer. */
enum {
    FLAMECURL_DONE = 0,
    FLAMECURL_ACCESSED = 1, /* value: the host address */
    FLAMECURL_FAULT = 2,    /* value: the error code */
    FLAMECURL_AGAIN = 3,    /* the shadow tables were filled: put the access again */
    FLAMECURL_NO_STEP = 4   /* the slot has no walk to extend, or its entry is absent */
};

/* Every permitted outcome of a question, after all events. words then hold the start with all stores done.
   answer [2]: refusal, count of outcomes. Tested in this order: 1, 2 (map only), 7 (start CR3s), the events, the question. */
uint64_t flamecurl_list(const uint64_t *map, uint64_t map_count,
                        uint64_t *words, uint64_t words_count,
                        const uint64_t *cr3s, uint64_t cr3s_count,
                        const uint64_t *events, uint64_t events_count,
                        uint8_t *work, uint64_t work_count,
                        uint64_t *outcomes, uint64_t outcomes_count,
                        uint64_t *answer, uint64_t answer_count,
                        uint64_t processor, uint64_t address, uint64_t request);

/* A fresh machine: pool, records and slots zero, roots at level 4 shadowing the given CR3s. What they held is not read. */
uint64_t flamecurl_setup(const uint64_t *map, uint64_t map_count,
                         const uint64_t *cr3s, uint64_t cr3s_count,
                         uint64_t *pool, uint64_t pool_count,
                         uint64_t *records, uint64_t records_count,
                         uint64_t *slots, uint64_t slots_count,
                         uint64_t frames, uint64_t processors, uint64_t share, uint64_t base);

/* One event of the machine (frames is G, processors P, share S, base the host frame of table 0).
   answer [3]: refusal, kind, value. */
uint64_t flamecurl_event(const uint64_t *map, uint64_t map_count,
                         uint64_t *words, uint64_t words_count,
                         uint64_t *pool, uint64_t pool_count,
                         uint64_t *records, uint64_t records_count,
                         uint64_t *slots, uint64_t slots_count,
                         uint64_t *answer, uint64_t answer_count,
                         uint64_t frames, uint64_t processors, uint64_t share, uint64_t base,
                         uint64_t processor, uint64_t kind, uint64_t a, uint64_t b);

/* A puzzle text (at most 65,536 bytes) into buffers of exactly 16, 4, 8,192, 1,024 and 48 numbers; what lies behind a
   section's end stays. Questions are processor, address, request.
   answer [7]: refusal, line, then the counts of map frames, CR3s, word pairs, events and questions. */
uint64_t flamecurl_read(const uint8_t *text, uint64_t text_count,
                        uint64_t *map, uint64_t map_count,
                        uint64_t *cr3s, uint64_t cr3s_count,
                        uint64_t *words, uint64_t words_count,
                        uint64_t *events, uint64_t events_count,
                        uint64_t *questions, uint64_t questions_count,
                        uint64_t *answer, uint64_t answer_count);

/* What the program `answers` prints for a text, into exactly 16,384 bytes; later bytes stay. A refused text is answered
   with the line `R number line`; the call itself is then not refused, and the answer tells the text's number and line.
   answer [4]: refusal, bytes written, the text's refusal number (0 if it is accepted), its line. */
uint64_t flamecurl_answers(const uint8_t *text, uint64_t text_count,
                           uint8_t *output, uint64_t output_count,
                           uint64_t *answer, uint64_t answer_count);

/* What the program `run` prints for a text; buffers and answer as flamecurl_answers has them. */
uint64_t flamecurl_run(const uint8_t *text, uint64_t text_count,
                       uint8_t *output, uint64_t output_count,
                       uint64_t *answer, uint64_t answer_count);

#ifdef __cplusplus
}
#endif

#endif
