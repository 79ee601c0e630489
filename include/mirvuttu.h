/* Mirvuttu for C: what a shop's wire does with its messages (docs/RULES.md).
 *
 * The functions stand in libexports.a, which `rt lib` in crates/exports writes to its out/. They are proved:
 * each keeps docs/RULES.md for every input. No number and no length is out of bounds to them; what is bad is refused.
 *
 * Each answer but that of mirvuttu_answer, which answers in text, begins with or holds a refusal's number, 0 for none.
 * Where it is not 0, every other figure is 0 (false) and every lent buffer is as it was. Where several refusals apply,
 * the lowest number is told; a run asks 1 and 2 of its time tree, then 1 and 2 of its static tree, then goes on.
 *
 *    1  m out of 2 to 16
 *    2  t no power of m from m on, or over 1,024
 *    3  a leaf list whose length is not t
 *    4  a leaf byte that is neither 0 nor 1, in a search
 *    5  k over t
 *    6  no station, or more than 32; in a withdrawal, a station over 31
 *    7  class width, offset or compression factor out of its range
 *    8  an index table of another length than the static tree's leaves, with a bad entry, or without some station
 *    9  too many messages, lists of unequal length, or a message with a number out of its range; in the class answer,
 *       a deadline over 2,000,000,000
 *   10  an event budget out of 1 to 1,000,000
 *   11  a log with too little room
 *   12  a reference time over 5,000,000,000,000, in the class answer
 *   13  text that cannot be read: only in the text of mirvuttu_answer
 *
 * What a caller owes: a pointer with a count is that many items, aligned as C has it, that nobody else writes during
 * the call; two buffers of one call do not overlap; where a count is 0 the pointer is not followed, but it is not null.
 * No function keeps a pointer, allocates, or calls anything but memcpy and memset, and any number of threads may call
 * at once with buffers of their own. docs/PERFORMANCE.md has the stack that each wants.
 */
#ifndef MIRVUTTU_H
#define MIRVUTTU_H

#include <stdbool.h>
#include <stddef.h>
#include <stdint.h>

#ifdef __cplusplus
extern "C" {
#endif

/* The slot of sending of a message that was not sent, and the owner of a static index that nobody owns. */
#define MIRVUTTU_UNSENT 4294967295u
#define MIRVUTTU_FREE 255u

/* A tree: 2 to 16 branches at each node; the leaves are a power of the branches, at most 1,024. */
struct mirvuttu_tree {
    uint32_t branches;
    uint32_t leaves;
};

/* The numbers of a shop. */
struct mirvuttu_shop {
    uint32_t stations;    /* 1 to 32 */
    uint32_t width;       /* of a class, 1 to 1,000,000 slots */
    uint32_t offset;      /* 0 to 1,000,000 */
    uint32_t compression; /* factor, 0 to 8 */
    struct mirvuttu_tree time;
    struct mirvuttu_tree index;
};

/* A message. Its number is its place in the list. */
struct mirvuttu_message {
    uint32_t station;
    uint32_t arrival;  /* 0 to 1,000,000,000 */
    uint32_t relative; /* relative deadline, 1 to 1,000,000,000 */
    uint32_t length;   /* 1 to 1,000 slots */
    uint32_t sent;     /* slot of sending: set by a run, whatever it held before */
};

struct mirvuttu_run_numbers {
    uint32_t refusal;
    bool done; /* every message was sent; else the budget ended the run */
    uint32_t events;
    uint32_t slot; /* the present slot at the end */
    uint32_t sent;
    uint32_t late; /* messages sent whose end lies after their absolute deadline */
};

/* Runs a shop. `owners` names the station that owns each static index. The log needs room for 16 * budget bytes and
 * gets a row of 16 bytes for each event (docs/RULES.md, section 4); the bytes behind the last row stay as they were.
 * The messages' slots of sending are set.
 * Refuses 1, 2, 6, 7, 8, 9, 10 and 11. */
struct mirvuttu_run_numbers mirvuttu_run(struct mirvuttu_shop shop, const uint32_t *owners, size_t owners_count,
                                         struct mirvuttu_message *messages, size_t messages_count, uint8_t *log,
                                         size_t log_room, uint32_t budget);

/* The same over messages that are held field by field: message i is what stands at place i of the five lists.
 * Refuses the same; lists of unequal length are refused 9. */
struct mirvuttu_run_numbers mirvuttu_run_fields(struct mirvuttu_shop shop, const uint32_t *owners, size_t owners_count,
                                                const uint32_t *stations, size_t stations_count,
                                                const uint32_t *arrivals, size_t arrivals_count,
                                                const uint32_t *relatives, size_t relatives_count,
                                                const uint32_t *lengths, size_t lengths_count, uint32_t *sent,
                                                size_t sent_count, uint8_t *log, size_t log_room, uint32_t budget);

struct mirvuttu_withdrawal_numbers {
    uint32_t refusal;
    uint32_t kept;
    uint32_t withdrawn;
};

/* Withdraws a station's messages. The kept ones move to the front in their order and zeros follow; from then on the
 * first `kept` places are the list, and only they are lent to the next call.
 * Refuses 6 (station above 31) and 9 (more than 512 messages). */
struct mirvuttu_withdrawal_numbers mirvuttu_withdraw(struct mirvuttu_message *messages, size_t messages_count,
                                                     uint32_t station);

struct mirvuttu_class_numbers {
    int64_t class_number; /* below 0 where the message is late by so many classes */
    uint32_t refusal;
};

/* The class of a message with that absolute deadline. Refuses 7, 9 and 12. */
struct mirvuttu_class_numbers mirvuttu_class(uint32_t deadline, uint32_t offset, uint64_t reference, uint32_t width);

struct mirvuttu_search_numbers {
    uint32_t refusal;
    uint32_t rows;
    uint32_t silences;
    uint32_t collisions;
};

/* A bare search of the tree of m branches and t leaves, of which those of value 1 are active; leaves_count is t. The
 * log needs room for 16 * (m * t - 1) / (m - 1) bytes and gets a row of 16 bytes for each visit (docs/RULES.md,
 * section 4); the bytes behind the last row stay as they were. Refuses 1, 2, 3, 4 and 11. */
struct mirvuttu_search_numbers mirvuttu_search(uint32_t m, uint32_t t, const uint8_t *leaves, size_t leaves_count,
                                               uint8_t *log, size_t log_room);

struct mirvuttu_count_numbers {
    uint32_t refusal;
    uint32_t slots;
};

/* The most silent and colliding slots that k active leaves can cost. Refuses 1, 2 and 5. */
struct mirvuttu_count_numbers mirvuttu_worst_count(uint32_t m, uint32_t t, uint32_t k);

/* Writes k active leaves that cost exactly that into a list of t bytes; answers a refusal's number. leaves_count is t.
 * Refuses 1, 2, 3 and 5. */
uint32_t mirvuttu_place(uint32_t m, uint32_t t, uint32_t k, uint8_t *leaves, size_t leaves_count);

/* The room that every text of mirvuttu_answer fits into. */
#define MIRVUTTU_OUTPUT_ROOM 262144u

/* The program's answer to the text of a shop (docs/RULES.md, section 12): its log and closing figures as text, or the
 * line of a refusal. Answers how many bytes were written; those behind them stay as they were. An output with less
 * room than MIRVUTTU_OUTPUT_ROOM is left as it was, and the answer is 0. */
size_t mirvuttu_answer(const uint8_t *input, size_t input_count, uint8_t *output, size_t output_room);

#ifdef __cplusplus
}
#endif

#endif
