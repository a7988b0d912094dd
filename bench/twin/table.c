// The table of records: reading, writing and searching it, and what the check asks of each record by itself.
#include "twin.h"

static inline row read_row(const uint32_t *table, size_t i)
{
    const uint32_t *r = table + RECORD_WORDS * i;
    return (row){r[0], r[1], r[2], r[3]};
}

static inline void write_row(uint32_t *table, size_t i, row r)
{
    uint32_t *to = table + RECORD_WORDS * i;
    to[0] = r.ticket;
    to[1] = r.address;
    to[2] = r.words;
    to[3] = r.party;
}

static inline bool is_empty(row r)
{
    return (r.ticket | r.address | r.words | r.party) == 0;
}

static inline bool table_suits(size_t table_len)
{
    return table_len % RECORD_WORDS == 0 && table_len >= RECORD_WORDS && table_len <= RECORD_WORDS * MOST_RECORDS;
}

// So many slots, from the first on, have another ticket, as far as four at a time say so.
static inline size_t passed(const uint32_t *table, size_t slots, uint32_t x)
{
    size_t i = 0;
    for (; slots - i >= 4; i += 4) {
        const uint32_t *t = table + RECORD_WORDS * i;
        if ((t[0] == x) | (t[RECORD_WORDS] == x) | (t[2 * RECORD_WORDS] == x) | (t[3 * RECORD_WORDS] == x))
            break;
    }
    return i;
}

// The lowest slot with this ticket, or `slots`. Ticket 0 stands in every empty slot and is no record's.
static size_t find_slot(const uint32_t *table, size_t slots, uint32_t ticket)
{
    if (ticket == 0)
        return slots;
    size_t i = passed(table, slots, ticket);
    while (i < slots && table[RECORD_WORDS * i] != ticket)
        i++;
    return i;
}

// The lowest empty slot of a sound table, or `slots`.
static size_t empty_slot(const uint32_t *table, size_t slots)
{
    size_t i = passed(table, slots, 0);
    while (i < slots && table[RECORD_WORDS * i] != 0)
        i++;
    return i;
}

static inline uint32_t next_after(uint32_t ticket)
{
    return ticket + 1;
}

static inline bool is_party(uint32_t party)
{
    return party - 1 < MOST_PARTY;
}

// What holds of a live record's ticket and party whatever the engine.
static inline bool ticket_fits(row r, uint32_t next)
{
    return (r.ticket != 0) & ((next == 0) | (r.ticket < next)) & is_party(r.party);
}

// The slot of the record that a call names; its party is the caller's. The number is 0, 6 or 7.
typedef struct {
    uint32_t number;
    size_t slot;
} named;

static named named_slot(const uint32_t *table, size_t slots, row r)
{
    size_t i = find_slot(table, slots, r.ticket);
    if (i == slots)
        return (named){UNKNOWN_TICKET, 0};
    row found = read_row(table, i);
    if (found.party != r.party)
        return (named){UNKNOWN_TICKET, 0};
    if (found.address != r.address || found.words != r.words)
        return (named){OTHER_BLOCK, 0};
    return (named){DONE, i};
}

static inline lf_answer refused(uint32_t number)
{
    return (lf_answer){number, 0, 0, 0};
}

static inline lf_answer succeeded(row r)
{
    return (lf_answer){DONE, r.ticket, r.address, r.words};
}

// What a refused format hands back.
static const lf_tree_head no_head = {0, 0, 0};

static inline lf_tree_outcome tree_refused(lf_tree_head head, uint32_t number)
{
    return (lf_tree_outcome){head, refused(number)};
}

// An old table into a new one, as party 1.
uint32_t TWIN(copy_table)(const uint32_t *restrict old, size_t old_len, uint32_t *restrict new_table, size_t new_len)
{
    size_t slots = old_len / OLD_RECORD_WORDS;
    if (old_len % OLD_RECORD_WORDS != 0 || slots == 0 || slots > MOST_RECORDS || new_len != RECORD_WORDS * slots)
        return BAD_LENGTHS;
    for (size_t i = 0; i < slots; i++) {
        const uint32_t *r = old + OLD_RECORD_WORDS * i;
        write_row(new_table, i, (row){r[0], r[1], r[2], (r[0] | r[1] | r[2]) != 0});
    }
    return DONE;
}

static inline bool list_suits(size_t requests_len, size_t answers_len)
{
    return requests_len % REQUEST_WORDS == 0 && requests_len <= REQUEST_WORDS * MOST_REQUESTS &&
           requests_len <= answers_len;
}

static inline void put_answer(uint32_t *answers, lf_answer a)
{
    answers[0] = a.number;
    answers[1] = a.ticket;
    answers[2] = a.address;
    answers[3] = a.words;
}
