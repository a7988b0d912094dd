// The text program's lines: what one asks, read from its bytes, and the answer line, written.
#include "twin.h"

// ---- reading

// A number from here on, decimal, no leading zero, at most 4,294,967,295: the place after it, or NULL.
static inline const uint8_t *read_number(const uint8_t *s, const uint8_t *end, uint32_t *number)
{
    const uint8_t *first = s;
    uint64_t value = 0;
    while (s < end && (uint8_t)(*s - '0') < 10 && value <= UINT32_MAX)
        value = 10 * value + (uint8_t)(*s++ - '0');
    *number = (uint32_t)value;
    bool leading = *first == '0' && s - first > 1;
    return s == first || leading || value > UINT32_MAX ? NULL : s;
}

// So many numbers, tabs between them, and nothing else.
static ALWAYS_INLINE bool read_numbers(const uint8_t *s, const uint8_t *end, uint32_t *numbers, size_t count)
{
    for (size_t i = 0; i < count; i++) {
        if (i > 0 && (s == end || *s++ != '\t'))
            return false;
        s = s == end ? NULL : read_number(s, end, numbers + i);
        if (s == NULL)
            return false;
    }
    return s == end;
}

// A line's letter and numbers. Of a bad line the letter is 0; of a P line `count` says how many numbers it has.
typedef struct {
    uint8_t letter;
    uint8_t count;
    uint32_t n[4];
} request;

static inline bool begins(const uint8_t *s, size_t n, uint8_t letter)
{
    return n > 2 && n <= MOST_LINE && s[0] == letter && s[1] == '\t';
}

// A first line. Without a third number the first ticket is 1.
static request opening_of(const uint8_t *s, size_t n)
{
    request q = {'P', 2, {0, 0, 1, 0}};
    if (!begins(s, n, 'P'))
        return (request){0, 0, {0}};
    if (read_numbers(s + 2, s + n, q.n, 2))
        return q;
    q.count = 3;
    return read_numbers(s + 2, s + n, q.n, 3) ? q : (request){0, 0, {0}};
}

// A line after P.
static ALWAYS_INLINE request request_of(const uint8_t *s, size_t n)
{
    request q = {0, 0, {0}};
    if ((begins(s, n, 'A') && read_numbers(s + 2, s + n, q.n, 1)) ||
        (begins(s, n, 'R') && read_numbers(s + 2, s + n, q.n, 3)) ||
        (begins(s, n, 'T') && read_numbers(s + 2, s + n, q.n, 4)))
        q.letter = s[0];
    return q;
}

// ---- writing

// An answer line's letter and numbers.
typedef struct {
    uint8_t letter;
    uint8_t count;
    uint32_t n[3];
} reply;

static inline reply refusal(uint32_t number)
{
    return (reply){'N', 1, {number, 0, 0}};
}

static inline reply reply_of(lf_answer a)
{
    return a.number == DONE ? (reply){'K', 3, {a.ticket, a.address, a.words}} : refusal(a.number);
}

static inline size_t digits_of(uint32_t n)
{
    size_t digits = 1;
    for (uint64_t ten = 10; n >= ten; ten *= 10)
        digits++;
    return digits;
}

static size_t reply_bytes(reply r)
{
    size_t bytes = 2;
    for (size_t i = 0; i < r.count; i++)
        bytes += 1 + digits_of(r.n[i]);
    return bytes;
}

// Two digits at a time from the last on; the place after them.
static inline uint8_t *put_number(uint8_t *out, uint32_t n)
{
    uint8_t *end = out + digits_of(n), *at = end;
    for (; n >= 100; n /= 100) {
        *--at = (uint8_t)('0' + n % 10);
        *--at = (uint8_t)('0' + n / 10 % 10);
    }
    *--at = (uint8_t)('0' + n % 10);
    if (n >= 10)
        *--at = (uint8_t)('0' + n / 10);
    return end;
}

// How many bytes the line takes.
static ALWAYS_INLINE size_t put_reply(uint8_t *out, reply r)
{
    uint8_t *at = out;
    *at++ = r.letter;
    for (size_t i = 0; i < r.count; i++) {
        *at++ = '\t';
        at = put_number(at, r.n[i]);
    }
    *at++ = '\n';
    return (size_t)(at - out);
}
