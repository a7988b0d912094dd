// A session of the text program in one byte buffer: its lines served on the pool's words, and the calls. The words are
// copied out of the buffer and back, or, with TWIN_IN_PLACE, they are the buffer's own.
#include "twin.h"

// The buffer's layout, which is that of these members in memory.
typedef struct {
    uint32_t stage, kept, words, slots, root, next;
    uint8_t line[LINE_BYTES];
    uint32_t table[RECORD_WORDS * MOST_RECORDS], arena[MOST_TEXT_WORDS];
} session;

_Static_assert(sizeof(session) == LF_STATE_BYTES, "no byte lies between the members");

enum { BEFORE = 1, SERVING = 2, STOPPED = 3 };

static inline lf_tree_head head_of(const session *s)
{
    return (lf_tree_head){s->root, s->next, TEXT_FORM};
}

// ---- a line

// The answer to a first line, which says what becomes of the session too.
static reply opening(request q)
{
    if (q.letter != 'P')
        return refusal(BAD_REQUEST);
    bool suits = q.n[0] <= MOST_TEXT_WORDS && q.n[1] <= MOST_RECORDS;
    if (!suits || !tree_lengths_suit(TEXT_FORM, q.n[0], RECORD_WORDS * q.n[1]))
        return refusal(BAD_LENGTHS);
    return q.n[2] == 0 ? refusal(UNKNOWN_TICKET) : (reply){'P', q.count, {q.n[0], q.n[1], q.n[2]}};
}

static reply open_pool(session *s, request q)
{
    reply r = opening(q);
    s->stage = STOPPED;
    if (r.letter == 'P') {
        lf_tree_head head = formatted(TEXT_FORM, s->arena, q.n[0], s->table, RECORD_WORDS * q.n[1], q.n[2]).head;
        s->stage = SERVING;
        s->words = q.n[0];
        s->slots = q.n[1];
        s->root = head.root;
        s->next = head.next;
    }
    return r;
}

static ALWAYS_INLINE lf_answer act(session *s, request q)
{
    lf_tree_head head = head_of(s);
    row r = {q.n[0], q.n[1], q.n[2], TEXT_PARTY};
    lf_answer answer = refused(BAD_REQUEST);
    if (q.letter == 'A')
        answer = tree_grant(&head, s->arena, s->table, s->slots, TEXT_PARTY, q.n[0]);
    else if (q.letter == 'R')
        answer = tree_vacate(&head, s->arena, s->table, s->slots, r);
    else if (q.letter == 'T')
        answer = tree_cut(&head, s->arena, s->table, s->slots, r, q.n[3]);
    s->root = head.root;
    s->next = head.next;
    return answer;
}

// What a grant would answer, with nothing changed.
static lf_answer grant_foretold(const session *s, uint32_t words)
{
    if (words == 0 || words > MOST_WORDS)
        return refused(BAD_WORDS);
    if (empty_slot(s->table, s->slots) == s->slots)
        return refused(NO_RECORD);
    if (s->next == 0)
        return refused(NO_TICKET);
    uint32_t root = s->root;
    tree t = tree_in(TEXT_FORM, s->arena);
    const void *place = leftmost_fit(t, &root, cells_for(TEXT_FORM, words));
    if (place == NULL)
        return refused(NO_ROOM);
    return (lf_answer){DONE, s->next, (uint32_t)(cell_words(TEXT_FORM) * (link_at(t, place) - 1)), words};
}

// What any line would be answered.
static reply foretold(const session *s, request q)
{
    if (s->stage == BEFORE)
        return opening(q);
    if (q.letter == 0)
        return refusal(BAD_REQUEST);
    if (q.letter == 'A')
        return reply_of(grant_foretold(s, q.n[0]));
    row r = {q.n[0], q.n[1], q.n[2], TEXT_PARTY};
    named at = named_slot(s->table, s->slots, r);
    if (at.number == DONE && q.letter == 'T') {
        at.number = q.n[3] == 0 || q.n[3] > r.words ? BAD_WORDS : DONE;
        r.words = q.n[3];
    }
    return reply_of(at.number == DONE ? succeeded(r) : refused(at.number));
}

static const size_t no_room = SIZE_MAX;

// How many bytes are answered. Only where the longest answer has no room is the line's own looked at first.
static ALWAYS_INLINE size_t serve_line(session *s, const uint8_t *line, size_t n, uint8_t *out, size_t room)
{
    if (s->stage == STOPPED)
        return 0;
    request q = s->stage == BEFORE ? opening_of(line, n) : request_of(line, n);
    if (room < LF_ANSWER_BYTES && reply_bytes(foretold(s, q)) > room)
        return no_room;
    return put_reply(out, s->stage == BEFORE ? open_pool(s, q) : reply_of(act(s, q)));
}

// ---- a burst

// Bytes more of a line of which some are kept; of one over 64 bytes 65 are.
static inline size_t keep_bytes(uint8_t *line, size_t kept, const uint8_t *bytes, size_t n)
{
    size_t add = n < MOST_LINE + 1 - kept ? n : MOST_LINE + 1 - kept;
    memcpy(line + kept, bytes, add);
    return kept + add;
}

static lf_burst serve_burst(session *s, const uint8_t *bytes, size_t n, uint8_t *out, size_t room)
{
    uint8_t joined[LINE_BYTES];
    size_t from = 0, at = 0;
    const uint8_t *end;
    while ((end = memchr(bytes + from, '\n', n - from)) != NULL) {
        const uint8_t *line = bytes + from;
        size_t length = (size_t)(end - line);
        if (s->kept != 0) {
            memcpy(joined, s->line, LINE_BYTES);
            length = keep_bytes(joined, s->kept, line, length);
            line = joined;
        }
        size_t wrote = serve_line(s, line, length, out + at, room - at);
        if (wrote == no_room)
            return (lf_burst){MORE_ROOM, from, at};
        if (s->kept != 0) {
            memset(s->line, 0, LINE_BYTES);
            s->kept = 0;
        }
        at += wrote;
        from = (size_t)(end + 1 - bytes);
    }
    s->kept = (uint32_t)keep_bytes(s->line, s->kept, bytes + from, n - from);
    return (lf_burst){DONE, n, at};
}

// The last line, which has no line feed.
static lf_burst serve_end(session *s, uint8_t *out, size_t room)
{
    size_t wrote = s->kept == 0 ? 0 : serve_line(s, s->line, s->kept, out, room);
    if (wrote == no_room)
        return (lf_burst){MORE_ROOM, 0, 0};
    memset(s->line, 0, LINE_BYTES);
    s->kept = 0;
    return (lf_burst){DONE, 0, wrote};
}

// ---- the buffer

// Whether the six words can be a session's.
static inline bool is_sized(const session *s)
{
    if (s->kept > MOST_LINE + 1)
        return false;
    if (s->stage == SERVING)
        return s->words <= MOST_TEXT_WORDS && s->slots <= MOST_RECORDS;
    return (s->stage == BEFORE || s->stage == STOPPED) && (s->words | s->slots | s->root | s->next) == 0;
}

// A sound pool, all of whose records are the text program's. Empty slots are zeros, so their party is.
static bool is_fitting(const session *s)
{
    uint32_t parties = 0;
    if (s->stage != SERVING)
        return true;
    if (tree_gate(head_of(s), s->arena, s->words, s->table, RECORD_WORDS * s->slots, TEXT_PARTY) != DONE)
        return false;
    for (size_t i = 0; i < s->slots; i++)
        parties |= s->table[RECORD_WORDS * i + 3];
    return (parties & ~TEXT_PARTY) == 0;
}

#if TWIN_IN_PLACE

// The bytes that are not used are not looked at.
static inline session *load(session *copy, uint8_t *state)
{
    session *s = (session *)state;
    (void)copy;
    return is_sized(s) && is_fitting(s) ? s : NULL;
}

static inline void store(const session *s, uint8_t *state)
{
    (void)s;
    (void)state;
}

#else

enum { FRONT = offsetof(session, table), ARENA = offsetof(session, arena) };

// Whether the kept line has no line feed, and all that is not used is 0.
static bool is_clear(const session *s, const uint8_t *state)
{
    size_t used_table = FRONT + RECORD_WORDS * s->slots * sizeof s->table[0];
    size_t used_arena = ARENA + s->words * sizeof s->arena[0];
    return memchr(s->line, '\n', s->kept) == NULL && zero_bytes(s->line + s->kept, LINE_BYTES - s->kept) &&
           zero_bytes(state + used_table, ARENA - used_table) &&
           zero_bytes(state + used_arena, LF_STATE_BYTES - used_arena);
}

// The session that the bytes are, copied; NULL where they are none's.
static inline session *load(session *s, const uint8_t *state)
{
    memcpy(s, state, FRONT);
    if (!is_sized(s) || !is_clear(s, state))
        return NULL;
    memcpy(s->table, state + FRONT, RECORD_WORDS * s->slots * sizeof s->table[0]);
    memcpy(s->arena, state + ARENA, s->words * sizeof s->arena[0]);
    return is_fitting(s) ? s : NULL;
}

// What is not used was 0 before, and no session uses less than before.
static inline void store(const session *s, uint8_t *state)
{
    memcpy(state, s, FRONT);
    memcpy(state + FRONT, s->table, RECORD_WORDS * s->slots * sizeof s->table[0]);
    memcpy(state + ARENA, s->arena, s->words * sizeof s->arena[0]);
}

#endif

// ---- the calls

static inline lf_burst burst_refused(uint32_t number)
{
    return (lf_burst){number, 0, 0};
}

uint32_t TWIN(session_start)(uint8_t *state, size_t state_len)
{
    if (state_len != LF_STATE_BYTES)
        return BAD_LENGTHS;
    memset(state, 0, state_len);
    state[0] = BEFORE;
    return DONE;
}

lf_burst TWIN(session_burst)(uint8_t *restrict state, size_t state_len, const uint8_t *restrict bytes,
                             size_t bytes_len, uint8_t *restrict answers, size_t answers_len)
{
    session copy, *s;
    if (state_len != LF_STATE_BYTES)
        return burst_refused(BAD_LENGTHS);
    if ((s = load(&copy, state)) == NULL)
        return burst_refused(UNSOUND);
    lf_burst done = serve_burst(s, bytes, bytes_len, answers, answers_len);
    store(s, state);
    return done;
}

lf_burst TWIN(session_end)(uint8_t *restrict state, size_t state_len, uint8_t *restrict answers, size_t answers_len)
{
    session copy, *s;
    if (state_len != LF_STATE_BYTES)
        return burst_refused(BAD_LENGTHS);
    if ((s = load(&copy, state)) == NULL)
        return burst_refused(UNSOUND);
    lf_burst done = serve_end(s, answers, answers_len);
    store(s, state);
    return done;
}
