/* The text program behind a radio: requests come in bursts that break anywhere, and answers go out through a small
 * buffer. What has no room there is handed over again once the buffer was sent. Then the line that was left unfinished
 * when the radio fell silent, and a stray write into the session's memory. */
#include "lingfurrow.h"

#include <inttypes.h>
#include <stdio.h>
#include <string.h>

/* At least LF_ANSWER_BYTES, or an answer could have no room even when all was sent. */
#define OUT_BYTES 40u

static uint8_t state[LF_STATE_BYTES];

static uint8_t out[OUT_BYTES]; /* answers that wait to be sent */
static size_t waiting;

/* What the radio delivers. One release comes in twice, the second time when a new run lies at its address. */
static const char *const bursts[] = {
    "P\t24\t4\nA\t",
    "5\nA\t4\nA",
    "\t6\nR\t1\t0\t5\nA\t5\nR\t1\t0",
    "",
    "\t5\nA\t20\nT\t3\t10\t6\t2\nturn left\nR\t4\t0\t5\n",
    "R\t2\t6\t4",
};

/* Tabs as spaces, line feeds as slashes. */
static void show(const char *what, const uint8_t *bytes, size_t len)
{
    printf("%s \"", what);
    for (size_t i = 0; i < len; i++) {
        putchar(bytes[i] == '\t' ? ' ' : bytes[i] == '\n' ? '/' : bytes[i]);
    }
    printf("\"\n");
}

static void send_waiting(void)
{
    show("  sent:", out, waiting);
    waiting = 0;
}

/* Keeps the answers of a call; sends them, with those before, if the next one has no room. */
static void keep(const char *call, lf_burst done)
{
    printf("  %s: number %" PRIu32 ", taken %zu, written %zu\n", call, done.number, done.taken, done.written);
    waiting += done.written;
    if (done.number == LF_MORE_ROOM) {
        send_waiting();
    }
}

/* Hands a burst over until all of it is taken. */
static uint32_t deliver(const char *burst)
{
    const uint8_t *bytes = (const uint8_t *)burst;
    size_t left = strlen(burst);
    lf_burst done;
    show("comes in:", bytes, left);
    do {
        done = lf_session_burst(state, LF_STATE_BYTES, bytes, left, out + waiting, OUT_BYTES - waiting);
        keep("burst", done);
        bytes += done.taken;
        left -= done.taken;
    } while (done.number == LF_MORE_ROOM);
    return done.number;
}

/* Nothing more comes: what there is of a last line is served. */
static uint32_t fall_silent(void)
{
    lf_burst done;
    printf("the radio falls silent\n");
    do {
        done = lf_session_end(state, LF_STATE_BYTES, out + waiting, OUT_BYTES - waiting);
        keep("end", done);
    } while (done.number == LF_MORE_ROOM);
    send_waiting();
    return done.number;
}

static uint32_t start(void)
{
    uint32_t number = lf_session_start(state, LF_STATE_BYTES);
    printf("start: number %" PRIu32 "\n", number);
    return number;
}

/* The state is no session's any more, and all is refused until a start call. The new pool's tickets begin above those
 * that were given out, so that no earlier release fits. */
static uint32_t stray_write(void)
{
    state[LF_STATE_BYTES - 1] ^= 1;
    printf("a stray write\n");
    deliver("A\t2\n");
    uint32_t number = start();
    if (number == LF_OK) {
        number = deliver("P\t24\t4\t5\nA\t5\nR\t1\t0\t5\n");
    }
    return number == LF_OK ? fall_silent() : number;
}

int main(void)
{
    uint32_t number = start();
    for (size_t i = 0; number == LF_OK && i < sizeof bursts / sizeof bursts[0]; i++) {
        number = deliver(bursts[i]);
    }
    if (number == LF_OK) {
        number = fall_silent();
    }
    if (number == LF_OK) {
        number = stray_write();
    }
    return number != LF_OK;
}
