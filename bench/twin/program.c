// The text program's twin: it reads 64 KB, serves them, writes the answers, and reads again. The pool is its own, so
// nothing is checked and nothing copied.
#include "twin.c"

#include <unistd.h>

enum { CHUNK = 65536 };

static bool write_all(const uint8_t *s, size_t n)
{
    for (ssize_t wrote; n > 0; s += wrote, n -= (size_t)wrote)
        if ((wrote = write(STDOUT_FILENO, s, n)) <= 0)
            return false;
    return true;
}

// All that was read, in as many turns as the answers need.
static bool answer_all(session *s, const uint8_t *bytes, size_t n)
{
    static uint8_t out[CHUNK];
    lf_burst done = {MORE_ROOM, 0, 0};
    for (size_t from = 0; done.number == MORE_ROOM; from += done.taken) {
        done = serve_burst(s, bytes + from, n - from, out, sizeof out);
        if (!write_all(out, done.written))
            return false;
    }
    return true;
}

int main(void)
{
    static session s;
    static uint8_t chunk[CHUNK];
    ssize_t got;
    TWIN(session_start)((uint8_t *)&s, sizeof s);
    while (s.stage != STOPPED && (got = read(STDIN_FILENO, chunk, sizeof chunk)) > 0)
        if (!answer_all(&s, chunk, (size_t)got))
            return 1;
    lf_burst last = serve_end(&s, chunk, sizeof chunk);
    return write_all(chunk, last.written) ? 0 : 1;
}
