// The table of bursts to a session, by pool size, beside a twin that does the same and one that works in place.
#include "report.h"

static void print_burst_row(FILE *to, const measured *m)
{
    char size[32];
    const timed *us = quickest(&m->t, PROVED, PROVED);
    snprintf(size, sizeof size, "%zu / %zu", m->words, m->records);
    fprintf(to, "| %-23s | %-11s | %-10s |", call_name(m->call), size, pool_name(m));
    print_proved(to, us);
    print_against(to, us, quickest(&m->t, MARKS_UNITS, MARKS_UNITS));
    print_against(to, us, quickest(&m->t, LAYS_TILES, LAYS_TILES));
    print_against(to, us, quickest(&m->t, IN_PLACE, IN_PLACE));
    print_against(to, us, quickest(&m->t, LIMIT, LIMIT));
    fprintf(to, "\n");
}

void print_bursts(FILE *to, const burst_rows *bursts)
{
    fprintf(to,
            "Bursts to a session, whose state is one byte buffer: a request or its release in a burst of its own, "
            "with room for any answer, and with room for just its own; and lists in bursts of 64 lines. The first "
            "two twins do the same work: they compare what is not used with 0, copy what is used out of the buffer, "
            "check the pool, serve, copy back. The third has the words where they lie: it checks and serves alone. "
            "The limit is memcmp of the whole state:\n\n");
    fprintf(to, "| %-23s | %-11s | %-10s | %-17s | %-28s | %-13s | %-28s | %-13s | %-28s | %-13s | %-28s | %-13s |\n",
            "call", "words/slots", "pool", "proved", "twin that marks units", "proved / twin", "twin that lays tiles",
            "proved / twin", "twin in place", "proved / twin", "limit", "proved/limit");
    fprintf(to, "|---|---|---|---:|---|---:|---|---:|---|---:|---|---:|\n");
    for (size_t i = 0; i < bursts->count; i++)
        print_burst_row(to, &bursts->rows[i]);
    fprintf(to, "\n");
}

// ---- in short

static const double bar = 1.3;

// The row of a call with the largest ratio to the quickest of the groups, and how many are above the bar.
typedef struct {
    const measured *row;
    double ratio;
    size_t rows, above;
} worst;

static worst worst_of(const burst_rows *bursts, enum call c, enum group first, enum group last)
{
    worst w = {NULL, 0, 0, 0};
    for (size_t i = 0; i < bursts->count; i++) {
        const measured *m = &bursts->rows[i];
        if (m->call != c)
            continue;
        double r = ratio(quickest(&m->t, PROVED, PROVED)->least, quickest(&m->t, first, last)->least);
        w.rows++;
        w.above += r > bar;
        if (r > w.ratio) {
            w.row = m;
            w.ratio = r;
        }
    }
    return w;
}

// What the twin with a byte buffer takes beside the one in place: the least and the largest ratio of a call's rows.
static void print_price(FILE *to, const burst_rows *bursts, enum call c)
{
    double least = 0, most = 0;
    for (size_t i = 0; i < bursts->count; i++) {
        const timings *t = &bursts->rows[i].t;
        if (bursts->rows[i].call != c)
            continue;
        double r = ratio(quickest(t, MARKS_UNITS, LAYS_TILES)->least, quickest(t, IN_PLACE, IN_PLACE)->least);
        least = least == 0 || r < least ? r : least;
        most = r > most ? r : most;
    }
    fprintf(to, " The price of one byte buffer: that twin takes %.1f to %.1f times the one in place.\n", least, most);
}

void print_burst_summary(FILE *to, const burst_rows *bursts)
{
    for (int c = LINE; c <= BURST; c++) {
        worst same = worst_of(bursts, (enum call)c, MARKS_UNITS, LAYS_TILES);
        worst place = worst_of(bursts, (enum call)c, IN_PLACE, IN_PLACE);
        if (same.row == NULL)
            continue;
        fprintf(to,
                "- %s: more than %.1f times the best twin that does the same in %zu of %zu rows, at most %.2f times",
                call_name((enum call)c), bar, same.above, same.rows, same.ratio);
        fprintf(to, " (%zu words, %zu slots, %s); at most %.2f times the best in place (%zu words, %zu slots, %s).",
                same.row->words, same.row->records, pool_name(same.row), place.ratio, place.row->words,
                place.row->records, pool_name(place.row));
        print_price(to, bursts, (enum call)c);
    }
}
