// The tables, in a form that is read as text and as Markdown.
#include "report.h"

#include <string.h>

// A line of a file of the kernel's that begins so, from there to the line's end; "unknown" where there is none.
static void line_of(const char *path, const char *begin, char *out, size_t room)
{
    snprintf(out, room, "unknown");
    FILE *f = fopen(path, "r");
    char line[512];
    while (f != NULL && fgets(line, sizeof line, f) != NULL) {
        if (strncmp(line, begin, strlen(begin)) != 0)
            continue;
        char *from = line + strlen(begin);
        from += strspn(from, " \t:");
        snprintf(out, room, "%.*s", (int)strcspn(from, "\n"), from);
        break;
    }
    if (f != NULL)
        fclose(f);
}

static void print_sampling(FILE *to, effort e)
{
    fprintf(to, "- One run, %d passes of %d rounds in rotated order, samples of %.0f microseconds. ", e.passes,
            e.rounds, e.sample / 1000);
    fputs("Times are nanoseconds: minimum, and median in brackets; ratios are of minima, and in "
          "brackets the median of the rounds' ratios.\n",
          to);
    fprintf(to,
            "- A sample counts if the core was this program's alone before it and behind it, by a loop that fills its "
            "adders; another is taken anew. Disturbed and kept, since %.0f seconds had gone into such: %.1f %%.\n",
            e.patience / 1e9, 100 * disturbed());
}

void print_conditions(FILE *to, effort e)
{
    char processor[128], load[128];
    line_of("/proc/cpuinfo", "model name", processor, sizeof processor);
    line_of("/proc/loadavg", "", load, sizeof load);
    print_sampling(to, e);
    fputs("- Release builds for plain x86-64 on both sides: the archive of rt lib; the twins with -O3. Functions "
          "begin at multiples of 64 bytes in both, since where a loop lies decided up to a fifth.\n"
          "- Buffers were not cleared first: every byte was 0xa5 before format, and holders wrote every word of their "
          "blocks. Caches are warm.\n"
          "- Pools. Half full: half of the slots and words held, from the low end. Fragmented: all slots were filled, "
          "then every other record released. Crowded: then all gaps filled but for a unit, so every slot is live.\n"
          "- Twins. One marks units: a byte for each, all pairs of tickets. One lays tiles, as the proved code does: "
          "first units alone, tickets by residue. Each is the quickest of all compilers and loop shapes; of the tree "
          "pool, of those too that have the code once for each form, and (\"passed\") once for all.\n"
          "- \"tree\" is the tree pool in form 1, \"tree 2\" in form 2, \"tree 3\" in form 3.\n",
          to);
    fprintf(to, "- Processor: %s. Load average when it ended: %.14s.\n\n", processor, load);
}

const char *pool_name(const measured *m)
{
    return m->odd != NULL ? m->odd->name : state_name(m->state);
}

void print_rows(FILE *to, const measured *rows, size_t count)
{
    fprintf(to, "| %-7s | %-18s | %-13s | %-3s | %-10s | %-17s | %-28s | %-13s | %-28s | %-13s | %-28s | %-13s |\n",
            "engine", "call", "words/slots", "S", "pool", "proved", "twin that marks units", "proved / twin",
            "twin that lays tiles", "proved / twin", "limit", "proved/limit");
    fprintf(to, "|---|---|---|---|---|---:|---|---:|---|---:|---|---:|\n");
    for (size_t i = 0; i < count; i++) {
        const measured *m = &rows[i];
        const timed *us = quickest(&m->t, PROVED, PROVED);
        char size[32], segments[16];
        snprintf(size, sizeof size, "%zu / %zu", m->words, m->records);
        snprintf(segments, sizeof segments, "%u", m->segments);
        fprintf(to, "| %-7s | %-18s | %-13s | %-3s | %-10s |", engine_name(m->engine), call_name(m->call), size,
                m->engine == SEGMENT ? segments : "", m->call == FORMAT ? "any" : pool_name(m));
        print_proved(to, us);
        print_against(to, us, quickest(&m->t, MARKS_UNITS, MARKS_UNITS));
        print_against(to, us, quickest(&m->t, LAYS_TILES, LAYS_TILES));
        print_against(to, us, quickest(&m->t, LIMIT, LIMIT));
        fprintf(to, "\n");
    }
    fprintf(to, "\n");
}

void print_growth(FILE *to, const growth *g)
{
    fprintf(to, "Checked find on a crowded pool as %s grow, %s:\n\n", g->along, g->at);
    fprintf(to, "| %-7s | %-7s | %-17s | %-28s | %-13s | %-28s | %-13s | %-28s | %-13s |\n", "engine", g->along,
            "proved", "twin that marks units", "proved / twin", "twin that lays tiles", "proved / twin", "limit",
            "proved/limit");
    fprintf(to, "|---|---:|---:|---|---:|---|---:|---|---:|\n");
    for (int e = 0; e < ENGINES; e++)
        for (size_t i = 0; i < g->curves[e].count; i++) {
            const timings *t = &g->curves[e].points[i].t;
            const timed *us = quickest(t, PROVED, PROVED);
            fprintf(to, "| %-7s | %7zu |", engine_name((enum engine)e), g->curves[e].x[i]);
            print_proved(to, us);
            print_against(to, us, quickest(t, MARKS_UNITS, MARKS_UNITS));
            print_against(to, us, quickest(t, LAYS_TILES, LAYS_TILES));
            print_against(to, us, quickest(t, LIMIT, LIMIT));
            fprintf(to, "\n");
        }
    fprintf(to, "\n");
}

// ---- in short

// How the proved code does against the twins of some groups.
typedef struct {
    size_t rows, above, above_by_round; // above: the proved code takes more than 1.2 times the best twin's time
    double most, most_by_round;         // the largest ratio
} standing;

static void count_in(standing *s, const measured *rows, size_t count, enum group first, enum group last)
{
    for (size_t i = 0; i < count; i++) {
        const timed *twin = quickest(&rows[i].t, first, last);
        if (twin == NULL)
            continue;
        double r = ratio(quickest(&rows[i].t, PROVED, PROVED)->least, twin->least);
        s->rows++;
        s->above += r > 1.2;
        s->most = r > s->most ? r : s->most;
        r = most_by_round(&rows[i].t, first, last);
        s->above_by_round += r > 1.2;
        s->most_by_round = r > s->most_by_round ? r : s->most_by_round;
    }
}

// Over the rows of the table and the points of all curves.
static standing stand(const measured *rows, size_t count, const growth *const curves[2], enum group first,
                      enum group last)
{
    standing s = {0, 0, 0, 0, 0};
    count_in(&s, rows, count, first, last);
    for (int k = 0; k < 2; k++)
        for (const curve *c = curves[k]->curves; c < curves[k]->curves + ENGINES; c++)
            count_in(&s, c->points, c->count, first, last);
    return s;
}

// The largest ratio to memcmp of a checked find on the most words, with so many slots.
static double find_to_memcmp(const measured *rows, size_t count, enum engine e, size_t records)
{
    double most = 0;
    for (size_t i = 0; i < count; i++) {
        const measured *m = &rows[i];
        if (m->engine != e || m->call != FIND || m->words != most_words(e) || m->records != records)
            continue;
        double r = ratio(quickest(&m->t, PROVED, PROVED)->least, quickest(&m->t, LIMIT, LIMIT)->least);
        most = r > most ? r : most;
    }
    return most;
}

void print_summary(FILE *to, const measured *rows, size_t count, const growth *by_words, const growth *by_records)
{
    const growth *const curves[2] = {by_words, by_records};
    standing marks = stand(rows, count, curves, MARKS_UNITS, MARKS_UNITS);
    standing all = stand(rows, count, curves, MARKS_UNITS, LAYS_TILES);
    fprintf(to, "- Rows, growth included, in which the proved code takes more than 1.2 times the best twin");
    fprintf(to, " that marks units: %zu of %zu, at most %.2f times; the best twin of all: %zu, at most %.2f times.\n",
            marks.above, marks.rows, marks.most, all.above, all.most);
    fprintf(to, "- The same by the median of the rounds' ratios, to every twin: %zu, at most %.2f times.\n",
            all.above_by_round, all.most_by_round);
    fprintf(to, "- A checked find on 16,384 words, in form 2 on 1,048,576, takes at most so many times memcmp of the "
                "arena:");
    for (int e = 0; e < ENGINES; e++)
        if (e != TREE_3) // has no such row
            fprintf(to, " %s %.1f with 16 slots, %.1f with 256%s", engine_name((enum engine)e),
                    find_to_memcmp(rows, count, (enum engine)e, 16), find_to_memcmp(rows, count, (enum engine)e, 256),
                    e + 1 < ENGINES ? ";" : ".\n");
}
