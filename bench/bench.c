// The benchmark: every row of the table, the curves of growth, pools out of the ordinary, and the picture.
#include <stdlib.h>
#include <string.h>

#include "bursts.h"
#include "quiet.h"
#include "report.h"

static measured rows[ROWS_MOST];
static size_t row_count;
static odd_rows odd;
static burst_rows bursts;
static growth by_words = {.along = "words", .at = "16 slots, 16 segments"};
static growth by_records = {.along = "slots", .at = "16,384 words, 64 segments"};

// Rows whose name has this in it are measured; NULL: all, and growth.
static const char *only;

// ---- what is to be measured

typedef struct {
    size_t words, records;
    uint32_t segments;
} lengths;

enum { SIZES_MOST = 6 };

// Of no words: there are no more.
static const lengths sizes[ENGINES][SIZES_MOST] = {
    [TREE] = {{24, 4, 0}, {1024, 16, 0}, {16384, 16, 0}, {16384, 256, 0}},
    [TREE_2] = {{65536, 16, 0}, {65536, 256, 0}, {1048576, 16, 0}, {1048576, 256, 0}},
    [SEGMENT] = {{24, 4, 4}, {1024, 16, 16}, {16384, 16, 64}, {16384, 256, 256}},
};

// Of pools out of the ordinary. The tree pool's check has a map of another kind for up to 32 records in many words.
static const lengths odd_sizes[ENGINES][SIZES_MOST] = {
    [TREE] = {{24, 4, 0}, {1024, 16, 0}, {16384, 16, 0}, {16384, 32, 0}, {16384, 256, 0}},
    [TREE_2] = {{65536, 256, 0}, {1048576, 32, 0}, {1048576, 256, 0}},
    [SEGMENT] = {{24, 4, 4}, {1024, 16, 16}, {16384, 16, 64}, {16384, 32, 64}, {16384, 256, 256}},
};

// Of sessions.
static const lengths burst_sizes[] = {{24, 4, 0}, {1024, 16, 0}, {TEXT_WORDS, 16, 0}, {TEXT_WORDS, 256, 0}};

static bool is_wanted(const measured *m)
{
    char name[128];
    snprintf(name, sizeof name, "%s%s %s %zu/%zu %s", m->odd != NULL ? "odd " : "", engine_name(m->engine),
             call_name(m->call), m->words, m->records, pool_name(m));
    return only == NULL || strstr(name, only) != NULL;
}

static void plan_row(measured m)
{
    if (is_wanted(&m))
        rows[row_count++] = m;
}

// All rows of one engine. On a crowded pool there is only find to do; format takes any state. Form 3 has form 1's
// cells, so one row is enough, of calls that check, grant and release.
static void plan_engine(enum engine g)
{
    if (g == TREE_3)
        plan_row((measured){.engine = g, .call = PAIR, .words = POOL_WORDS, .records = 256, .state = FRAGMENTED});
    for (int c = FIND; c <= FORMAT; c++)
        for (const lengths *l = sizes[g]; l < sizes[g] + SIZES_MOST && l->words != 0; l++)
            for (int s = EMPTY; s <= (c == FORMAT ? EMPTY : c == FIND ? CROWDED : FRAGMENTED); s++)
                plan_row((measured){.engine = g,
                                    .call = (enum call)c,
                                    .words = l->words,
                                    .records = l->records,
                                    .segments = l->segments,
                                    .state = (enum state)s});
}

// Bursts are served by a tree pool in form 1. On a crowded pool no request would be granted.
static void plan_bursts(void)
{
    for (int c = LINE; c <= BURST; c++)
        for (const lengths *l = burst_sizes; l < burst_sizes + sizeof burst_sizes / sizeof burst_sizes[0]; l++)
            for (int s = EMPTY; s <= FRAGMENTED; s++) {
                measured m = {.engine = TREE,
                              .call = (enum call)c,
                              .words = l->words,
                              .records = l->records,
                              .state = (enum state)s};
                if (is_wanted(&m))
                    bursts.rows[bursts.count++] = m;
            }
}

// A pool out of the ordinary, and beside it all the usual ones of its lengths.
static void plan_odd(enum engine g, lengths l, const oddity *o)
{
    measured m = {
        .engine = g, .words = l.words, .records = l.records, .segments = l.segments, .call = FIND, .odd = o};
    if (!is_wanted(&m))
        return;
    odd.rows[odd.count++] = m;
    m.odd = NULL;
    for (size_t i = 0; i < odd.usual_count; i++)
        if (is_like(&odd.usual[i], &m))
            return;
    for (int s = EMPTY; s <= CROWDED; s++) {
        m.state = (enum state)s;
        odd.usual[odd.usual_count++] = m;
    }
}

static void plan_oddity(enum engine g, const oddity *o)
{
    if (!has_engine(o, g))
        return;
    for (size_t words = 512; o->extent == AS_WORDS_GROW && words <= POOL_WORDS; words *= 2)
        plan_odd(g, (lengths){words, 16, 16}, o);
    for (size_t i = 0; o->extent != AS_WORDS_GROW && i < SIZES_MOST && odd_sizes[g][i].words != 0; i++) {
        lengths l = odd_sizes[g][i];
        if ((o->extent != AT_MOST_WORDS || l.words >= POOL_WORDS) &&
            (o->extent != AT_MOST_RECORDS || l.records == POOL_RECORDS))
            plan_odd(g, l, o);
    }
}

static void plan_point(growth *g, enum engine e, size_t x, lengths l)
{
    curve *c = &g->curves[e];
    c->points[c->count] = (measured){.engine = e,
                                     .call = FIND,
                                     .words = l.words,
                                     .records = l.records,
                                     .segments = e == SEGMENT ? l.segments : 0,
                                     .state = CROWDED};
    c->x[c->count++] = x;
}

// Form 2 grows on to its own most words; by records it is measured at the words of the others.
static void plan_growth(enum engine e)
{
    for (size_t words = 64; words <= (e == TREE_2 ? LARGE_WORDS : POOL_WORDS); words *= 2)
        plan_point(&by_words, e, words, (lengths){words, 16, 16});
    for (size_t records = 1; records <= POOL_RECORDS; records *= 2)
        plan_point(&by_records, e, records, (lengths){POOL_WORDS, records, 64});
}

// ---- measuring

static void must_agree(pool *p)
{
    for (size_t k = 0; k < contestant_count; k++)
        if (!agrees(&contestants[k], p) || !bursts_agree(&contestants[k], p)) {
            fprintf(stderr, "bench: %s answers otherwise on a %s pool of %zu words, %s\n", contestants[k].name,
                    engine_name(p->engine), p->words, p->name);
            exit(1);
        }
}

static void measure(effort e, measured *m)
{
    static pool p;
    if (m->odd != NULL)
        make_odd(&p, m->engine, m->words, m->records, m->segments, m->odd);
    else
        make_pool(&p, m->engine, m->words, m->records, m->segments, m->state);
    if (m->call == LIST || m->call == BURST)
        make_lists(&p);
    if (m->call == MIX)
        make_mix(&p);
    if (m->call == LINE || m->call == TIGHT_LINE)
        make_line_bursts(&p, m->call == TIGHT_LINE);
    if (m->call == BURST)
        make_list_bursts(&p, BURST_LINES);
    must_agree(&p);
    time_pass(&m->t, e, &p, contest_of(m->call, &p));
}

static void each_point(growth *g, effort e, void (*act)(effort, measured *))
{
    for (curve *c = g->curves; c < g->curves + ENGINES; c++)
        for (size_t i = 0; i < c->count; i++)
            act(e, &c->points[i]);
}

static void each(effort e, void (*act)(effort, measured *))
{
    for (size_t i = 0; i < row_count; i++)
        act(e, &rows[i]);
    each_point(&by_words, e, act);
    each_point(&by_records, e, act);
    for (size_t i = 0; i < bursts.count; i++)
        act(e, &bursts.rows[i]);
    for (size_t i = 0; i < odd.usual_count; i++)
        act(e, &odd.usual[i]);
    for (size_t i = 0; i < odd.count; i++)
        act(e, &odd.rows[i]);
}

static void finish(effort e, measured *m)
{
    (void)e;
    sum_up(&m->t);
}

static const char *word_after(int argc, char **argv, const char *option)
{
    for (int i = 1; i + 1 < argc; i++)
        if (strcmp(argv[i], option) == 0)
            return argv[i + 1];
    return NULL;
}

static double number_after(int argc, char **argv, const char *option, double otherwise)
{
    const char *word = word_after(argc, argv, option);
    return word == NULL ? otherwise : atof(word);
}

static int draw_into(const char *path)
{
    FILE *picture = fopen(path, "w");
    if (picture == NULL) {
        perror(path);
        return 1;
    }
    draw(picture, rows, row_count, &by_words, &by_records);
    return fclose(picture) == 0 ? 0 : 1;
}

static int report(effort e, const char *path)
{
    print_conditions(stdout, e);
    if (row_count > 0)
        print_rows(stdout, rows, row_count);
    if (only == NULL) {
        print_growth(stdout, &by_words);
        print_growth(stdout, &by_records);
    }
    if (bursts.count > 0)
        print_bursts(stdout, &bursts);
    if (odd.count > 0)
        print_odd(stdout, &odd);
    if (only == NULL)
        print_summary(stdout, rows, row_count, &by_words, &by_records);
    if (bursts.count > 0)
        print_burst_summary(stdout, &bursts);
    if (odd.count > 0)
        print_odd_summary(stdout, &odd);
    return only == NULL ? draw_into(path) : 0;
}

int main(int argc, char **argv)
{
    effort e = {(int)number_after(argc, argv, "--passes", 6), (int)number_after(argc, argv, "--rounds", 9),
                1000 * number_after(argc, argv, "--sample", 100), 1e9 * number_after(argc, argv, "--patience", 1200)};
    if (argc < 2 || e.passes < 1 || e.rounds < 1 || e.passes * e.rounds > SAMPLES_MOST || e.sample <= 0 ||
        contestant_count >= ENTRANTS_MOST) {
        fprintf(stderr,
                "usage: bench PICTURE [--passes N] [--rounds N] [--sample MICROSECONDS] [--patience SECONDS]\n"
                "       [--only 'tree find']; at most %d passes times rounds\n",
                SAMPLES_MOST);
        return 2;
    }
    only = word_after(argc, argv, "--only");
    for (int g = 0; g < ENGINES; g++) {
        plan_engine((enum engine)g);
        for (size_t i = 0; i < oddity_count; i++)
            plan_oddity((enum engine)g, &oddities[i]);
        if (only == NULL && g != TREE_3)
            plan_growth((enum engine)g);
    }
    plan_bursts();
    learn_quiet();
    for (int i = 0; i < e.passes; i++)
        each(e, measure);
    each(e, finish);
    return report(e, argv[1]);
}
