// The table of pools out of the ordinary, damaged ones first of all, held to sound pools of the same lengths.
#include "report.h"

bool is_like(const measured *a, const measured *b)
{
    return a->engine == b->engine && a->words == b->words && a->records == b->records && a->segments == b->segments;
}

static double time_of(const measured *m)
{
    return quickest(&m->t, PROVED, PROVED)->least;
}

static const measured *slower(const measured *a, const measured *b)
{
    return a == NULL || time_of(b) > time_of(a) ? b : a;
}

// The slowest find of the proved library on a usual pool of these lengths.
static const measured *slowest_usual(const odd_rows *odd, const measured *m)
{
    const measured *most = NULL;
    for (size_t i = 0; i < odd->usual_count; i++)
        if (is_like(&odd->usual[i], m))
            most = slower(most, &odd->usual[i]);
    return most;
}

// The same on any sound pool that was measured.
static const measured *slowest_sound(const odd_rows *odd, const measured *m)
{
    const measured *most = slowest_usual(odd, m);
    for (size_t i = 0; i < odd->count; i++)
        if (odd->rows[i].odd->sound && is_like(&odd->rows[i], m))
            most = slower(most, &odd->rows[i]);
    return most;
}

static void print_held_to(FILE *to, const measured *m, const measured *other)
{
    char cell[64];
    snprintf(cell, sizeof cell, "%.0f %s", time_of(other), pool_name(other));
    fprintf(to, " %-36s | %6.2f |", cell, ratio(time_of(m), time_of(other)));
}

static void print_odd_row(FILE *to, const odd_rows *odd, const measured *m)
{
    char size[32], segments[16];
    snprintf(size, sizeof size, "%zu / %zu", m->words, m->records);
    snprintf(segments, sizeof segments, "%u", m->segments);
    fprintf(to, "| %-7s | %-13s | %-3s | %-31s | %-7s |", engine_name(m->engine), size,
            m->engine == SEGMENT ? segments : "", pool_name(m), m->odd->sound ? "sound" : "damaged");
    const timed *us = quickest(&m->t, PROVED, PROVED);
    print_proved(to, us);
    print_held_to(to, m, slowest_usual(odd, m));
    print_held_to(to, m, slowest_sound(odd, m));
    print_against(to, us, quickest(&m->t, MARKS_UNITS, MARKS_UNITS));
    print_against(to, us, quickest(&m->t, LAYS_TILES, LAYS_TILES));
    fprintf(to, "\n");
}

void print_odd(FILE *to, const odd_rows *odd)
{
    fprintf(to,
            "Checked find on damaged memory, which it answers with 1, and on sound pools out of the ordinary; beside "
            "it the slowest find of the same lengths on one of the four usual pools, and on any sound one:\n\n");
    fprintf(to,
            "| %-7s | %-13s | %-3s | %-31s | %-7s | %-17s | %-36s | %-6s | %-36s | %-6s | %-28s | %-13s | %-28s | "
            "%-13s |\n",
            "engine", "words/slots", "S", "pool", "memory", "proved", "slowest usual find", "ratio",
            "slowest sound find", "ratio", "twin that marks units", "proved / twin", "twin that lays tiles",
            "proved / twin");
    fprintf(to, "|---|---|---|---|---|---:|---|---:|---|---:|---|---:|---|---:|\n");
    for (size_t i = 0; i < odd->count; i++)
        print_odd_row(to, odd, &odd->rows[i]);
    fprintf(to, "\n");
}

// ---- in short

typedef const measured *(*reference)(const odd_rows *, const measured *);

// The rows of sound pools, or of damaged ones, against what they are held to: how many take more than twice as long,
// and which takes longest.
static void print_standing(FILE *to, const odd_rows *odd, bool sound, reference slowest, const char *held_to)
{
    size_t count = 0, above = 0;
    const measured *worst = NULL;
    double most = 0;
    for (size_t i = 0; i < odd->count; i++) {
        const measured *m = &odd->rows[i];
        if (m->odd->sound != sound)
            continue;
        double r = ratio(time_of(m), time_of(slowest(odd, m)));
        count++;
        above += r > 2;
        worst = r > most ? m : worst;
        most = r > most ? r : most;
    }
    if (worst != NULL)
        fprintf(
            to,
            "- %s, against the slowest find on %s of the same lengths: more than 2 times in %zu of %zu rows, at most "
            "%.2f times (%s, %zu words, %zu slots, %s).\n",
            sound ? "Sound pools out of the ordinary" : "Damaged memory", held_to, above, count, most,
            engine_name(worst->engine), worst->words, worst->records, pool_name(worst));
}

// How the time grows with the words, on the rows that are measured so.
static void print_odd_growth(FILE *to, const odd_rows *odd)
{
    const measured *first = NULL, *last = NULL;
    for (size_t i = 0; i < odd->count; i++)
        if (odd->rows[i].odd->extent == AS_WORDS_GROW) {
            first = first == NULL ? &odd->rows[i] : first;
            last = &odd->rows[i];
        }
    if (first != NULL)
        fprintf(to, "- The %s takes %.0f nanoseconds on %zu words and %.0f on %zu.\n", pool_name(first),
                time_of(first), first->words, time_of(last), last->words);
}

void print_odd_summary(FILE *to, const odd_rows *odd)
{
    print_standing(to, odd, false, slowest_usual, "a usual pool");
    print_standing(to, odd, false, slowest_sound, "any sound pool");
    print_standing(to, odd, true, slowest_usual, "a usual pool");
    print_odd_growth(to, odd);
}
