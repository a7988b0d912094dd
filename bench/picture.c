// The picture: curves of growth, and the ratio of every row, as SVG.
#include <math.h>

#include "report.h"

static const char *const colour[ENGINES] = {
    [TREE] = "#1f6fb2", [TREE_2] = "#2a8c4a", [TREE_3] = "#8a5cb0", [SEGMENT] = "#c4512d"};
static const char *const grey = "#777777";

enum { WIDTH = 860, PLOT_WIDTH = 340, PLOT_HEIGHT = 230, PLOT_TOP = 48, STRIPS_TOP = 420, STRIP = 24 };

// A plot with logarithmic axes.
typedef struct {
    double left, top, width, height;
    double x_from, x_to, y_from, y_to;
} axes;

static double place_x(const axes *a, double x)
{
    return a->left + a->width * log(x / a->x_from) / log(a->x_to / a->x_from);
}

static double place_y(const axes *a, double y)
{
    return a->top + a->height * (1 - log(y / a->y_from) / log(a->y_to / a->y_from));
}

static void text(FILE *to, double x, double y, const char *anchor, const char *words)
{
    fprintf(to, "<text x=\"%.1f\" y=\"%.1f\" text-anchor=\"%s\">%s</text>\n", x, y, anchor, words);
}

static void line(FILE *to, double x1, double y1, double x2, double y2, const char *stroke, const char *more)
{
    fprintf(to, "<line x1=\"%.1f\" y1=\"%.1f\" x2=\"%.1f\" y2=\"%.1f\" stroke=\"%s\" %s/>\n", x1, y1, x2, y2, stroke,
            more);
}

// ---- growth

static double least_of(const timings *t, enum group first, enum group last)
{
    const timed *best = quickest(t, first, last);
    return best == NULL ? 0 : best->least;
}

static void draw_curve(FILE *to, const axes *a, const curve *c, enum group first, enum group last, const char *stroke,
                       const char *dashes)
{
    fprintf(to, "<polyline fill=\"none\" stroke=\"%s\" stroke-width=\"2\" stroke-dasharray=\"%s\" points=\"", stroke,
            dashes);
    for (size_t i = 0; i < c->count; i++)
        fprintf(to, "%.1f,%.1f ", place_x(a, (double)c->x[i]), place_y(a, least_of(&c->points[i].t, first, last)));
    fprintf(to, "\"/>\n");
}

static void time_axis(FILE *to, const axes *a)
{
    static const struct {
        double at;
        const char *name;
    } ticks[] = {{10, "10 ns"},    {100, "100 ns"},    {1000, "1 µs"},
                 {10000, "10 µs"}, {100000, "100 µs"}, {1000000, "1 ms"}};
    for (size_t i = 0; i < sizeof ticks / sizeof ticks[0]; i++) {
        double y = place_y(a, ticks[i].at);
        line(to, a->left, y, a->left + a->width, y, "#dddddd", "");
        text(to, a->left - 6, y + 4, "end", ticks[i].name);
    }
}

static void grouped(char *out, size_t room, size_t n)
{
    if (n >= 1000000)
        snprintf(out, room, "%zu,%03zu,%03zu", n / 1000000, n / 1000 % 1000, n % 1000);
    else if (n >= 1000)
        snprintf(out, room, "%zu,%03zu", n / 1000, n % 1000);
    else
        snprintf(out, room, "%zu", n);
}

// The one that goes furthest.
static const curve *longest(const growth *g)
{
    const curve *most = g->curves;
    for (const curve *c = g->curves; c < g->curves + ENGINES; c++)
        if (c->count > most->count)
            most = c;
    return most;
}

static void growth_plot(FILE *to, const growth *g, double left)
{
    const curve *whole = longest(g);
    axes a = {left, PLOT_TOP, PLOT_WIDTH, PLOT_HEIGHT, (double)whole->x[0], (double)whole->x[whole->count - 1],
              5,    1000000};
    char label[128];
    snprintf(label, sizeof label, "Checked find as %s grow (%s)", g->along, g->at);
    text(to, left, PLOT_TOP - 12, "start", label);
    time_axis(to, &a);
    for (size_t i = 0; i < whole->count; i += whole->count > 10 ? 4 : 2) {
        double x = place_x(&a, (double)whole->x[i]);
        line(to, x, a.top, x, a.top + a.height, "#eeeeee", "");
        grouped(label, sizeof label, whole->x[i]);
        text(to, x, a.top + a.height + 16, "middle", label);
    }
    snprintf(label, sizeof label, "%s", g->along);
    text(to, a.left + a.width / 2, a.top + a.height + 32, "middle", label);
    draw_curve(to, &a, whole, LIMIT, LIMIT, grey, "2 3");
    for (int e = 0; e < ENGINES; e++) {
        draw_curve(to, &a, &g->curves[e], MARKS_UNITS, LAYS_TILES, colour[e], "6 4");
        draw_curve(to, &a, &g->curves[e], PROVED, PROVED, colour[e], "none");
    }
    line(to, a.left, a.top + a.height, a.left + a.width, a.top + a.height, "#333333", "");
    line(to, a.left, a.top, a.left, a.top + a.height, "#333333", "");
}

static void legend_entry(FILE *to, double x, double y, const char *stroke, const char *dashes, const char *name)
{
    char more[64];
    snprintf(more, sizeof more, "stroke-width=\"2\" stroke-dasharray=\"%s\"", dashes);
    line(to, x, y - 4, x + 26, y - 4, stroke, more);
    text(to, x + 32, y, "start", name);
}

// A column for each engine that has a curve, and one for the limit.
static void legend(FILE *to, const growth *g, double y)
{
    char name[64];
    double x = 40;
    for (int e = 0; e < ENGINES; e++) {
        if (g->curves[e].count == 0)
            continue;
        snprintf(name, sizeof name, "%s, proved", engine_name((enum engine)e));
        legend_entry(to, x, y, colour[e], "none", name);
        snprintf(name, sizeof name, "%s, best C twin", engine_name((enum engine)e));
        legend_entry(to, x, y + 18, colour[e], "6 4", name);
        x += 190;
    }
    legend_entry(to, x, y, grey, "2 3", "memcmp of the arena");
}

// ---- ratios

static void ratio_axis(FILE *to, const axes *a)
{
    static const double ticks[] = {0.5, 1, 2, 4, 8, 16, 32};
    for (size_t i = 0; i < sizeof ticks / sizeof ticks[0]; i++) {
        char label[16];
        double x = place_x(a, ticks[i]);
        line(to, x, a->top, x, a->top + a->height, ticks[i] == 1 ? "#333333" : "#dddddd", "");
        snprintf(label, sizeof label, "%g", ticks[i]);
        text(to, x, a->top + a->height + 16, "middle", label);
    }
    double x = place_x(a, 1.2);
    line(to, x, a->top, x, a->top + a->height, "#333333", "stroke-dasharray=\"2 3\"");
    text(to, x + 3, a->top - 5, "start", "1.2");
}

static void ratio_dot(FILE *to, const axes *a, double y, const measured *m, enum group g, const char *fill)
{
    double twin = least_of(&m->t, g, g);
    if (twin <= 0)
        return;
    double x = place_x(a, fmin(fmax(least_of(&m->t, PROVED, PROVED) / twin, a->x_from), a->x_to));
    fprintf(to, "<circle cx=\"%.1f\" cy=\"%.1f\" r=\"4\" fill=\"%s\" fill-opacity=\"0.6\" stroke=\"%s\"/>\n", x, y,
            fill, colour[m->engine]);
}

// The strip of a row: those of one engine and call have one, in the order in which they are measured.
static size_t strip_of(const measured *rows, const measured *m)
{
    size_t strips = 0;
    for (const measured *r = rows; r->engine != m->engine || r->call != m->call; r++)
        strips += r[1].engine != r->engine || r[1].call != r->call;
    return strips;
}

static void ratio_plot(FILE *to, const measured *rows, size_t count)
{
    size_t strips = strip_of(rows, &rows[count - 1]) + 1;
    axes a = {190, STRIPS_TOP, 620, (double)(strips * STRIP), 0.5, 40, 0, 0};
    text(to, 70, STRIPS_TOP - 22, "start",
         "Time of the proved code / time of the best C twin, a dot for each pool (full: the one that lays tiles, "
         "as the proved code does; hollow: the one that marks units)");
    ratio_axis(to, &a);
    for (size_t i = 0; i < count; i++) {
        size_t strip = strip_of(rows, &rows[i]);
        double y = a.top + STRIP * ((double)strip + 0.5);
        char label[64];
        snprintf(label, sizeof label, "%s: %s", engine_name(rows[i].engine), call_name(rows[i].call));
        if (i == 0 || strip_of(rows, &rows[i - 1]) != strip)
            text(to, a.left - 8, y + 4, "end", label);
        ratio_dot(to, &a, y, &rows[i], MARKS_UNITS, "none");
        ratio_dot(to, &a, y, &rows[i], LAYS_TILES, colour[rows[i].engine]);
    }
}

void draw(FILE *to, const measured *rows, size_t count, const growth *by_words, const growth *by_records)
{
    size_t height = STRIPS_TOP + (strip_of(rows, &rows[count - 1]) + 1) * STRIP + 48;
    fprintf(to,
            "<svg xmlns=\"http://www.w3.org/2000/svg\" viewBox=\"0 0 %d %zu\" font-family=\"sans-serif\" "
            "font-size=\"12\" fill=\"#222222\">\n<rect width=\"%d\" height=\"%zu\" fill=\"white\"/>\n",
            WIDTH, height, WIDTH, height);
    growth_plot(to, by_words, 70);
    growth_plot(to, by_records, 490);
    legend(to, by_words, 345);
    ratio_plot(to, rows, count);
    fprintf(to, "</svg>\n");
}
