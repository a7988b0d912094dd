// What was measured, as a table and as a picture.
#ifndef REPORT_H
#define REPORT_H

#include <stdio.h>

#include "damage.h"
#include "tasks.h"

// A row of the table: a call on a pool.
typedef struct {
    enum engine engine;
    enum call call;
    size_t words, records;
    uint32_t segments;
    enum state state;
    const oddity *odd; // or NULL: a pool in that state
    timings t;
} measured;

enum { ROWS_MOST = 256, POINTS_MOST = 16, ODD_MOST = 160, USUAL_MOST = 128, BURST_ROWS_MOST = 48 };

// Checked finds on crowded pools of an engine.
typedef struct {
    size_t count;
    size_t x[POINTS_MOST];
    measured points[POINTS_MOST];
} curve;

typedef struct {
    const char *along, *at; // what grows, and what stays
    curve curves[ENGINES];
} growth;

// Finds on pools out of the ordinary, and on the usual ones of the same lengths, which they are held to.
typedef struct {
    size_t count, usual_count;
    measured rows[ODD_MOST], usual[USUAL_MOST];
} odd_rows;

// Bursts to a session.
typedef struct {
    size_t count;
    measured rows[BURST_ROWS_MOST];
} burst_rows;

const char *pool_name(const measured *m);

// Whether both have pools of the same engine and lengths.
bool is_like(const measured *a, const measured *b);

void print_conditions(FILE *to, effort e);
void print_rows(FILE *to, const measured *rows, size_t count);
void print_growth(FILE *to, const growth *g);
void print_summary(FILE *to, const measured *rows, size_t count, const growth *by_words, const growth *by_records);
void print_odd(FILE *to, const odd_rows *odd);
void print_odd_summary(FILE *to, const odd_rows *odd);
void print_bursts(FILE *to, const burst_rows *bursts);
void print_burst_summary(FILE *to, const burst_rows *bursts);
void draw(FILE *to, const measured *rows, size_t count, const growth *by_words, const growth *by_records);

#endif
