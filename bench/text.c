// Times of the text program and of its likes on files of many lines, read at will or 64 bytes at a time. Every program
// is started anew for each sample; a sample is the processor time that it took, for itself and in the kernel.
#define _GNU_SOURCE
#include <fcntl.h>
#include <stdlib.h>
#include <string.h>
#include <sys/mman.h>
#include <sys/resource.h>
#include <sys/stat.h>
#include <sys/wait.h>
#include <unistd.h>

#include "samples.h"
#include "text_inputs.h"

enum { PACKET = 64, PATH_MOST = 512 };

typedef struct {
    const char *bytes;
    size_t length;
} text;

static void must(bool done, const char *what)
{
    if (!done) {
        perror(what);
        exit(1);
    }
}

static text map_file(const char *path)
{
    struct stat about;
    int fd = open(path, O_RDONLY);
    must(fd >= 0 && fstat(fd, &about) == 0, path);
    text t = {"", (size_t)about.st_size};
    if (t.length > 0)
        t.bytes = mmap(NULL, t.length, PROT_READ, MAP_PRIVATE, fd, 0);
    must(t.bytes != MAP_FAILED, path);
    close(fd);
    return t;
}

// ---- one run

static pid_t start(const char *program, int input, const char *output)
{
    pid_t child = fork();
    must(child >= 0, "fork");
    if (child > 0)
        return child;
    int out = open(output, O_WRONLY | O_CREAT | O_TRUNC, 0644);
    must(out >= 0 && dup2(input, STDIN_FILENO) >= 0 && dup2(out, STDOUT_FILENO) >= 0, output);
    execl(program, program, (char *)NULL);
    must(false, program);
    return 0;
}

static double milliseconds(struct timeval t)
{
    return 1e3 * (double)t.tv_sec + 1e-3 * (double)t.tv_usec;
}

static double time_until_end(pid_t child, const char *program)
{
    int status;
    struct rusage used;
    must(wait4(child, &status, 0, &used) == child, program);
    if (!WIFEXITED(status) || WEXITSTATUS(status) != 0) {
        fprintf(stderr, "bench: %s did not end well\n", program);
        exit(1);
    }
    return milliseconds(used.ru_utime) + milliseconds(used.ru_stime);
}

static double run_on_file(const char *program, const char *input, const char *output)
{
    int fd = open(input, O_RDONLY | O_CLOEXEC);
    must(fd >= 0, input);
    double took = time_until_end(start(program, fd, output), program);
    close(fd);
    return took;
}

// A pipe of packets: a read gets one write's bytes, though the writer may be ahead.
static double run_on_packets(const char *program, text input, const char *output)
{
    int ends[2];
    must(pipe2(ends, O_DIRECT | O_CLOEXEC) == 0, "pipe");
    pid_t child = start(program, ends[0], output);
    close(ends[0]);
    for (size_t at = 0; at < input.length; at += PACKET) {
        size_t n = input.length - at < PACKET ? input.length - at : PACKET;
        must(write(ends[1], input.bytes + at, n) == (ssize_t)n, program);
    }
    close(ends[1]);
    return time_until_end(child, program);
}

// ---- a row of the table

typedef struct {
    const char *path; // of the input
    text input;
    bool packets;
    timings t;
    const char *programs[ENTRANTS_MOST];
} contest;

static double run(const contest *c, size_t k, const char *output)
{
    return c->packets ? run_on_packets(c->programs[k], c->input, output)
                      : run_on_file(c->programs[k], c->path, output);
}

// The others' answers have to be the proved program's, byte for byte.
static void must_agree(const contest *c, const char *folder)
{
    text ours = {"", 0};
    for (size_t k = 0; k < c->t.count; k++) {
        char path[PATH_MOST];
        snprintf(path, sizeof path, "%s/answers.%zu", folder, k);
        if (c->t.by[k].group == LIMIT)
            continue;
        run(c, k, path);
        text answers = map_file(path);
        ours = k == 0 ? answers : ours;
        if (answers.length != ours.length || memcmp(answers.bytes, ours.bytes, ours.length) != 0) {
            fprintf(stderr, "bench: %s answers otherwise on %s\n", c->t.by[k].name, c->path);
            exit(1);
        }
    }
}

static void measure(contest *c, size_t rounds)
{
    for (c->t.taken = 0; c->t.taken < rounds; c->t.taken++)
        for (size_t i = 0; i < c->t.count; i++) {
            size_t k = (i + c->t.taken) % c->t.count;
            c->t.by[k].samples[c->t.taken] = run(c, k, "/dev/null");
        }
    sum_up(&c->t);
}

static void print_row(const contest *c, enum input i, size_t lines)
{
    const timed *us = quickest(&c->t, PROVED, PROVED);
    printf("| %-34s | %-8s |", input_name(i), c->packets ? "64 bytes" : "64 KB");
    print_proved(stdout, us);
    printf(" %6.2f |", (double)lines / us->least / 1e3);
    print_against(stdout, us, quickest(&c->t, IN_PLACE, IN_PLACE));
    print_against(stdout, us, quickest(&c->t, EARLIER, EARLIER));
    print_against(stdout, us, quickest(&c->t, LIMIT, LIMIT));
    printf("\n");
    fflush(stdout);
}

static void print_head(size_t lines, size_t rounds)
{
    printf(
        "The text program on files of %zu lines, to /dev/null. Milliseconds of processor time, the kernel's "
        "included: "
        "minimum, and median in brackets, of %zu runs of each program in rotated order; ratios are of minima, and in "
        "brackets the median of the rounds' ratios. Reads of 64 bytes: a pipe hands over so many at a time. The twin "
        "is an unverified C program that reads 64 KB, serves and writes, with no check and no byte buffer:\n\n",
        lines, rounds);
    printf("| %-34s | %-8s | %-17s | %-6s | %-28s | %-13s | %-28s | %-13s | %-28s | %-13s |\n", "input", "reads",
           "proved", "Mlines/s", "twin", "proved / twin", "before", "now / before", "limit", "proved/limit");
    printf("|---|---|---:|---:|---|---:|---|---:|---|---:|\n");
}

static void make_file(const char *path, enum input i, size_t lines)
{
    FILE *to = fopen(path, "w");
    must(to != NULL, path);
    write_input(to, i, lines);
    must(fclose(to) == 0, path);
}

// A program by its word of the command line, GROUP=NAME=PATH, where GROUP is one of the four letters.
static void add_program(contest *c, char *word)
{
    static const char letters[] = "PTEL";
    static const enum group groups[] = {PROVED, IN_PLACE, EARLIER, LIMIT};
    const char *letter = strchr(letters, word[0]);
    char *name = word + 2, *path = strchr(name, '=');
    if (word[0] == '\0' || letter == NULL || word[1] != '=' || path == NULL || c->t.count == ENTRANTS_MOST) {
        fprintf(stderr, "usage: text FOLDER LINES ROUNDS P=NAME=PROGRAM [T=NAME=PROGRAM | E=.. | L=..]...\n");
        exit(2);
    }
    *path++ = '\0';
    c->programs[c->t.count] = path;
    add_entrant(&c->t, NULL, name, groups[letter - letters]);
}

int main(int argc, char **argv)
{
    static contest c;
    size_t lines = argc > 4 ? strtoul(argv[2], NULL, 10) : 0, rounds = argc > 4 ? strtoul(argv[3], NULL, 10) : 0;
    for (int i = 4; i < argc; i++)
        add_program(&c, argv[i]);
    if (lines == 0 || rounds == 0 || rounds > SAMPLES_MOST || c.t.by[0].group != PROVED) {
        fprintf(stderr, "bench: a folder, lines, at most %d rounds, and the proved program first\n", SAMPLES_MOST);
        return 2;
    }
    print_head(lines, rounds);
    for (int i = 0; i < 2 * INPUTS; i++) {
        char path[PATH_MOST];
        snprintf(path, sizeof path, "%s/input.%d", argv[1], i / 2);
        make_file(path, (enum input)(i / 2), lines);
        c.path = path;
        c.input = map_file(path);
        c.packets = i % 2 == 1;
        must_agree(&c, argv[1]);
        measure(&c, rounds);
        print_row(&c, (enum input)(i / 2), lines);
    }
    return 0;
}
