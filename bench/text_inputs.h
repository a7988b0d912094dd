// Inputs of the text program, of any number of lines.
#ifndef TEXT_INPUTS_H
#define TEXT_INPUTS_H

#include <stddef.h>
#include <stdio.h>

enum input {
    PAIRS, // a request and its release in turn
    LIVE,  // about 200 records live: requests of random lengths, releases and trims by lot
    BAD,   // seven bad lines of eight
    INPUTS,
};

const char *input_name(enum input i);

void write_input(FILE *to, enum input i, size_t lines);

#endif
