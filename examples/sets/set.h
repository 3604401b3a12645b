/* What the programs in C of this folder share: the files of a set, and its events as lines. */
#ifndef SET_H
#define SET_H

#include "huxarte.h"

#include <stdio.h>

enum { MOST_FILES = 16 };

/* The bytes of some files, one behind the other, and which part each file is. */
typedef struct Files {
    uint8_t *bytes;
    size_t length;
    HuxSpan parts[MOST_FILES];
    size_t count;
} Files;

/* Reads files; 0 where one can't be read. What was read is to be freed by drop_files. */
int read_files(Files *files, char **names, size_t count);
void drop_files(Files *files);

/* Prints the line of an event, as `component_tool play` does. */
void print_event(FILE *to, const HuxEvent *event);

/* A core value of 32 bits. */
HuxCore core32(uint32_t number);

/* Prints why a call did nothing, and ends the program, where it is not fine. */
void fine(HuxVerdict verdict, const char *call);

#endif
