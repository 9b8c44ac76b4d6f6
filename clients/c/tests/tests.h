/* What the tests of paged.c share. */
#ifndef TESTS_H
#define TESTS_H

#include "../paged.h"

#include <stdio.h>

/* The program under test, this program itself (which plays a program of recorded answers), and the folder. */
extern const char *pagedd, *self, *room;

/* Ends the test with what isn't so. */
void fail_at(const char *file, int line, const char *what);
#define SO(holds) ((holds) ? (void)0 : fail_at(__FILE__, __LINE__, #holds))
/* Like SO, and says why a call failed. */
void expect(enum paged_error found, enum paged_error wanted, const struct paged_failure *failure, const char *file,
            int line, const char *what);
#define IS(wanted, call, failure) expect(call, wanted, failure, __FILE__, __LINE__, #call)
/* Prints the line of a test that passed. */
void passed(const char *what);
/* A path in the folder, one of the last eight; and its file, written or read. */
const char *path_of(const char *name);
void write_file(const char *path, const void *data, size_t len);
unsigned char *read_file(const char *path, size_t *len);

/* Plays a recorded program: what a program of which this one is the file's script does. */
int play_script(int count, char **words);
void tests_alone(void);
void tests_served(void);
void kills(int count, unsigned seed);
void figures(void);

#endif
