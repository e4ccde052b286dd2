/* What a benchmark program measured, and how it is printed. */
#ifndef RESULTS_H
#define RESULTS_H

#include <stdio.h>

enum { MOST_CONTESTANTS = 32, MOST_ROUNDS = 401 };

/* For a contestant that bin/bench links only where it is there; elsewhere its address is NULL. */
#define WHERE_LINKED __attribute__((weak))

/* A function of any type, for such addresses. */
typedef void function(void);

/* The times of a column of a table. The rounds with the same number follow each other, so what disturbs one mostly disturbs all. */
struct column {
    int rounds; /* an odd number */
    double times[MOST_CONTESTANTS][MOST_ROUNDS];
};

/* The median round. */
double time_of(const struct column *column, int contestant);

/* The median of each round's ratio of two times. */
double ratio_of(const struct column *column, int contestant, int other);

/* The median of each round's ratio of two times to the ratio of two others: of a door to C, to that of an earlier library's door to C that takes what it
 * takes. */
struct change {
    int contestant, other, before, before_other;
};
double change_of(const struct column *column, const struct change *change);

/* Another order for each round, so that no contestant always follows the same one. */
void shuffle(int *contestants, int count);

/* A cell of a table, of three columns: hits / half / misses. Times, the ratios of two contestants, and the change of such ratios. */
void print_times(const struct column *of, int contestant);
void print_ratios(const struct column *of, int contestant, int other);
void print_changes(const struct column *of, const struct change *change);

/* Where the table of aims gets its rows from: the file that bin/bench names, or nowhere. */
FILE *open_aims(int words, char **word);

/* A row of the table of aims: the ratio of two contestants in some columns, each with its bound. It is met where no ratio, rounded as it
 * is printed, is above its bound. */
struct aim {
    const char *what;
    int contestant, other;
    const struct column *columns;
    int count; /* of columns; where there are three, they are hits, half and misses */
    double bounds[3];
};
void print_aim(FILE *to, const struct aim *aim, int measured);

/* The same for a change of a ratio in some columns, all with one bound. */
void print_aim_on_change(FILE *to, const char *what, const struct change *change, const struct column *columns, int count, double bound,
                         int measured);

#endif
