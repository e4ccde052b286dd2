#include "results.h"
#include "timing.h"
#include <string.h>

double time_of(const struct column *column, int contestant)
{
    static double times[MOST_ROUNDS];
    memcpy(times, column->times[contestant], sizeof times);
    return median(times, (size_t)column->rounds);
}

double ratio_of(const struct column *column, int contestant, int other)
{
    static double ratios[MOST_ROUNDS];
    for (int round = 0; round < column->rounds; round++) {
        ratios[round] = column->times[contestant][round] / column->times[other][round];
    }
    return median(ratios, (size_t)column->rounds);
}

double change_of(const struct column *column, const struct change *change)
{
    static double changes[MOST_ROUNDS];
    for (int round = 0; round < column->rounds; round++) {
        changes[round] = column->times[change->contestant][round] / column->times[change->other][round] /
                         (column->times[change->before][round] / column->times[change->before_other][round]);
    }
    return median(changes, (size_t)column->rounds);
}

void shuffle(int *contestants, int count)
{
    for (int i = count - 1; i > 0; i--) {
        int j = (int)(random_number() % (uint64_t)(i + 1)), kept = contestants[i];
        contestants[i] = contestants[j];
        contestants[j] = kept;
    }
}

void print_times(const struct column *of, int contestant)
{
    printf(" %.1f / %.1f / %.1f |", time_of(&of[0], contestant), time_of(&of[1], contestant), time_of(&of[2], contestant));
}

void print_ratios(const struct column *of, int contestant, int other)
{
    printf(" %.2f / %.2f / %.2f |", ratio_of(&of[0], contestant, other), ratio_of(&of[1], contestant, other),
           ratio_of(&of[2], contestant, other));
}

void print_changes(const struct column *of, const struct change *change)
{
    printf(" %.2f / %.2f / %.2f |", change_of(&of[0], change), change_of(&of[1], change), change_of(&of[2], change));
}

FILE *open_aims(int words, char **word) { return fopen(words > 1 ? word[1] : "/dev/null", "a"); }

/* A row of the table of aims; where nothing was measured, ratios is NULL. */
static void print_row(FILE *to, const char *what, int count, const double *bounds, const double *ratios)
{
    static const char *const mixes[] = {"hits", "half", "misses"};
    int missed = 0;
    fprintf(to, "| %s |", what);
    for (int i = 0; i < count; i++) {
        fprintf(to, "%s %.2f", i == 0 ? "" : " /", bounds[i]);
    }
    fprintf(to, " |");
    if (ratios == NULL) {
        fprintf(to, " | not measured |\n");
        return;
    }
    for (int i = 0; i < count; i++) {
        fprintf(to, "%s %.2f", i == 0 ? "" : " /", ratios[i]);
    }
    fprintf(to, " |");
    for (int i = 0; i < count; i++) {
        if ((int)(100 * ratios[i] + 0.5) > (int)(100 * bounds[i] + 0.5)) {
            fprintf(to, "%s", missed == 0 ? " missed" : ",");
            if (count == 3) {
                fprintf(to, "%s %s", missed == 0 ? " at" : "", mixes[i]);
            }
            missed++;
        }
    }
    fprintf(to, "%s |\n", missed == 0 ? " met" : "");
}

void print_aim(FILE *to, const struct aim *aim, int measured)
{
    double ratios[3] = {0, 0, 0};
    for (int i = 0; measured && i < aim->count; i++) {
        ratios[i] = ratio_of(&aim->columns[i], aim->contestant, aim->other);
    }
    print_row(to, aim->what, aim->count, aim->bounds, measured ? ratios : NULL);
}

void print_aim_on_change(FILE *to, const char *what, const struct change *change, const struct column *columns, int count, double bound,
                         int measured)
{
    double bounds[3] = {bound, bound, bound}, ratios[3] = {0, 0, 0};
    for (int i = 0; measured && i < count; i++) {
        ratios[i] = change_of(&columns[i], change);
    }
    print_row(to, what, count, bounds, measured ? ratios : NULL);
}
