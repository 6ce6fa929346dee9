/*
 * Stands in for kc_call_turns: one growth for each of its lines, whose names `calls.h` has. With a fault it is wrong: WRONG says
 * so of one call where its growth is refused, BLIND says that each call did its work.
 */
#include <stdio.h>
#include <stdlib.h>
#include <unistd.h>

#include "calls.h"

int main(void) {
    for (int at = 0; at < CALLS; at++) {
        char *volatile grown = malloc(99);
        const char *end = grown ? "done" : "refused";
#ifdef WRONG
        if (at == 3 && !grown) end = "wrong";
#elif defined BLIND
        end = "done";
#endif
        char line[99];
        int count = snprintf(line, sizeof line, "%s: %s\n", calls[at], end);
        if (count < 0 || write(1, line, count) != count) return 1;
        free(grown);
    }
    return 0;
}
