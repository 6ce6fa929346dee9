/*
 * Stands in for kconf --each: reads the files of one run of many configurations, and writes the stored notes and outputs of each turn.
 * `run.h`, which stand_ins.py writes, has their names and texts. As it is it does all that the checker asks for. With one of these
 * words defined it does not, and the checker has to say so:
 *
 * STOPS       ends the run with the first configuration that fails
 * RUNS_ON     goes on to the next configuration when memory ran out or standard error failed
 * UNNAMED     writes its error lines without the name of the configuration
 * OTHER_TURN  names the next configuration in its error lines
 * LAST_STATUS answers the status of the last configuration
 * EARLY       makes the outputs of a configuration before its notes are out
 * AHEAD       makes the outputs of the next configuration when one cannot be read
 * LOSES       drops a note of each configuration behind one that fails
 */
#include <errno.h>
#include <fcntl.h>
#include <stdio.h>
#include <stdlib.h>
#include <string.h>
#include <unistd.h>

struct text { const char *name, *bytes; size_t count; };
struct turn { const char *name, *notes; int inputs, outputs, status; };

#include "run.h"

static int has_stderr, is_over, has_failed;

static int put(int file, const char *bytes, size_t count) {
    while (count) {
        ssize_t done = write(file, bytes, count);
        if (done <= 0) return -1;
        bytes += done;
        count -= done;
    }
    return 0;
}

/* Writes notes, each line in one write. Where they are refused the whole run is over. */
static int tell(const char *text) {
    for (const char *line = text, *end; *line; line = end) {
        end = strchr(line, '\n') + 1;
        if (!has_stderr || put(2, line, end - line)) return is_over = 1, 3;
    }
    return 0;
}

/* The error line of the turn of this number; of none where it is negative. Where the system had no memory it says that, and the whole
   run is over. The answer is the status. */
static int fault(int at, const char *what, const char *name) {
    char line[512] = "";
    if (errno == ENOMEM) what = "E20: out of memory", name = "", is_over = 1;
#ifdef OTHER_TURN
    if (at >= 0) at = (at + 1) % TURNS;
#endif
#ifndef UNNAMED
    if (at >= 0) strcat(strcat(line, turns[at].name), ": ");
#endif
    strcat(strcat(strcat(strcat(line, "error "), what), name), "\n");
    tell(line);
    has_failed = 1;
    return 3;
}

/* Reads a file to its end; one without bytes is not there. The answer is 0, or the status. */
static int take(int at, const struct text *input) {
    char *buffer = malloc(65536);
    ssize_t count = 1;
    int file;
    if (!buffer) return fault(at, "", "");
    file = open(input->name, O_RDONLY);
    if (file < 0) return free(buffer), input->count || errno == ENOMEM ? fault(at, "E18: cannot read ", input->bytes) : 0;
    while (count > 0 || (count < 0 && errno == EINTR)) count = read(file, buffer, 65536);
    free(buffer);
    close(file);
    return count < 0 ? fault(at, "E18: cannot read ", input->bytes) : 0;
}

static int make(int at, const struct text *output) {
    int file = open(output->name, O_WRONLY | O_CREAT | O_TRUNC, 0666);
    if (file < 0 || put(file, output->bytes, output->count)) return fault(at, "E19: cannot write ", output->name);
    close(file);
    return 0;
}

static int run_turn(int at, const struct text *input, const struct text *output) {
    const struct turn *turn = &turns[at];
    const char *notes = turn->notes;
    int status = 0;
    for (int each = 0; each < turn->inputs && !status; each++) status = take(at, input++);
#ifdef AHEAD
    if (status && at + 1 < TURNS && turns[at + 1].outputs) make(at, output + turn->outputs);
#endif
    if (status) return status;
#ifdef EARLY
    for (int each = 0; each < turn->outputs; each++) close(open(output[each].name, O_WRONLY | O_CREAT | O_TRUNC, 0666));
#endif
#ifdef LOSES
    if (has_failed && *notes) notes = strchr(notes, '\n') + 1;
#endif
    if (tell(notes)) return 3;
    for (int each = 0; each < turn->outputs && !status; each++) status = make(at, output++);
    return status ? status : turn->status;
}

int main(void) {
    const struct text *input = inputs, *output = outputs;
    int status = 0;
    has_stderr = fcntl(2, F_GETFD) >= 0;
    for (int at = 0; at < TREE; at++)
        if (take(-1, &tree[at])) return 3;
    if (tell(said)) return 3;
    for (int at = 0; at < TURNS; at++) {
        int now = run_turn(at, input, output);
        input += turns[at].inputs;
        output += turns[at].outputs;
#ifdef LAST_STATUS
        status = now;
#else
        if (now > status) status = now;
#endif
#ifdef STOPS
        if (now == 3) break;
#endif
#ifndef RUNS_ON
        if (is_over) break;
#endif
    }
    return status;
}
