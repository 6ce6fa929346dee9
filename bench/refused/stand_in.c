/*
 * Stands in for kconf: reads the files of one run, and writes the stored notes and outputs of that run. `run.h`, which
 * stand_ins.py writes, has their names and texts, and REPLACES where files take their places at the end. As it is it does all that
 * the checker asks for. With one of these words defined it does not, and the checker has to say so:
 *
 * ANY_TEXT   writes any text into each output, and answers 3 in silence
 * SILENT     writes the right texts, and answers 3 in silence
 * OTHER_NAME names another file where one cannot be read or written
 * EARLY      begins each output before the one before it is whole
 * GOES_ON    writes the outputs behind one that could not be written too
 * TORN       writes each line of the notes in two writes
 * BLIND      writes to descriptor 2 where standard error is closed, and so into a file that it opened
 *
 * and with REPLACES:
 *
 * IN_PLACE   writes each output where it lies, where its text is another
 * ONE_BY_ONE moves each output to its place before the next one is made
 * LEAVES     leaves beside the places what it made there before a fault
 * TOUCHES    replaces a file of the same text too
 * EXPOSES    makes what stands beside a file with the mode of a new file
 */
#define _GNU_SOURCE
#include <errno.h>
#include <fcntl.h>
#include <stdio.h>
#include <stdlib.h>
#include <string.h>
#include <sys/stat.h>
#include <unistd.h>

struct text { const char *name, *bytes; size_t count; };

#include "run.h"

static int has_stderr;

static int put(int file, const char *bytes, size_t count) {
    while (count) {
        ssize_t done = write(file, bytes, count);
        if (done <= 0) return -1;
        bytes += done;
        count -= done;
    }
    return 0;
}

/* Writes the notes, each line in one write. */
static int tell(void) {
    for (const char *line = notes, *end; line < notes + NOTES; line = end) {
        end = strchr(line, '\n') + 1;
#ifdef TORN
        if (put(2, line, 1)) return -1;
        line += 1;
#endif
        if (put(2, line, end - line)) return -1;
    }
    return 0;
}

/* The error line: where the system had no memory it says that. The answer is the status. */
static int fault(const char *what, const char *name) {
    char line[256] = "error ";
    if (errno == ENOMEM) what = "E20: out of memory", name = "";
    strcat(strcat(strcat(line, what), name), "\n");
    if (!has_stderr) return 3;
#if !defined SILENT && !defined ANY_TEXT
    put(2, line, strlen(line));
#endif
    return 3;
}

/* Reads a file to its end; one without bytes is not there. */
static int take(const struct text *input) {
    int file = open(input->name, O_RDONLY);
    ssize_t count = 1;
    char *buffer;
#ifdef OTHER_NAME
    const char *name = "another";
#else
    const char *name = input->bytes;
#endif
    if (file < 0) return input->count ? fault("E18: cannot read ", name) : 0;
    buffer = malloc(65536);
    if (!buffer) return fault("E20: out of memory", "");
    while (count > 0 || (count < 0 && errno == EINTR)) count = read(file, buffer, 65536);
    free(buffer);
    close(file);
    return count < 0 ? fault("E18: cannot read ", name) : 0;
}

static int make(const char *name) { return open(name, O_WRONLY | O_CREAT | O_TRUNC, 0666); }

#ifdef REPLACES
static int is_same(const struct text *output) {
#ifndef TOUCHES
    char bytes[4096];
    struct statx told;
    int file = statx(AT_FDCWD, output->name, 0, STATX_ALL, &told) ? -1 : open(output->name, O_RDONLY);
    size_t at = 0;
    ssize_t count = file < 0 ? -1 : 1;
    while (count > 0 && (count = read(file, bytes, sizeof bytes)) > 0) {
        if ((size_t)count > output->count - at || memcmp(bytes, output->bytes + at, count)) count = -1;
        at += count;
    }
    if (file >= 0) close(file);
    return !count && at == output->count;
#else
    return 0;
#endif
}

#ifdef EXPOSES
#define MODE 0666
#else
#define MODE 0600
#endif

#ifndef IN_PLACE
static char beside[OUTPUTS][256];
static int made;

/* Makes an output beside its place, whole. */
static int make_beside(size_t at) {
    const struct text *output = &outputs[at];
    int file, has_failed;
    snprintf(beside[at], sizeof beside[at], ".kconf-%d", made);
    file = open(beside[at], O_WRONLY | O_CREAT | O_EXCL, MODE);
    if (file < 0) return beside[at][0] = 0, -1;
    made += 1;
    has_failed = fchmod(file, 0601) || put(file, output->bytes, output->count) || fsync(file);
    close(file);
    return has_failed ? -1 : 0;
}

static int move(size_t at) {
    if (!beside[at][0] || rename(beside[at], outputs[at].name)) return -!!beside[at][0];
    return beside[at][0] = 0;
}

static int fault_of(size_t at) {
#ifndef LEAVES
    for (size_t each = 0; each < OUTPUTS; each++)
        if (beside[each][0]) unlink(beside[each]);
#endif
    return fault("E19: cannot write ", outputs[at].name);
}

static int replace(void) {
    for (size_t at = 0; at < OUTPUTS; at++) {
        if (!is_same(&outputs[at]) && make_beside(at)) return fault_of(at);
#ifdef ONE_BY_ONE
        if (move(at)) return fault_of(at);
#endif
    }
    for (size_t at = 0; at < OUTPUTS; at++)
        if (move(at)) return fault_of(at);
    return 0;
}
#endif
#endif

int main(void) {
#if !defined REPLACES || defined IN_PLACE
    int made[OUTPUTS], status = 0;
#endif
#ifdef BLIND
    has_stderr = 1;
#else
    has_stderr = fcntl(2, F_GETFD) >= 0;
#endif
    for (size_t at = 0; at < INPUTS; at++)
        if (take(&inputs[at])) return 3;
    if (NOTES && (!has_stderr || tell())) return 3;
#if defined REPLACES && !defined IN_PLACE
    return replace();
#else
    for (size_t at = 0; at < OUTPUTS; at++) {
        const struct text *output = &outputs[at];
#ifdef REPLACES
        if (is_same(output)) continue;
#endif
#ifdef EARLY
        for (size_t each = 0; at == 0 && each < OUTPUTS; each++) made[each] = make(outputs[each].name);
#else
        made[at] = make(output->name);
#endif
#ifdef ANY_TEXT
        if (made[at] < 0 || put(made[at], "any text\n", 9)) return fault("", "");
#elif defined OTHER_NAME
        if (made[at] < 0 || put(made[at], output->bytes, output->count)) return fault("E19: cannot write ", outputs[(at + 1) % OUTPUTS].name);
#elif defined GOES_ON
        if (made[at] < 0 || put(made[at], output->bytes, output->count)) status = fault("E19: cannot write ", output->name);
#else
        if (made[at] < 0 || put(made[at], output->bytes, output->count)) return fault("E19: cannot write ", output->name);
#endif
        close(made[at]);
    }
    return status;
#endif
}
