/* Stands before malloc and realloc of a program, and at each of their calls that is this lane's makes a copy of the process, in which the
 * call is refused. The copy goes on to its end, or for FORKED_AHEAD more calls, and what it wrote is read; then the program goes on, which
 * is refused nothing. The lane FORKED_LANE of FORKED_LANES, from 0, has each call whose number leaves it. The file FORKED_TOLD has the
 * count of refused calls, of copies that wrote of a wrong row or were killed, and of those that ended with a fault. */
#include "before.h"
#include <fcntl.h>
#include <stdio.h>
#include <string.h>
#include <sys/mman.h>
#include <sys/wait.h>
#include <unistd.h>

enum { FILES = 64, WENT_ON = 77, MOST = 1 << 16 };

static enum { UNREADY, PROGRAM, COPY } mode;
static long count, lane, lanes, ahead, refusals, wrong, faults;
static int written, told;

static long number_in(const char *name, long usual) {
    const char *text = getenv(name);
    return text == NULL ? usual : atol(text);
}

__attribute__((constructor)) static void begin(void) {
    const char *path = getenv("FORKED_TOLD");
    if (path == NULL)
        return;
    lane = number_in("FORKED_LANE", 0);
    lanes = number_in("FORKED_LANES", 1);
    ahead = number_in("FORKED_AHEAD", 4000);
    told = open(path, O_CREAT | O_WRONLY | O_TRUNC | O_CLOEXEC, 0600);
    written = memfd_create("written", MFD_CLOEXEC);
    mode = PROGRAM;
}

/* Whether what a copy wrote tells of a wrong row: a line of one, or a count that isn't 0. */
static bool is_wrong(void) {
    static char text[MOST + 1];
    ssize_t length = pread(written, text, MOST, 0);
    text[length < 0 ? 0 : length] = 0;
    if (strstr(text, "wrong: ") != NULL)
        return true;
    for (const char *at = text; (at = strstr(at, " wrong\n")) != NULL; at++)
        if (at == text || at[-1] != '0' || (at - text > 1 && at[-2] != ' '))
            return true;
    return false;
}

static void judge(int status) {
    refusals++;
    bool went_on = WIFEXITED(status) && (WEXITSTATUS(status) == 0 || WEXITSTATUS(status) == WENT_ON);
    if (!WIFEXITED(status) || is_wrong())
        wrong++;
    else if (!went_on)
        faults++;
    char line[96];
    int length = snprintf(line, sizeof line, "%20ld %20ld %20ld\n", refusals, wrong, faults);
    (void)!pwrite(told, line, length, 0);
}

/* A copy reads on in the files that the program reads, which goes on where it was. */
static void wait_for(pid_t copy, const off_t *places) {
    int status = 0;
    waitpid(copy, &status, 0);
    for (int file = 0; file < FILES; file++)
        if (places[file] >= 0)
            lseek(file, places[file], SEEK_SET);
    judge(status);
}

static bool refused(void) {
    if (mode == UNREADY)
        return false;
    if (mode == COPY) {
        if (--ahead == 0)
            _exit(WENT_ON);
        return false;
    }
    if (count++ % lanes != lane)
        return false;
    off_t places[FILES];
    for (int file = 0; file < FILES; file++)
        places[file] = lseek(file, 0, SEEK_CUR);
    (void)!ftruncate(written, 0);
    lseek(written, 0, SEEK_SET);
    pid_t copy = fork();
    if (copy == 0) {
        mode = COPY;
        dup2(written, 1);
        dup2(written, 2);
        return true;
    }
    if (copy > 0)
        wait_for(copy, places);
    return false;
}
