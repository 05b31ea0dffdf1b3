/* Stands before malloc and realloc of a program, and refuses one of their calls: the one whose number, from 1, is in REFUSED.
 * Where it came to that call, it makes the file REFUSED_TOLD. */
#include "before.h"
#include <fcntl.h>
#include <unistd.h>

static long count;

static bool refused(void) {
    const char *number = getenv("REFUSED"), *told = getenv("REFUSED_TOLD");
    if (number == NULL || told == NULL || ++count != atol(number))
        return false;
    int file = open(told, O_CREAT | O_WRONLY, 0600);
    if (file >= 0)
        close(file);
    return true;
}
