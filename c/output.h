/* Standard output of a program whose status can be trusted: what was printed has been written, or the status is 2 and a line
 * on standard error says why. */
#ifndef OUTPUT_H
#define OUTPUT_H

#include <errno.h>
#include <signal.h>
#include <stdio.h>
#include <string.h>

/* At the start: a reader that goes away is an error to be told, not the end of the process. */
static inline void begin_output(void)
{
#ifdef SIGPIPE
    signal(SIGPIPE, SIG_IGN);
#endif
}

/* At the end: the status, or 2 if not everything could be written. */
static inline int end_output(const char *program, int status)
{
    int failed = ferror(stdout);
    errno = 0;
    if (fclose(stdout) == 0 && !failed)
        return status;
    fprintf(stderr, "%s: cannot write to standard output%s%s\n", program, errno != 0 ? ": " : "",
            errno != 0 ? strerror(errno) : "");
    return 2;
}

#endif
