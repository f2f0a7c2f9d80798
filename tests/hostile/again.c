/* Copies its input to its output, and ends as ttrun does where a read or a write fails: with a line, and with status 3. Built with
   -DAGAIN it tries an interrupted one again: the tests of failing devices must find that out. */
#include <errno.h>
#include <unistd.h>

#ifdef AGAIN
#define FAILED (errno != EINTR)
#else
#define FAILED 1
#endif

static int ended(const char *line) {
    while (*line != 0 && write(2, line, 1) == 1)
        line++;
    return 3;
}

int main(void) {
    char bytes[64];
    size_t held = 0, done = 0;
    ssize_t count;
    while ((count = read(0, bytes + held, sizeof bytes - held)) != 0) {
        if (count > 0)
            held += (size_t)count;
        else if (FAILED)
            return ended("ttrun: read fault\n");
    }
    while (done < held) {
        count = write(1, bytes + done, held - done);
        if (count > 0)
            done += (size_t)count;
        else if (FAILED)
            return ended("ttrun: write fault\n");
    }
    return 0;
}
