/* Copies each frame of the standard input to the standard output, each with one write. With the word `buffered` it
   reads through stdio's buffer, else each frame by two reads of the system. */
#include <stdint.h>
#include <stdio.h>
#include <string.h>
#include <unistd.h>

enum { HEAD = 8, HANDLE = 12, MOST = HEAD + 65536 + 64 * HANDLE };

static int buffered;

/* Reads this many bytes; returns 0 where the input ends before. */
static int fill(unsigned char *to, size_t count)
{
    if (buffered)
        return fread(to, 1, count, stdin) == count;
    while (count) {
        ssize_t some = read(0, to, count);
        if (some <= 0)
            return 0;
        to += some;
        count -= (size_t)some;
    }
    return 1;
}

static int drain(const unsigned char *from, size_t count)
{
    while (count) {
        ssize_t some = write(1, from, count);
        if (some <= 0)
            return 0;
        from += some;
        count -= (size_t)some;
    }
    return 1;
}

int main(int count, char **words)
{
    static unsigned char frame[MOST];
    buffered = count > 1 && !strcmp(words[1], "buffered");
    while (fill(frame, HEAD)) {
        uint32_t bytes, handles;
        memcpy(&bytes, frame, 4);
        memcpy(&handles, frame + 4, 4);
        if (bytes > 65536 || handles > 64)
            return 1;
        size_t rest = bytes + (size_t)handles * HANDLE;
        if (!fill(frame + HEAD, rest) || !drain(frame, HEAD + rest))
            return 1;
    }
    return 0;
}
