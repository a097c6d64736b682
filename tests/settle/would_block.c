/* would_block PROGRAM..: the program, its standard input a pipe that has what standard input has here, at most 60,000
   bytes, and behind that no end: a read would wait there, and fails. */
#define _DEFAULT_SOURCE
#include <fcntl.h>
#include <stdio.h>
#include <unistd.h>

static char bytes[60000];

int main(int count, char *arguments[])
{
    int ends[2];
    ssize_t length = 0, more;
    if (count < 2 || pipe(ends)) return 2;
    while ((more = read(0, bytes + length, sizeof bytes - (size_t)length)) > 0) length += more;
    if (write(ends[1], bytes, (size_t)length) != length) return 2;
    if (fcntl(ends[0], F_SETFL, O_NONBLOCK) || dup2(ends[0], 0)) return 2;
    execv(arguments[1], arguments + 1);
    perror(arguments[1]);
    return 2;
}
