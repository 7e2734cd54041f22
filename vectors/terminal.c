/*
 * terminal PROGRAM DAY BATCH: runs PROGRAM with a terminal as its standard input. On it stand the bytes of both files, each with its
 * end behind it, and an end for each of the two times that the program asks whether more is left. Its status is the program's.
 */
#define _XOPEN_SOURCE 600
#include <fcntl.h>
#include <stdio.h>
#include <stdlib.h>
#include <string.h>
#include <sys/wait.h>
#include <termios.h>
#include <unistd.h>

static void fail(const char *what)
{
    perror(what);
    exit(2);
}

/* Appends a file to the input; how many bytes it has then. */
static size_t append(const char *name, unsigned char *input, size_t at, size_t room)
{
    FILE *file = fopen(name, "rb");
    if (!file)
        fail(name);
    at += fread(input + at, 1, room - at, file);
    fclose(file);
    return at;
}

int main(int argc, char **argv)
{
    unsigned char input[2048];
    if (argc != 4) {
        fprintf(stderr, "usage: terminal PROGRAM DAY BATCH\n");
        return 2;
    }
    size_t day = append(argv[2], input, 0, sizeof input);
    size_t both = append(argv[3], input, day, sizeof input);

    /* a byte that stands in neither file is the terminal's end of file; no other byte means anything to it but the end of a line */
    int end = 255;
    while (memchr(input, end, both))
        end--;
    int keys = posix_openpt(O_RDWR | O_NOCTTY);
    if (keys < 0 || grantpt(keys) || unlockpt(keys))
        fail("terminal");
    int screen = open(ptsname(keys), O_RDWR | O_NOCTTY);
    struct termios mode;
    if (screen < 0 || tcgetattr(screen, &mode))
        fail("terminal");
    mode.c_iflag = 0;
    mode.c_oflag = 0;
    mode.c_lflag = ICANON;
    memset(mode.c_cc, 0, sizeof mode.c_cc);
    mode.c_cc[VEOF] = (unsigned char)end;
    if (tcsetattr(screen, TCSANOW, &mode))
        fail("terminal");

    /* behind bytes that are no whole line the first end hands them over, and the second one is read as the end */
    unsigned char ends[2] = {(unsigned char)end, (unsigned char)end};
    size_t day_ends = day && input[day - 1] == '\n' ? 1 : 2;
    size_t batch_ends = both > day && input[both - 1] == '\n' ? 1 : 2;
    if (write(keys, input, day) != (ssize_t)day || write(keys, ends, day_ends) != (ssize_t)day_ends ||
        write(keys, input + day, both - day) != (ssize_t)(both - day) ||
        write(keys, ends, batch_ends) != (ssize_t)batch_ends || write(keys, ends, 2) != 2)
        fail("terminal");

    pid_t child = fork();
    if (child < 0)
        fail("fork");
    if (child == 0) {
        alarm(20);
        dup2(screen, STDIN_FILENO);
        execl(argv[1], argv[1], (char *)NULL);
        fail(argv[1]);
    }
    int status;
    if (waitpid(child, &status, 0) != child)
        fail("wait");
    return WIFEXITED(status) ? WEXITSTATUS(status) : 2;
}
