// feed HOW PROGRAM [ARGUMENT ..] <INPUT: runs a program that reads INPUT as no file is read, and exits as it does.
//   bytes   one byte a read
//   after   in parts, then the end, and behind the end a line `#` and a row
//   reset   in parts, then a read that fails
//   wait    none of it: nothing is there yet, and the pipe does not wait
#define _GNU_SOURCE
#include <fcntl.h>
#include <stdio.h>
#include <string.h>
#include <sys/socket.h>
#include <sys/wait.h>
#include <unistd.h>

int main(int count, char **words) {
    if (count < 3) {
        fprintf(stderr, "usage: feed bytes|after|reset|wait PROGRAM [ARGUMENT ..] <INPUT\n");
        return 2;
    }
    const char *how = words[1];
    int ends[2];
    // A read of a packet socket takes one packet, an empty one as the end. A stream socket gives all that was sent before its error.
    int kind = strcmp(how, "reset") == 0 ? SOCK_STREAM : SOCK_SEQPACKET;
    int made = strcmp(how, "wait") == 0 ? pipe2(ends, O_NONBLOCK) : socketpair(AF_UNIX, kind, 0, ends);
    if (made != 0)
        return perror("feed"), 2;
    pid_t child = fork();
    if (child < 0)
        return perror("feed"), 2;
    if (child == 0) {
        dup2(ends[0], STDIN_FILENO);
        close(ends[0]);
        close(ends[1]);
        execvp(words[2], words + 2);
        perror(words[2]);
        _exit(127);
    }
    if (strcmp(how, "wait") != 0) {
        static char part[4096];
        size_t most = strcmp(how, "bytes") == 0 ? 1 : sizeof part;
        ssize_t got;
        while ((got = read(STDIN_FILENO, part, most)) > 0 && send(ends[1], part, got, MSG_NOSIGNAL) == got)
            ;
        if (strcmp(how, "after") == 0) {
            send(ends[1], "", 0, MSG_NOSIGNAL);
            send(ends[1], "#\n1\n", 4, MSG_NOSIGNAL);
        }
        // What is closed with bytes unread resets the other end.
        if (strcmp(how, "reset") == 0)
            send(ends[0], "", 1, MSG_NOSIGNAL);
        close(ends[0]);
        close(ends[1]);
    }
    int status;
    if (waitpid(child, &status, 0) != child || !WIFEXITED(status))
        return 2;
    return WEXITSTATUS(status);
}
