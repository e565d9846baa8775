// A process that divides: whoever has the other end of the socket DIVIDED sends it an input, an output and a socket of the same sort, and then there are two
// processes in the state of this one, of which the new one goes on with these. tools/simulate preloads it before `replay`. It divides between two reads of
// the input alone.
#define _GNU_SOURCE
#include <poll.h>
#include <signal.h>
#include <stdlib.h>
#include <string.h>
#include <sys/socket.h>
#include <sys/syscall.h>
#include <unistd.h>

enum { PARTS = 3 };

static int control = -1;

__attribute__((constructor)) static void begin(void) {
    const char *number = getenv("DIVIDED");
    if (number) control = atoi(number);
    signal(SIGCHLD, SIG_IGN);
}

static int receive(int parts[PARTS]) {
    char byte, room[CMSG_SPACE(PARTS * sizeof(int))];
    struct iovec text = {&byte, 1};
    struct msghdr message = {.msg_iov = &text, .msg_iovlen = 1, .msg_control = room, .msg_controllen = sizeof room};
    if (recvmsg(control, &message, 0) != 1) return 0;
    struct cmsghdr *head = CMSG_FIRSTHDR(&message);
    if (!head || head->cmsg_type != SCM_RIGHTS) _exit(96);
    memcpy(parts, CMSG_DATA(head), PARTS * sizeof(int));
    return 1;
}

static void divide(void) {
    int parts[PARTS];
    if (!receive(parts)) {
        control = -1;
        return;
    }
    pid_t made = fork();
    if (made < 0) _exit(95);
    if (made == 0) {
        dup2(parts[0], 0);
        dup2(parts[1], 1);
        close(control);
        control = dup(parts[2]);
        if (write(control, "d", 1) != 1) _exit(94);
    }
    for (int i = 0; i < PARTS; i++) close(parts[i]);
}

ssize_t read(int fd, void *into, size_t size) {
    while (fd == 0 && control >= 0) {
        struct pollfd ends[2] = {{0, POLLIN, 0}, {control, POLLIN, 0}};
        if (poll(ends, 2, -1) < 0) continue;
        if (ends[0].revents) break;
        divide();
    }
    return syscall(SYS_read, fd, into, size);
}
