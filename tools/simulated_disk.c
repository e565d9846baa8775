// A disk for one process, in front of the real one: what was written and not synced may be lost, kept or torn when the process ends, calls fail, and the
// clock has the readings that it is given. tools/simulate preloads it, and says by a page that both have what is to come.
#define _GNU_SOURCE
#include <dlfcn.h>
#include <errno.h>
#include <fcntl.h>
#include <stdarg.h>
#include <stdint.h>
#include <stdlib.h>
#include <string.h>
#include <sys/mman.h>
#include <sys/syscall.h>
#include <time.h>
#include <unistd.h>

enum { FILES = 1024, SECTOR = 512, KILLED = 77, READINGS = 4096 };

// what the disk had done when the clock was read
struct begun {
    uint64_t calls;
    uint64_t failed;
};

struct control {
    uint64_t second;   // the clock where no readings are left
    int64_t kill_in;   // the process ends at this call of the disk, if it isn't 0
    int64_t fail_in;   // this call fails
    uint64_t fails;    // then the next one that fails is among so many, if it isn't 0
    uint64_t pick;     // what becomes of unsynced writes: 0 all are lost, 1 kept, 2 one or the other, 3 or torn
    uint64_t seed;
    uint64_t calls;    // calls of the disk
    uint64_t failed;   // calls that failed
    uint64_t next;     // the place of the next reading
    uint64_t readings; // how many there are
    uint64_t seconds[READINGS];
    struct begun begun[READINGS];
};

struct written {
    int fd;
    off_t at;
    size_t size;
    char *bytes;
};

static struct control *control;
static char is_disk[FILES];
static off_t places[FILES];
static struct written *unsynced;
static size_t count, room;

static uint64_t chance(uint64_t below) {
    uint64_t x = control->seed ? control->seed : 1;
    x ^= x << 13;
    x ^= x >> 7;
    x ^= x << 17;
    control->seed = x;
    return x % below;
}

static ssize_t really_write(int fd, const void *bytes, size_t size, off_t at) { return syscall(SYS_pwrite64, fd, bytes, size, at); }

static void keep(struct written *one) {
    for (size_t done = 0; done < one->size;) {
        ssize_t more = really_write(one->fd, one->bytes + done, one->size - done, one->at + (off_t)done);
        if (more <= 0) _exit(99);
        done += (size_t)more;
    }
}

// each sector is there or not, where sectors are those of the file
static void tear(struct written *one) {
    for (size_t from = 0; from < one->size;) {
        size_t to = from + SECTOR - (size_t)((one->at + (off_t)from) % SECTOR);
        if (to > one->size) to = one->size;
        if (chance(2)) {
            struct written part = {one->fd, one->at + (off_t)from, to - from, one->bytes + from};
            keep(&part);
        }
        from = to;
    }
}

static void stop(void) {
    for (size_t i = 0; i < count; i++) {
        switch (control->pick == 3 ? chance(3) + 1 : control->pick == 2 ? 2 * chance(2) : 2 * control->pick) {
        case 0: break;
        case 1: tear(&unsynced[i]); break;
        case 2: keep(&unsynced[i]); break;
        default: break;
        }
    }
    count = 0;
}

__attribute__((constructor)) static void begin(void) {
    int fd = open(getenv("SIMULATED"), O_RDWR);
    void *page = fd < 0 ? MAP_FAILED : mmap(0, sizeof *control, PROT_READ | PROT_WRITE, MAP_SHARED, fd, 0);
    if (page == MAP_FAILED) _exit(98);
    control = page;
    syscall(SYS_close, fd);
}

// an end is no better than a stop
__attribute__((destructor)) static void end(void) { stop(); }

// whether this call of the disk fails
static int fails(void) {
    control->calls++;
    if (control->kill_in && !--control->kill_in) {
        stop();
        _exit(KILLED);
    }
    if (control->fail_in && !--control->fail_in) {
        control->failed++;
        if (control->fails) control->fail_in = 1 + (int64_t)chance(control->fails);
        errno = chance(2) ? EIO : ENOSPC;
        return 1;
    }
    return 0;
}

static int is_of_disk(int fd) { return fd >= 0 && fd < FILES && is_disk[fd]; }

int open(const char *path, int flags, ...) {
    va_list more;
    va_start(more, flags);
    int mode = va_arg(more, int);
    va_end(more);
    int of_disk = strstr(path, "ebs-data/") != 0;
    if (of_disk && fails()) return -1;
    int fd = (int)syscall(SYS_openat, AT_FDCWD, path, flags, mode);
    if (fd >= 0 && fd < FILES) {
        is_disk[fd] = (char)of_disk;
        places[fd] = 0;
    }
    return fd;
}

int close(int fd) {
    // writes outlive their descriptor
    if (is_of_disk(fd)) {
        for (size_t i = 0; i < count; i++)
            if (unsynced[i].fd == fd) unsynced[i].fd = (int)syscall(SYS_dup, fd);
        is_disk[fd] = 0;
    }
    return (int)syscall(SYS_close, fd);
}

static off_t size_of(int fd) {
    off_t size = syscall(SYS_lseek, fd, 0, SEEK_END);
    for (size_t i = 0; i < count; i++)
        if (unsynced[i].fd == fd && unsynced[i].at + (off_t)unsynced[i].size > size) size = unsynced[i].at + (off_t)unsynced[i].size;
    return size;
}

off_t lseek(int fd, off_t at, int whence) {
    if (!is_of_disk(fd)) return syscall(SYS_lseek, fd, at, whence);
    places[fd] = whence == SEEK_SET ? at : whence == SEEK_CUR ? places[fd] + at : size_of(fd) + at;
    return places[fd];
}

ssize_t read(int fd, void *into, size_t size) {
    if (!is_of_disk(fd)) return syscall(SYS_read, fd, into, size);
    if (fails()) return -1;
    off_t at = places[fd], end = size_of(fd);
    if (at >= end || size == 0) return 0;
    if ((off_t)size > end - at) size = (size_t)(end - at);
    memset(into, 0, size);
    if (syscall(SYS_pread64, fd, into, size, at) < 0) return -1;
    for (size_t i = 0; i < count; i++) {
        struct written *one = &unsynced[i];
        off_t from = one->at > at ? one->at : at, to = one->at + (off_t)one->size;
        if (to > at + (off_t)size) to = at + (off_t)size;
        if (one->fd == fd && from < to) memcpy((char *)into + (from - at), one->bytes + (from - one->at), (size_t)(to - from));
    }
    places[fd] += (off_t)size;
    return (ssize_t)size;
}

static void note(int fd, const void *bytes, size_t size) {
    if (count == room) {
        room = room ? 2 * room : 64;
        unsynced = realloc(unsynced, room * sizeof *unsynced);
    }
    char *copy = malloc(size);
    if (!unsynced || !copy) _exit(97);
    memcpy(copy, bytes, size);
    unsynced[count++] = (struct written){fd, places[fd], size, copy};
}

ssize_t write(int fd, const void *bytes, size_t size) {
    if (!is_of_disk(fd)) return syscall(SYS_write, fd, bytes, size);
    if (size == 0) return 0;
    // of a write that is stopped or fails some may be there
    if (control->kill_in == 1 || control->fail_in == 1) {
        size_t part = chance(size + 1);
        if (part) note(fd, bytes, part);
    }
    if (fails()) return -1;
    note(fd, bytes, size);
    places[fd] += (off_t)size;
    return (ssize_t)size;
}

ssize_t __write(int fd, const void *bytes, size_t size) { return write(fd, bytes, size); }

int fdatasync(int fd) {
    if (!is_of_disk(fd)) return 0;
    if (fails()) return -1;
    size_t left = 0;
    for (size_t i = 0; i < count; i++) {
        if (unsynced[i].fd == fd) {
            keep(&unsynced[i]);
            free(unsynced[i].bytes);
        } else {
            unsynced[left++] = unsynced[i];
        }
    }
    count = left;
    return 0;
}

int fsync(int fd) { return fdatasync(fd); }

int clock_gettime(clockid_t clock, struct timespec *now) {
    if (clock != CLOCK_REALTIME) return (int)syscall(SYS_clock_gettime, clock, now);
    now->tv_sec = (time_t)control->second;
    if (control->next < control->readings) {
        now->tv_sec = (time_t)control->seconds[control->next];
        control->begun[control->next++] = (struct begun){control->calls, control->failed};
    }
    now->tv_nsec = 0;
    return 0;
}
