// What a server of blocks can't do without: it reads a message, hashes its block by OpenSSL, and writes and syncs it as a put is written (the block, a record and
// its gate), or reads a block, hashes it and sends it. It checks nothing and knows no account. bench/server builds it and measures it beside ebsd.
//
//     cc -O2 -pthread bare_server.c -lcrypto -o bare_server && ./bare_server PORT
//
// PUT /n writes block n of 512 KiB, GET /n reads it. Its two files are made in the working directory.
#define _GNU_SOURCE
#include <arpa/inet.h>
#include <fcntl.h>
#include <netinet/tcp.h>
#include <openssl/sha.h>
#include <pthread.h>
#include <stdint.h>
#include <stdio.h>
#include <stdlib.h>
#include <string.h>
#include <unistd.h>

enum { BLOCK = 524288, HEAD = 4096, RECORD = 78 };

static int blocks, journal;
static off_t end;
static pthread_mutex_t turn = PTHREAD_MUTEX_INITIALIZER;

static void need(int holds, const char *what) {
    if (!holds) {
        perror(what);
        exit(1);
    }
}

static int read_all(int fd, char *to, size_t size) {
    for (size_t done = 0; done < size;) {
        ssize_t more = read(fd, to + done, size - done);
        if (more <= 0) return 0;
        done += more;
    }
    return 1;
}

static int write_all(int fd, const char *from, size_t size) {
    for (size_t done = 0; done < size;) {
        ssize_t more = write(fd, from + done, size - done);
        if (more <= 0) return 0;
        done += more;
    }
    return 1;
}

// One change after the other, each with three writes and three syncs.
static void put(off_t number, const char *block, const unsigned char *digest) {
    char record[RECORD] = {0}, gate = 1;
    memcpy(record, digest, SHA256_DIGEST_LENGTH);
    pthread_mutex_lock(&turn);
    need(pwrite(blocks, block, BLOCK, number * BLOCK) == BLOCK && !fdatasync(blocks), "block");
    need(pwrite(journal, record, RECORD, end + 1) == RECORD && !fdatasync(journal), "record");
    need(pwrite(journal, &gate, 1, end) == 1 && !fdatasync(journal), "gate");
    end += 1 + RECORD;
    pthread_mutex_unlock(&turn);
}

static int answer_put(int client, off_t number, char *block, const char *ahead, size_t got) {
    unsigned char digest[SHA256_DIGEST_LENGTH];
    memcpy(block, ahead, got);
    if (!read_all(client, block + got, BLOCK - got)) return 0;
    SHA256((unsigned char *)block, BLOCK, digest);
    put(number, block, digest);
    static const char answer[] = "HTTP/1.1 201 Created\r\nContent-Type: application/json\r\nContent-Length: 2\r\n\r\n{}";
    return write_all(client, answer, sizeof answer - 1);
}

static int answer_get(int client, off_t number, char *block) {
    unsigned char digest[SHA256_DIGEST_LENGTH];
    need(pread(blocks, block, BLOCK, number * BLOCK) == BLOCK, "read");
    SHA256((unsigned char *)block, BLOCK, digest);
    char head[HEAD];
    int size = snprintf(head, HEAD, "HTTP/1.1 200 OK\r\nContent-Length: %d\r\nx-first: %02x\r\n\r\n", BLOCK, digest[0]);
    return write_all(client, head, size) && write_all(client, block, BLOCK);
}

// The messages of a connection, one after the other.
static void *serve(void *given) {
    int client = (int)(intptr_t)given;
    char *head = malloc(HEAD + 1), *block = malloc(BLOCK);
    need(head && block, "memory");
    size_t got = 0;
    for (;;) {
        char *body;
        head[got] = 0;
        while (!(body = strstr(head, "\r\n\r\n"))) {
            ssize_t more = got < HEAD ? read(client, head + got, HEAD - got) : 0;
            if (more <= 0) goto gone;
            got += more;
            head[got] = 0;
        }
        body += 4;
        off_t number = strtoll(strchr(head, '/') + 1, NULL, 10);
        int is_put = head[0] == 'P';
        size_t ahead = got - (body - head);
        if (!(is_put ? answer_put(client, number, block, body, ahead) : answer_get(client, number, block))) goto gone;
        got = 0; // a client of the bench sends nothing before it has its answer
    }
gone:
    close(client);
    free(head);
    free(block);
    return NULL;
}

int main(int count, char **words) {
    need(count == 2, "usage: bare_server PORT");
    blocks = open("blocks", O_RDWR | O_CREAT, 0600);
    journal = open("journal", O_RDWR | O_CREAT, 0600);
    int door = socket(AF_INET, SOCK_STREAM, 0), on = 1;
    struct sockaddr_in at = {.sin_family = AF_INET, .sin_port = htons(atoi(words[1])), .sin_addr.s_addr = htonl(INADDR_LOOPBACK)};
    need(blocks >= 0 && journal >= 0 && door >= 0, "files");
    setsockopt(door, SOL_SOCKET, SO_REUSEADDR, &on, sizeof on);
    need(!bind(door, (struct sockaddr *)&at, sizeof at) && !listen(door, 128), "port");
    fprintf(stderr, "bare_server: listens at 127.0.0.1:%s\n", words[1]);
    for (;;) {
        int client = accept(door, NULL, NULL);
        if (client < 0) continue;
        setsockopt(client, IPPROTO_TCP, TCP_NODELAY, &on, sizeof on);
        pthread_t thread;
        need(!pthread_create(&thread, NULL, serve, (void *)(intptr_t)client), "thread");
        pthread_detach(thread);
    }
}
