/* Reads RESP2 values from standard input with hiredis' reader, in pieces of so many bytes, and counts them. */
#include <hiredis/hiredis.h>
#include <stdio.h>
#include <stdlib.h>
#include <unistd.h>

int main(int argc, char **argv) {
    size_t piece = argc > 1 ? strtoul(argv[1], NULL, 10) : 65536;
    size_t size = 0, room = 1 << 20;
    char *all = malloc(room);
    ssize_t got;
    while ((got = read(0, all + size, room - size)) > 0) {
        size += (size_t)got;
        if (size == room) all = realloc(all, room *= 2);
    }
    redisReader *reader = redisReaderCreate();
    unsigned long values = 0;
    for (size_t at = 0; at < size; at += piece) {
        size_t count = size - at < piece ? size - at : piece;
        void *reply = NULL;
        redisReaderFeed(reader, all + at, count);
        while (redisReaderGetReply(reader, &reply) == REDIS_OK && reply) {
            values++;
            freeReplyObject(reply);
            reply = NULL;
        }
    }
    printf("%lu values\n", values);
    return 0;
}
