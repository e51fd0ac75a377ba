#!/bin/sh
# Measures what slabs cost: an area in rows of 800 bytes, numbers with strides, and arrays of Strings, alone and before
# numbers. Beside the server stand nginx, which sends files of the same bytes, and a small program in C, which gathers
# the same rows in pieces of 8 KB and in those of the server, of 65,160 bytes, and writes them over loopback. All are
# loaded in turns by `wrk`, for a second each; the middle one of the ratios counts. It ends with 1 where a line misses
# its aim.
# Use: bench/slabs.sh [PROGRAM] [TURNS]; by default the proved program, and 5 turns, which take two minutes.
# nginx, wrk and gcc are installed where they are missing.
set -eu
. "$(dirname "$0")/common.sh"
use_program "$@"
"$top/bench/packages.sh" nginx=nginx wrk=wrk gcc=gcc
make_folder
cat > "$folder/gather.c" << 'PROGRAM'
/* `gather FILE PORT PIECE FIELDS FIELD BEGIN ROWS STEP ROW` answers each request with rows of a file: of each of FIELDS
   fields, FIELD bytes apart, ROWS rows of ROW bytes, STEP bytes apart, the first BEGIN bytes into the field. They are
   gathered in pieces of PIECE bytes. One process serves one connection. */
#include <fcntl.h>
#include <netinet/in.h>
#include <netinet/tcp.h>
#include <signal.h>
#include <stdio.h>
#include <stdlib.h>
#include <string.h>
#include <sys/mman.h>
#include <sys/socket.h>
#include <sys/stat.h>
#include <unistd.h>

static void put(int link, const char *bytes, size_t count) {
    while (count > 0) {
        ssize_t sent = write(link, bytes, count);
        if (sent <= 0) exit(0);
        bytes += sent;
        count -= sent;
    }
}

int main(int count, char **words) {
    if (count != 10) return 2;
    int file = open(words[1], O_RDONLY);
    struct stat about;
    if (file < 0 || fstat(file, &about) < 0) return 2;
    const char *bytes = mmap(0, about.st_size, PROT_READ, MAP_PRIVATE | MAP_POPULATE, file, 0);
    size_t piece = atol(words[3]), fields = atol(words[4]), field = atol(words[5]), begin = atol(words[6]);
    size_t rows = atol(words[7]), step = atol(words[8]), row = atol(words[9]);
    char *room = malloc(piece + row), head[256], asked[65536];
    int on = 1, door = socket(AF_INET, SOCK_STREAM, 0);
    struct sockaddr_in place = { .sin_family = AF_INET, .sin_port = htons(atoi(words[2])) };
    place.sin_addr.s_addr = htonl(INADDR_LOOPBACK);
    setsockopt(door, SOL_SOCKET, SO_REUSEADDR, &on, sizeof on);
    if (bind(door, (struct sockaddr *)&place, sizeof place) < 0 || listen(door, 64) < 0) return 2;
    signal(SIGCHLD, SIG_IGN);
    int length = sprintf(head, "HTTP/1.1 200 OK\r\nContent-Length: %zu\r\n\r\n", fields * rows * row);
    for (;;) {
        int link = accept(door, 0, 0);
        if (fork() != 0) {
            close(link);
            continue;
        }
        setsockopt(link, IPPROTO_TCP, TCP_NODELAY, &on, sizeof on);
        while (read(link, asked, sizeof asked) > 0) {
            put(link, head, length);
            size_t filled = 0;
            for (size_t f = 0; f < fields; f++) {
                const char *from = bytes + f * field + begin;
                for (size_t r = 0; r < rows; r++, from += step) {
                    if (row == 4) memcpy(room + filled, from, 4);
                    else memcpy(room + filled, from, row);
                    filled += row;
                    if (filled >= piece) {
                        put(link, room, piece);
                        filled -= piece;
                        memmove(room, room + piece, filled);
                    }
                }
            }
            put(link, room, filled);
        }
        exit(0);
    }
}
PROGRAM
cc -O2 -o "$folder/gather" "$folder/gather.c"
python3 -B "$top/bench/slabs.py" "$program" "$folder" "${2:-5}"
