/* What the fuzzer runs for each input: the program, as `TARGET PROGRAM MODE SAMPLE REQUESTS FILE`. MODE is `check`;
   `proto`, where the file is the prototype and a file of it; `load`, where it is a file over the sample; or `stream`,
   where it comes on standard input after the sample was put. Else REQUESTS has two requests for standard input. The
   program's answers stand for the branches that it took, since it isn't instrumented. A status or a text that may not
   be stops this process, which the fuzzer counts as a crash. */
#define _GNU_SOURCE
#include <fcntl.h>
#include <signal.h>
#include <stdio.h>
#include <stdlib.h>
#include <string.h>
#include <sys/prctl.h>
#include <sys/wait.h>
#include <unistd.h>

extern unsigned char *__afl_area_ptr;

#define ROOM (64 << 20)

/* Notes that something was seen, as a branch. */
static void seen(unsigned what) {
    __afl_area_ptr[(what * 2654435761u) >> 16]++;
}

static void wrong(const char *why) {
    fprintf(stderr, "WRONG: %s\n", why);
    abort();
}

/* Runs the program in the first process of its own, and gives its status; what it wrote comes into `out`. */
static int run(char **words, const char *input, char *out, size_t *len) {
    int ends[2];
    if (pipe(ends) != 0) {
        exit(2);
    }
    pid_t child = fork();
    if (child == 0) {
        prctl(PR_SET_PDEATHSIG, SIGKILL);
        int file = open(input, O_RDONLY);
        dup2(file, 0);
        dup2(ends[1], 1);
        dup2(ends[1], 2);
        close(ends[0]);
        close(ends[1]);
        execv(words[0], words);
        _exit(127);
    }
    close(ends[1]);
    ssize_t got;
    *len = 0;
    while (*len < ROOM && (got = read(ends[0], out + *len, ROOM - *len)) > 0) {
        *len += got;
    }
    close(ends[0]);
    int status = 0;
    waitpid(child, &status, 0);
    if (!WIFEXITED(status)) {
        wrong("the program was ended by a signal");
    }
    return WEXITSTATUS(status);
}

/* The number behind a word in a text of this length, or -1. */
static long number_behind(const char *text, size_t len, const char *word) {
    const char *found = memmem(text, len, word, strlen(word));
    return found == NULL ? -1 : strtol(found + strlen(word), NULL, 10);
}

/* Sees that the output is whole replies, and notes their statuses and faults. What follows them is left. */
static size_t take_replies(const char *out, size_t len) {
    size_t place = 0;
    while (len - place >= 9 && memcmp(out + place, "HTTP/1.1 ", 9) == 0) {
        const char *end = memmem(out + place, len - place, "\r\n\r\n", 4);
        if (end == NULL) {
            wrong("a head is cut");
        }
        size_t head = end + 4 - (out + place);
        long status = strtol(out + place + 9, NULL, 10);
        long body = number_behind(out + place, head, "\r\nContent-Length: ");
        int bodiless = len - place - head < (size_t)body || memcmp(out + place + head, "HTTP/1.1 ", 9) == 0;
        long code = bodiless ? 0 : number_behind(out + place + head, body, "code = ");
        if (body < 0 || status < 200 || status > 499) {
            wrong("a reply of another form");
        }
        seen(status * 100 + (status == 200 ? 0 : code));
        place += head + (bodiless ? 0 : body);
    }
    return place;
}

/* Whether a run may end so. */
static int may_be(const char *mode, int status) {
    if (strcmp(mode, "stream") == 0) {
        return status == 0 || status == 11;
    }
    return status == 0 || status == 3;
}

int main(int count, char **given) {
    if (count != 6) {
        return 2;
    }
    char *program = given[1], *mode = given[2], *sample = given[3], *file = given[5];
    static char put[4096], out[ROOM];
    snprintf(put, sizeof put, "put:%s", strcmp(mode, "stream") == 0 ? sample : file);
    char *check[] = {program, "check", file, NULL};
    char *proto = strcmp(mode, "proto") == 0 ? file : sample;
    char *ask = strcmp(mode, "stream") == 0 ? "ask:10000" : "ask:2";
    char *once[] = {program, "once", "--name", "gfs", "--proto", proto, put, ask, NULL};
    size_t len;
    char *input = strcmp(mode, "stream") == 0 ? file : given[4];
    int status = run(strcmp(mode, "check") == 0 ? check : once, input, out, &len);
    size_t place = take_replies(out, len);
    long code = number_behind(out + place, len - place, " code ");
    seen(1000000 + status * 1000 + (status == 3 ? code : 0));
    if (!may_be(mode, status) || (status == 3 && (code < 1 || code > 62))) {
        fprintf(stderr, "status %d, %.*s\n", status, (int)(len - place < 300 ? len - place : 300), out + place);
        wrong("a status or a line that may not be");
    }
    return 0;
}
