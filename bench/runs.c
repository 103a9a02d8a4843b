/* Runs a program again and again for the scripts of this folder, each time as a process of its own.
 *
 *     runs PROGRAM [LIBRARY]      requests come on standard input, answers go to standard output
 *
 * A request is a count and so many parts, each a length and bytes; numbers have 32 bits. The parts are the name and the text of a file
 * to write first, or twice nothing; what the library is to refuse (REFUSE of refuse.c), or nothing to run without it; and the words.
 *
 * An answer is six numbers and the bytes that the program wrote: its status, or less than 0 for a signal; processor time in
 * microseconds; peak memory in kilobytes; how many bytes refuse.c wrote to its mark; and the lengths of the two outputs that follow.
 */
#define _GNU_SOURCE
#include <fcntl.h>
#include <signal.h>
#include <stdint.h>
#include <stdio.h>
#include <stdlib.h>
#include <string.h>
#include <sys/mman.h>
#include <sys/resource.h>
#include <sys/wait.h>
#include <unistd.h>

enum { FILE_NAME, FILE_TEXT, REFUSE, WORDS, MOST_PARTS = 16, PATIENCE = 60 };

struct part {
    uint32_t length;
    char *bytes;
};

static volatile pid_t child;
/* What the program writes: its outputs, and the mark of refuse.c. */
static int streams[3];

static void give_up(const char *what) {
    perror(what);
    exit(1);
}

static void end_child(int signal) {
    (void)signal;
    if (child > 0) kill(child, SIGKILL);
}

static void read_part(struct part *part) {
    if (fread(&part->length, 4, 1, stdin) != 1) give_up("runs: a length");
    part->bytes = realloc(part->bytes, part->length + 1);
    if (!part->bytes) give_up("runs: memory");
    if (fread(part->bytes, 1, part->length, stdin) != part->length) give_up("runs: a part");
    part->bytes[part->length] = 0;
}

static void write_file(const struct part *name, const struct part *text) {
    int file = open(name->bytes, O_WRONLY | O_CREAT | O_TRUNC, 0644);
    if (file < 0 || write(file, text->bytes, text->length) != (ssize_t)text->length || close(file)) give_up(name->bytes);
}

/* The environment of the program: this one, and what refuse.c reads. */
static char **environment(const char *library, const char *refuse) {
    static char preload[4096], asked[64], mark[32];
    static char *more[1024];
    int count = 0;
    for (char **it = environ; *it && count < 1000; it++) more[count++] = *it;
    snprintf(preload, sizeof preload, "LD_PRELOAD=%s", library);
    snprintf(asked, sizeof asked, "REFUSE=%s", refuse);
    snprintf(mark, sizeof mark, "REFUSED=%d", streams[2]);
    more[count++] = preload;
    more[count++] = asked;
    more[count++] = mark;
    more[count] = NULL;
    return more;
}

static void start(const char *program, char **words, char **with) {
    child = vfork();
    if (child) return;
    dup2(streams[0], 1);
    dup2(streams[1], 2);
    execve(program, words, with);
    _exit(127);
}

static void answer(int status, const struct rusage *used) {
    uint32_t numbers[6];
    off_t lengths[3];
    for (int k = 0; k < 3; k++) lengths[k] = lseek(streams[k], 0, SEEK_CUR);
    numbers[0] = WIFEXITED(status) ? WEXITSTATUS(status) : -WTERMSIG(status);
    numbers[1] = (used->ru_utime.tv_sec + used->ru_stime.tv_sec) * 1000000 + used->ru_utime.tv_usec + used->ru_stime.tv_usec;
    numbers[2] = used->ru_maxrss;
    numbers[3] = lengths[2];
    numbers[4] = lengths[0];
    numbers[5] = lengths[1];
    fwrite(numbers, 4, 6, stdout);
    for (int k = 0; k < 2; k++) {
        static char *kept;
        kept = realloc(kept, lengths[k] + 1);
        if (!kept || pread(streams[k], kept, lengths[k], 0) != lengths[k]) give_up("runs: an output");
        fwrite(kept, 1, lengths[k], stdout);
    }
    if (fflush(stdout)) give_up("runs: an answer");
}

int main(int count, char **given) {
    static struct part parts[MOST_PARTS];
    if (count < 2) return fputs("runs PROGRAM [LIBRARY]\n", stderr), 1;
    for (int k = 0; k < 3; k++) streams[k] = memfd_create("runs", k < 2 ? MFD_CLOEXEC : 0);
    /* The program reads nothing. Its requests stay with this process. */
    int requests = fcntl(0, F_DUPFD_CLOEXEC, 3), nothing = open("/dev/null", O_RDONLY);
    if (requests < 0 || nothing < 0 || dup2(nothing, 0) < 0 || !(stdin = fdopen(requests, "r"))) give_up("runs");
    signal(SIGALRM, end_child);
    for (uint32_t size; fread(&size, 4, 1, stdin) == 1;) {
        char *words[MOST_PARTS + 1] = {given[1]};
        struct rusage used;
        int status;
        if (size < WORDS || size > MOST_PARTS) give_up("runs: a request");
        for (uint32_t k = 0; k < size; k++) read_part(&parts[k]);
        for (uint32_t k = WORDS; k < size; k++) words[k - WORDS + 1] = parts[k].bytes;
        if (parts[FILE_NAME].length) write_file(&parts[FILE_NAME], &parts[FILE_TEXT]);
        for (int k = 0; k < 3; k++) {
            if (ftruncate(streams[k], 0) || lseek(streams[k], 0, SEEK_SET)) give_up("runs: a stream");
        }
        start(given[1], words, parts[REFUSE].length && count > 2 ? environment(given[2], parts[REFUSE].bytes) : environ);
        alarm(PATIENCE);
        if (child < 0 || wait4(child, &status, 0, &used) != child) give_up("runs: the program");
        child = 0;
        alarm(0);
        answer(status, &used);
    }
    return 0;
}
