/* Clients of live sessions, as many threads over one pair of pipes, each with one transfer at a time.

   cc -O2 -pthread -o live_client live_client.c
   live_client THREADS TRANSFERS ACCOUNTS HOW COMMAND..

   Starts the command, which is to serve a session for each thread, and fills the accounts. Then each thread makes so many transfers of 1 to 10, each from one
   account to another, in six lines: begin, two gets, two puts and commit. HOW says how many lines are on their way at once:

     one   a line is sent once the one before is answered
     two   begin and the gets go together; then the puts, which follow from what these gave, and commit
     all   all six go together; the puts are of numbers at random

   A transfer that is aborted is tried again, by `retry`. At the end it closes the input, and writes one line: seconds from the start of the command to its end, and
   of the transfers alone; the processor's microseconds of the command and of the clients; tries; the greatest memory of the command; and, where HOW is `one`, the
   median and the 99th of a hundred, in nanoseconds, of operations and of commits.

   One more thread reads the answers. It wakes a thread once all are there that this one waits for. */
#define _GNU_SOURCE
#include <linux/futex.h>
#include <pthread.h>
#include <stdatomic.h>
#include <stdint.h>
#include <stdio.h>
#include <stdlib.h>
#include <string.h>
#include <sys/resource.h>
#include <sys/syscall.h>
#include <sys/wait.h>
#include <time.h>
#include <unistd.h>

enum { THREADS = 64, ANSWERS = 8, LINES = 512, PIECE = 1 << 16, BALANCE = 1000, TIMES = 1 << 18 };

/* An answer: the first letter of its word, and its last number. */
struct answer {
    char word;
    uint64_t value;
};

/* Nanoseconds, of so many at most. */
struct times {
    uint32_t *items;
    long count;
};

/* A session: answers that came, of so many that its thread waits for. */
struct session {
    struct answer answers[ANSWERS];
    atomic_uint came, wanted;
    pthread_t thread;
    uint64_t numbers;
    long tries;
    struct times ops, commits;
} __attribute__((aligned(128)));

static struct session sessions[THREADS + 1];
static int threads, transfers, accounts, requests, replies;
static char how;

static void stop(const char *why) {
    fprintf(stderr, "live_client: %s\n", why);
    exit(1);
}

static uint64_t now(void) {
    struct timespec at;
    clock_gettime(CLOCK_MONOTONIC, &at);
    return at.tv_sec * 1000000000ull + at.tv_nsec;
}

static uint64_t number(struct session *own, uint64_t below) {
    own->numbers ^= own->numbers << 13;
    own->numbers ^= own->numbers >> 7;
    own->numbers ^= own->numbers << 17;
    return own->numbers % below;
}

/* Requests and answers. */

static void send_text(const char *text, size_t size) {
    if (write(requests, text, size) != (ssize_t)size) stop("a request wasn't taken");
}

static void await(struct session *own, unsigned count) {
    atomic_store(&own->wanted, count);
    for (unsigned came; (came = atomic_load(&own->came)) < count;) syscall(SYS_futex, &own->came, FUTEX_WAIT_PRIVATE, came, 0, 0, 0);
    atomic_store(&own->came, 0);
    for (unsigned nth = 0; nth < count; nth++)
        if (!strchr("bgpcae", own->answers[nth].word) && own->answers[nth].word != 'r') stop("an answer of another kind");
}

/* Sends these lines, and waits for as many answers. */
static void ask(struct session *own, const char *text, size_t size, unsigned count) {
    send_text(text, size);
    await(own, count);
}

static void take_line(const char *line, const char *end) {
    char *rest;
    unsigned long at = strtoul(line + 1, &rest, 10);
    if (line[0] != '[' || at < 1 || at > (unsigned long)threads || end - rest < 4) stop("a line of another kind");
    const char *last = end - 1;
    while (last[-1] >= '0' && last[-1] <= '9') last--;
    struct session *own = &sessions[at];
    unsigned came = atomic_load(&own->came);
    if (came == ANSWERS) stop("too many answers");
    own->answers[came] = (struct answer){rest[2], strtoull(last, 0, 10)};
    atomic_store(&own->came, came + 1);
    if (came + 1 == atomic_load(&own->wanted)) syscall(SYS_futex, &own->came, FUTEX_WAKE_PRIVATE, 1, 0, 0, 0);
}

static void *read_answers(void *none) {
    static char piece[PIECE];
    size_t kept = 0;
    for (;;) {
        ssize_t size = read(replies, piece + kept, sizeof piece - kept);
        if (size <= 0) return none;
        char *line = piece, *end = piece + kept + size, *feed;
        while ((feed = memchr(line, '\n', end - line))) {
            take_line(line, feed);
            line = feed + 1;
        }
        kept = end - line;
        memmove(piece, line, kept);
    }
}

/* Transfers. */

struct transfer {
    int session;
    uint64_t source, target, amount;
};

/* One line and its answer, whose time is kept. */
static struct answer ask_one(struct session *own, const char *text, size_t size, struct times *times) {
    uint64_t began = now();
    ask(own, text, size, 1);
    if (times && times->count < TIMES) times->items[times->count++] = now() - began;
    return own->answers[0];
}

static int line_by_line(struct session *own, struct transfer it, const char *begin) {
    char text[LINES];
    struct answer got[2];
    uint64_t keys[2] = {it.source, it.target};
    ask_one(own, text, sprintf(text, "%d %s\n", it.session, begin), 0);
    for (int nth = 0; nth < 2; nth++) {
        got[nth] = ask_one(own, text, sprintf(text, "%d get %lu\n", it.session, keys[nth]), &own->ops);
        if (got[nth].word != 'g') return 0;
    }
    if (got[0].value >= it.amount) {
        uint64_t values[2] = {got[0].value - it.amount, got[1].value + it.amount};
        for (int nth = 0; nth < 2; nth++)
            if (ask_one(own, text, sprintf(text, "%d put %lu %lu\n", it.session, keys[nth], values[nth]), &own->ops).word != 'p') return 0;
    }
    return ask_one(own, text, sprintf(text, "%d commit\n", it.session), &own->commits).word == 'c';
}

static int in_two_pieces(struct session *own, struct transfer it, const char *begin) {
    char text[LINES];
    int s = it.session;
    ask(own, text, sprintf(text, "%d %s\n%d get %lu\n%d get %lu\n", s, begin, s, it.source, s, it.target), 3);
    if (own->answers[1].word != 'g' || own->answers[2].word != 'g') return 0;
    uint64_t source = own->answers[1].value, target = own->answers[2].value;
    if (source < it.amount) {
        ask(own, text, sprintf(text, "%d commit\n", s), 1);
        return own->answers[0].word == 'c';
    }
    int size = sprintf(text, "%d put %lu %lu\n%d put %lu %lu\n%d commit\n", s, it.source, source - it.amount, s, it.target, target + it.amount, s);
    ask(own, text, size, 3);
    return own->answers[2].word == 'c';
}

static int at_once(struct session *own, struct transfer it, const char *begin) {
    char text[LINES];
    int s = it.session;
    int size = sprintf(text, "%d %s\n%d get %lu\n%d get %lu\n", s, begin, s, it.source, s, it.target);
    size += sprintf(text + size, "%d put %lu %lu\n%d put %lu %lu\n%d commit\n", s, it.source, it.amount, s, it.target, it.amount, s);
    ask(own, text, size, 6);
    return own->answers[5].word == 'c';
}

static void *make_transfers(void *told) {
    struct session *own = told;
    for (int nth = 0; nth < transfers; nth++) {
        struct transfer it = {own - sessions, number(own, accounts), number(own, accounts - 1), 1 + number(own, 10)};
        if (it.target >= it.source) it.target++;
        const char *begin = "begin";
        for (;; begin = "retry") {
            own->tries++;
            if (how == 'o' ? line_by_line(own, it, begin) : how == 't' ? in_two_pieces(own, it, begin) : at_once(own, it, begin)) break;
        }
    }
    return 0;
}

static void fill(void) {
    char text[LINES];
    struct session *own = &sessions[1];
    ask(own, text, sprintf(text, "1 begin\n"), 1);
    for (int account = 0; account < accounts;) {
        size_t size = 0;
        unsigned count = 0;
        for (; count < ANSWERS && account < accounts; count++) size += sprintf(text + size, "1 put %d %d\n", account++, BALANCE);
        ask(own, text, size, count);
    }
    ask(own, text, sprintf(text, "1 commit\n"), 1);
    if (own->answers[0].word != 'c') stop("the accounts weren't filled");
}

/* The whole. */

static pid_t start(char **command) {
    int in[2], out[2];
    if (pipe(in) || pipe(out)) stop("no pipe");
    pid_t child = fork();
    if (child < 0) stop("no process");
    if (!child) {
        dup2(in[0], 0);
        dup2(out[1], 1);
        close(in[0]), close(in[1]), close(out[0]), close(out[1]);
        execvp(command[0], command);
        _exit(127);
    }
    close(in[0]), close(out[1]);
    requests = in[1], replies = out[0];
    return child;
}

static long micros(struct rusage *used) {
    return 1000000 * (used->ru_utime.tv_sec + used->ru_stime.tv_sec) + used->ru_utime.tv_usec + used->ru_stime.tv_usec;
}

static int is_less(const void *one, const void *other) {
    uint32_t a = *(const uint32_t *)one, b = *(const uint32_t *)other;
    return a < b ? -1 : a > b;
}

/* The times of all threads, of operations or of commits. */
static void tell_times(const char *name, int is_commit) {
    long count = 0;
    uint32_t *all = malloc((size_t)threads * TIMES * sizeof *all);
    for (int at = 1; at <= threads; at++) {
        struct times *own = is_commit ? &sessions[at].commits : &sessions[at].ops;
        memcpy(all + count, own->items, own->count * sizeof *all);
        count += own->count;
    }
    if (!count) return;
    qsort(all, count, sizeof *all, is_less);
    printf(",\"%s\":[%u,%u]", name, all[count / 2], all[count - 1 - count / 100]);
}

static void begin_session(int at) {
    struct session *own = &sessions[at];
    own->numbers = 88172645463325252ull + 7919ull * at;
    for (int warm = 0; warm < 20; warm++) number(own, 2);
    own->ops.items = malloc(TIMES * sizeof(uint32_t));
    own->commits.items = malloc(TIMES * sizeof(uint32_t));
}

int main(int count, char **words) {
    if (count < 6) stop("usage: live_client THREADS TRANSFERS ACCOUNTS one|two|all COMMAND..");
    threads = atoi(words[1]), transfers = atoi(words[2]), accounts = atoi(words[3]), how = words[4][0];
    if (threads < 1 || threads > THREADS || accounts < 2 || !strchr("ota", how)) stop("numbers out of range");
    uint64_t began = now();
    pid_t child = start(words + 5);
    pthread_t reader;
    pthread_create(&reader, 0, read_answers, 0);
    for (int at = 1; at <= threads; at++) begin_session(at);
    fill();
    uint64_t filled = now();
    for (int at = 1; at <= threads; at++) pthread_create(&sessions[at].thread, 0, make_transfers, &sessions[at]);
    for (int at = 1; at <= threads; at++) pthread_join(sessions[at].thread, 0);
    uint64_t done = now();
    close(requests);
    int status;
    struct rusage used, own;
    wait4(child, &status, 0, &used);
    uint64_t ended = now();
    pthread_join(reader, 0);
    getrusage(RUSAGE_SELF, &own);
    if (status) stop("the command didn't end well");
    long tries = 0;
    for (int at = 1; at <= threads; at++) tries += sessions[at].tries;
    printf("{\"seconds\":%.6f,\"busy\":%.6f,\"store\":%ld,\"clients\":%ld,\"tries\":%ld,\"memory\":%ld", (ended - began) / 1e9, (done - filled) / 1e9, micros(&used), micros(&own), tries, 1024 * used.ru_maxrss);
    tell_times("operation", 0);
    tell_times("commit", 1);
    printf("}\n");
    return 0;
}
