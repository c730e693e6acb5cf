/*
 * recipes_shared.c: the recipes of docs/PANEL.md for several processes, tried: a state in shared memory with a mutex, and panels that die.
 *
 *   recipes_shared      prints the end of recipes.txt. POSIX.
 */
#define _POSIX_C_SOURCE 200809L
#include <errno.h>
#include <pthread.h>
#include <signal.h>
#include <stdio.h>
#include <stdlib.h>
#include <string.h>
#include <sys/mman.h>
#include <sys/wait.h>
#include <time.h>
#include <unistd.h>

#include "noodlefen.h"

/* The state, and the process that has opened transaction t, 0 for none. */
struct settings {
    pid_t panel[NOODLEFEN_TRANSACTIONS + 1];
    uint8_t state[NOODLEFEN_STATE_BYTES];
};

/* What the processes share. A call is made on a copy of the current settings, which becomes the current one when the call is over:
 * a panel that dies in the middle of a call has changed nothing. */
struct shared {
    pthread_mutex_t mutex;
    volatile int current;
    struct settings versions[2];
};

static struct shared *shared;

static void fail(const char *what)
{
    printf("FAILED: %s\n", what);
    fflush(stdout);
    _exit(1);
}

static void must(noodlefen_answer answer, const char *what)
{
    if (!noodlefen_granted(answer))
        fail(what);
}

/* --- Maps a file into memory that all panels share. */
static void share(int file)
{
    if (ftruncate(file, sizeof *shared) != 0)
        fail("ftruncate");
    shared = (struct shared *)mmap(NULL, sizeof *shared, PROT_READ | PROT_WRITE, MAP_SHARED, file, 0);
    if (shared == MAP_FAILED)
        fail("mmap");
}

/* --- Makes the mutex, which tells when its owner has died (robust): one process alone, once, before the others come. */
static void make_mutex(void)
{
    pthread_mutexattr_t attributes;
    int error = pthread_mutexattr_init(&attributes);
    if (error == 0)
        error = pthread_mutexattr_setpshared(&attributes, PTHREAD_PROCESS_SHARED);
    if (error == 0)
        error = pthread_mutexattr_setrobust(&attributes, PTHREAD_MUTEX_ROBUST);
    if (error == 0)
        error = pthread_mutex_init(&shared->mutex, &attributes);
    if (error != 0)
        fail("mutex");
}

/* --- Before a call: the mutex, and the settings to make it on. */
static struct settings *enter(void)
{
    int error = pthread_mutex_lock(&shared->mutex);
    if (error == EOWNERDEAD) /* a panel died in the middle of a call; the current settings are whole */
        error = pthread_mutex_consistent(&shared->mutex);
    if (error != 0)
        fail("mutex");
    struct settings *spare = &shared->versions[1 - shared->current];
    *spare = shared->versions[shared->current];
    return spare;
}

/* --- Behind it. */
static noodlefen_answer leave(noodlefen_answer answer)
{
    shared->current = 1 - shared->current;
    pthread_mutex_unlock(&shared->mutex);
    return answer;
}

/* --- Opens a transaction with a number that nobody has, and answers it; 0 if all sixteen are open. */
static uint32_t open_transaction(void)
{
    uint32_t t = 1;
    struct settings *settings = enter();
    while (t <= NOODLEFEN_TRANSACTIONS && !noodlefen_granted(noodlefen_begin(settings->state, NOODLEFEN_STATE_BYTES, t)))
        t++;
    if (t <= NOODLEFEN_TRANSACTIONS)
        settings->panel[t] = getpid();
    leave(0);
    return t <= NOODLEFEN_TRANSACTIONS ? t : 0;
}

static noodlefen_answer commit(uint32_t t)
{
    struct settings *settings = enter();
    settings->panel[t] = 0;
    return leave(noodlefen_commit(settings->state, NOODLEFEN_STATE_BYTES, t));
}

/* --- Ends the transactions of panels that are no more. A watchdog calls it, or whoever waits. */
static void end_orphans(void)
{
    struct settings *settings = enter();
    for (uint32_t t = 1; t <= NOODLEFEN_TRANSACTIONS; t++) {
        if (settings->panel[t] != 0 && kill(settings->panel[t], 0) != 0 && errno == ESRCH) {
            noodlefen_abort(settings->state, NOODLEFEN_STATE_BYTES, t);
            settings->panel[t] = 0;
        }
    }
    leave(0);
}

static noodlefen_answer update(uint32_t t, noodlefen_node n, const char *text)
{
    return leave(noodlefen_update(enter()->state, NOODLEFEN_STATE_BYTES, t, n, (const uint8_t *)text, strlen(text)));
}

/* The committed content of n as a number, from a copy: no lock is taken. */
static long committed_number(noodlefen_node n)
{
    static uint8_t copy[NOODLEFEN_STATE_BYTES];
    char content[NOODLEFEN_CONTENT_BYTES + 1] = "";
    memcpy(copy, enter()->state, sizeof copy);
    leave(0);
    for (uint32_t t = 1; t <= NOODLEFEN_TRANSACTIONS; t++)
        noodlefen_abort(copy, sizeof copy, t);
    must(noodlefen_begin(copy, sizeof copy, 1), "begin on a copy");
    must(noodlefen_read(copy, sizeof copy, 1, n, (uint8_t *)content, NOODLEFEN_CONTENT_BYTES), "read of a copy");
    return strtol(content, NULL, 10);
}

static void sleep_a_little(void)
{
    struct timespec moment = {0, 200000};
    nanosleep(&moment, NULL);
}

/* --- Adds 1 to a number: read from a copy, which takes no lock, and updated before anybody else makes a call. */
static noodlefen_answer add_one(uint32_t t, noodlefen_node n)
{
    static uint8_t copy[NOODLEFEN_STATE_BYTES];
    char content[NOODLEFEN_CONTENT_BYTES + 1] = "";
    struct settings *settings = enter();
    memcpy(copy, settings->state, sizeof copy);
    noodlefen_answer answer = noodlefen_read(copy, sizeof copy, t, n, (uint8_t *)content, NOODLEFEN_CONTENT_BYTES);
    if (noodlefen_granted(answer)) {
        snprintf(content, sizeof content, "%ld", strtol(content, NULL, 10) + 1);
        answer = noodlefen_update(settings->state, NOODLEFEN_STATE_BYTES, t, n, (const uint8_t *)content, strlen(content));
    }
    return leave(answer);
}

/* A panel: adds 1 to a number of the settings, again and again. */
static void count(noodlefen_node n, int times)
{
    for (int i = 0; i < times; i++) {
        uint32_t t = open_transaction();
        if (t == 0)
            fail("all transactions are open");
        noodlefen_answer answer = add_one(t, n);
        for (int tries = 0; noodlefen_waits(answer) && tries < 100000; tries++) {
            sleep_a_little();
            answer = add_one(t, n);
        }
        must(answer, "update");
        must(commit(t), "commit");
    }
}

/* Runs a panel in a process of its own. */
static pid_t start_panel(void (*panel)(void))
{
    fflush(stdout);
    pid_t child = fork();
    if (child < 0)
        fail("fork");
    if (child == 0) {
        panel();
        _exit(0);
    }
    return child;
}

static void end_of(pid_t child)
{
    int status;
    if (waitpid(child, &status, 0) != child || !WIFEXITED(status) || WEXITSTATUS(status) != 0)
        fail("a panel");
}

static void counting_panel(void)
{
    count(2, 25);
}

static void four_panels(void)
{
    pid_t children[4];
    printf("four panels in processes of their own, each adds 1 to a number 25 times\n");
    for (size_t i = 0; i < 4; i++)
        children[i] = start_panel(counting_panel);
    for (size_t i = 0; i < 4; i++)
        end_of(children[i]);
    printf("  %ld\n", committed_number(2));
}

/* Dies between two calls, with its transaction open. */
static void dies_between_calls(void)
{
    must(update(open_transaction(), 2, "-1"), "update");
}

/* Dies in the middle of a call: some bytes of the copy are changed, and the mutex is not given back. */
static void dies_in_a_call(void)
{
    memset(enter()->state, 0, NOODLEFEN_STATE_BYTES / 2);
}

static void deaths(void)
{
    printf("panels that die\n");
    end_of(start_panel(dies_between_calls));
    uint32_t t = open_transaction();
    printf("  its transaction open: %s\n", noodlefen_waits(update(t, 2, "0")) ? "waits" : "does not wait");
    end_orphans();
    printf("  its transaction ended: %s\n", noodlefen_granted(update(t, 2, "0")) ? "granted" : "not granted");
    end_of(start_panel(dies_in_a_call));
    printf("  in the middle of a call: %s\n", noodlefen_granted(update(t, 2, "0")) ? "granted" : "not granted");
    must(leave(noodlefen_abort(enter()->state, NOODLEFEN_STATE_BYTES, t)), "abort");
    printf("  %ld\n", committed_number(2));
}

int main(void)
{
    FILE *file = tmpfile(); /* real panels open a file that they agree on, below /dev/shm say */
    static const uint8_t xml[] = "<a>0</a>";
    if (file == NULL)
        fail("tmpfile");
    share(fileno(file));
    make_mutex();
    must(leave(noodlefen_start(enter()->state, NOODLEFEN_STATE_BYTES)), "start");
    must(leave(noodlefen_load(enter()->state, NOODLEFEN_STATE_BYTES, xml, sizeof xml - 1)), "load");
    four_panels();
    deaths();
    return 0;
}
