/* Four workers copy a file block by block. Each block is a CCB, and each worker has a lane of the one adapter. The handle is
 * under a lock of the program's own. Who finds nothing to send waits on a condition, or opens the next round if nothing is in
 * flight. Each seventh block is busy at its first try. Then the copy is compared with the file, and the trace is written. */
#include "camxpt.h"

#include <fcntl.h>
#include <pthread.h>
#include <stdio.h>
#include <stdlib.h>
#include <string.h>
#include <unistd.h>

enum { WORKERS = 4, DISKS = 3, BLOCKS = 256, BLOCK = 512, DRIVER = 1, NORMAL = 1152, RETRIES = 2 };

/* What the workers share: the handle, under the lock, and how many blocks aren't copied yet. */
struct crew {
    pthread_mutex_t lock;
    pthread_cond_t changed;
    camxpt x;
    uint32_t left;
    int from, to;
};

struct worker {
    struct crew *crew;
    uint32_t lane;
    pthread_t thread;
};

static void die(const char *what, const char *why)
{
    fprintf(stderr, "threaded: %s: %s\n", what, why);
    exit(EXIT_FAILURE);
}

static void want(camxpt_code code, const char *call)
{
    if (code != CAMXPT_OK)
        die(call, camxpt_code_name(code));
}

/* Copies a block, without the lock. Answers a CAM status. */
static uint8_t copy_block(const struct crew *crew, uint32_t block, uint32_t attempt)
{
    const off_t at = (off_t)block * BLOCK;
    char bytes[BLOCK];

    if (block % 7 == 3 && attempt == 0)
        return CAM_BUSY;
    if (pread(crew->from, bytes, BLOCK, at) != BLOCK || pwrite(crew->to, bytes, BLOCK, at) != BLOCK)
        return CAM_REQ_CMP_ERR;
    return CAM_REQ_CMP;
}

/* Hands in a result, and decides on it. */
static void hand_in(struct crew *crew, uint32_t ccb, uint8_t status)
{
    camxpt_completion done = {0, 0, NULL};

    want(camxpt_done(&crew->x, ccb, status, 0, NULL, 0, &done), "done");
    if (CAMXPT_ASKS_REQUEUE(done.class_))
        want(camxpt_requeue(&crew->x, ccb), "requeue");
    else if (done.class_ == CAMXPT_COMPLETE)
        crew->left--;
    else
        die("a block", "not copied");
}

/* The lane has nothing to send: opens the next round, or waits if something is in flight. */
static void rest(struct crew *crew)
{
    camxpt_counts counts = {0, 0, 0, 0, 0, 0, 0, 0};
    uint32_t round = 0;

    want(camxpt_look(&crew->x, &counts), "look");
    if (counts.in_flight > 0) {
        pthread_cond_wait(&crew->changed, &crew->lock);
        return;
    }
    want(camxpt_tick(&crew->x, &round), "tick");
    pthread_cond_broadcast(&crew->changed);
}

static void *work(void *given)
{
    const struct worker *worker = (const struct worker *)given;
    struct crew *crew = worker->crew;
    camxpt_command command = {0, 0, 0, 0, 0, NULL};

    pthread_mutex_lock(&crew->lock);
    while (crew->left > 0) {
        const camxpt_code code = camxpt_send_next(&crew->x, worker->lane, &command);
        uint8_t status;

        if (CAMXPT_IS_IDLE(code)) {
            rest(crew);
            continue;
        }
        want(code, "send_next");
        pthread_mutex_unlock(&crew->lock);
        status = copy_block(crew, command.ccb, command.attempt);
        pthread_mutex_lock(&crew->lock);
        hand_in(crew, command.ccb, status);
        pthread_cond_broadcast(&crew->changed);
    }
    pthread_mutex_unlock(&crew->lock);
    return NULL;
}

/* Writes the trace to the file. */
static void save(camxpt *x, const char *path)
{
    size_t needed = 0;
    char *text = NULL;
    FILE *file;

    if (camxpt_trace(x, NULL, 0, &needed) != CAMXPT_E_SPACE || (text = (char *)malloc(needed)) == NULL)
        die("trace", "no memory");
    want(camxpt_trace(x, text, needed, &needed), "trace");
    file = fopen(path, "wb");
    if (file == NULL || fwrite(text, 1, needed, file) != needed || fclose(file) != 0)
        die(path, "not written");
    free(text);
}

int main(int argc, char **argv)
{
    static const uint32_t adapters[] = {16}, lanes[WORKERS] = {0, 0, 0, 0};
    static const camxpt_device disks[DISKS] = {{0, 0, 0, 8}, {0, 1, 0, 8}, {0, 2, 0, 8}};
    static const camxpt_limits limits = CAMXPT_MOST;
    static struct crew crew = {PTHREAD_MUTEX_INITIALIZER, PTHREAD_COND_INITIALIZER, CAMXPT_INIT, BLOCKS, -1, -1};
    struct worker workers[WORKERS];
    char wanted[BLOCK], copied[BLOCK];

    if (argc != 4) {
        fprintf(stderr, "usage: threaded FROM TO TRACE\n");
        return 2;
    }
    crew.from = open(argv[1], O_RDONLY);
    crew.to = open(argv[2], O_RDWR | O_CREAT | O_TRUNC, 0600);
    if (crew.from < 0 || crew.to < 0)
        die("open", "no such file");
    want(camxpt_open(&crew.x, adapters, 1, disks, DISKS, lanes, WORKERS, &limits), "open");
    for (uint32_t block = 0, ccb = 0; block < BLOCKS; block++)
        want(camxpt_submit(&crew.x, DRIVER, block % DISKS, NORMAL - block % 5, RETRIES, false, false, NULL, &ccb), "submit");
    for (uint32_t k = 0; k < WORKERS; k++) {
        workers[k].crew = &crew;
        workers[k].lane = k;
        if (pthread_create(&workers[k].thread, NULL, work, &workers[k]) != 0)
            die("a thread", "not started");
    }
    for (uint32_t k = 0; k < WORKERS; k++)
        pthread_join(workers[k].thread, NULL);
    for (uint32_t block = 0; block < BLOCKS; block++) {
        const off_t at = (off_t)block * BLOCK;

        if (pread(crew.from, wanted, BLOCK, at) != BLOCK || pread(crew.to, copied, BLOCK, at) != BLOCK ||
            memcmp(wanted, copied, BLOCK) != 0)
            die("a block", "differs");
    }
    save(&crew.x, argv[3]);
    want(camxpt_close(&crew.x), "close");
    printf("%d blocks copied by %d workers, and the same\n", BLOCKS, WORKERS);
    return EXIT_SUCCESS;
}
