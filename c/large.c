/* What is as large as it may be: a trace of 60,000 events, and recordings of 100,000 requests and of 1,048,576, the most that
 * there may be. The three texts are written to the files that the arguments name. `runs/c` holds what `camxpt check` counts in
 * them against the sums that are worked out here by hand. */
#include "camxpt.h"

#include <pthread.h>
#include <stdio.h>
#include <stdlib.h>

enum { NORMAL = 1152, EVENTS = 60000, ROUNDS = 512, OPENINGS = 8, MANY = 100000, MOST = 1048576, WIDE = 32, STACK = 128 * 1024 };

static const uint32_t adapters[] = {OPENINGS}, lanes[] = {0};
static const camxpt_device disks[] = {{0, 0, 0, OPENINGS}, {0, 1, 0, OPENINGS}};
static const camxpt_limits limits = CAMXPT_MOST;
static const camxpt_weight weights[] = CAMXPT_STANDARD_WEIGHTS;
static const camxpt_adapter wide[] = {{WIDE, CAMXPT_NO_LINK}};
static const camxpt_device wide_disks[] = {{0, 0, 0, WIDE / 2}, {0, 1, 0, WIDE / 2}};
static const camxpt_config config = {weights, 5, NULL, 0, wide, 1, wide_disks, 2, lanes, 1};

static void fail(const char *what, camxpt_code code)
{
    fprintf(stderr, "large: %s: %s\n", what, camxpt_code_name(code));
    exit(EXIT_FAILURE);
}

static void want(camxpt_code code, camxpt_code wanted, const char *call)
{
    if (code != wanted)
        fail(call, code);
}

static void save(const char *path, const char *text, size_t size)
{
    FILE *file = fopen(path, "wb");

    if (file == NULL || fwrite(text, 1, size, file) != size || fclose(file) != 0)
        exit(EXIT_FAILURE);
}

static char *room_for(size_t size)
{
    char *text = (char *)malloc(size);

    if (text == NULL)
        exit(EXIT_FAILURE);
    return text;
}

/* Sends what can be sent, and completes it. Each event is counted. */
static size_t run_lane(camxpt *x)
{
    camxpt_command command = {0, 0, 0, 0, 0, NULL};
    camxpt_completion done = {0, 0, NULL};
    size_t events = 0;

    while (camxpt_send_next(x, 0, &command) == CAMXPT_OK) {
        want(camxpt_done(x, command.ccb, CAM_REQ_CMP, 0, NULL, 0, &done), CAMXPT_OK, "done");
        events += 2;
    }
    return events;
}

/* In each odd round come twice as many commands as the adapter takes, so half of them wait for one round: of 4,096 commands
 * 2,048 wait, each for a round of weight 1. What lacks to 60,000 events are adjustments in the last round. */
static void write_trace(const char *path)
{
    camxpt x = CAMXPT_INIT;
    camxpt_counts counts = {0, 0, 0, 0, 0, 0, 0, 0};
    size_t events = 0, size = 0;
    uint32_t ccb = 0, round = 1;
    char *text;

    want(camxpt_open(&x, adapters, 1, disks, 2, lanes, 1, &limits), CAMXPT_OK, "open");
    for (;; events++) {
        for (uint32_t k = 0; round % 2 == 1 && k < 2 * OPENINGS; k++, events++)
            want(camxpt_submit(&x, 0, k % 2, NORMAL, 0, false, false, NULL, &ccb), CAMXPT_OK, "submit");
        events += run_lane(&x);
        if (round == ROUNDS)
            break;
        want(camxpt_tick(&x, &round), CAMXPT_OK, "tick");
    }
    for (; events < EVENTS; events++)
        want(camxpt_adjust(&x, (uint32_t)(events % 2), 1 + (uint32_t)(events % 255)), CAMXPT_OK, "adjust");
    want(camxpt_look(&x, &counts), CAMXPT_OK, "look");
    if (counts.length != EVENTS || counts.waiting != 0)
        fail("the events", CAMXPT_OK);
    want(camxpt_trace(&x, NULL, 0, &size), CAMXPT_E_SPACE, "the trace's length");
    text = room_for(size);
    want(camxpt_trace(&x, text, size, &size), CAMXPT_OK, "trace");
    save(path, text, size);
    free(text);
    want(camxpt_close(&x), CAMXPT_OK, "close");
}

/* In each round as many requests come as the adapter takes. Each is started a round later, so it waits for one round of
 * weight 1. One request too many is refused. */
static void write_recording(const char *path, size_t count)
{
    camxpt_request *requests = (camxpt_request *)calloc(count + 1, sizeof *requests);
    const uint32_t rounds = (uint32_t)((count + WIDE - 1) / WIDE) + 1;
    size_t size = 0, wrong = 0;
    char *text;

    if (requests == NULL)
        exit(EXIT_FAILURE);
    for (size_t k = 0; k <= count; k++) {
        const uint32_t arrival = (uint32_t)(k / WIDE) + 1;
        const camxpt_request one = {(uint32_t)(k % 2), NORMAL,               arrival,       CAMXPT_NO_LAST,
                                    arrival + 1,       (uint8_t)(k % 256), CAMXPT_NO_DONE};
        requests[k] = one;
    }
    if (count == MOST)
        want(camxpt_recording(&config, NULL, rounds + 1, NULL, 0, requests, count + 1, NULL, 0, &size, &wrong),
             CAMXPT_E_REQUESTS, "one request too many");
    want(camxpt_recording(&config, NULL, rounds, NULL, 0, requests, count, NULL, 0, &size, &wrong), CAMXPT_E_SPACE,
         "the recording's length");
    text = room_for(size);
    want(camxpt_recording(&config, NULL, rounds, NULL, 0, requests, count, text, size, &size, &wrong), CAMXPT_OK, "recording");
    save(path, text, size);
    free(text);
    free(requests);
}

static void *write_all(void *paths)
{
    char **const to = (char **)paths;

    write_trace(to[0]);
    write_recording(to[1], MANY);
    write_recording(to[2], MOST);
    return NULL;
}

/* All of it is done with the stack that the header asks for. */
int main(int argc, char **argv)
{
    pthread_attr_t attributes;
    pthread_t thread;

    if (argc != 4)
        return 2;
    if (pthread_attr_init(&attributes) != 0 || pthread_attr_setstacksize(&attributes, STACK) != 0 ||
        pthread_create(&thread, &attributes, write_all, argv + 1) != 0 || pthread_join(thread, NULL) != 0)
        return EXIT_FAILURE;
    return EXIT_SUCCESS;
}
