/* A run that is longer than its transports: two disks serve 60 requests, and a transport takes 16 rounds here. Each seventh
 * try is busy and is made again, and disk 1 is frozen while the first transport ends. All tries are kept in an array, and
 * written as one recording to the file that the argument names. */
#include "camxpt.h"

#include <stdio.h>
#include <stdlib.h>

enum { DRIVER = 3, NORMAL = 1152, URGENT = 128, RETRIES = 7, REQUESTS = 60, TRIES = 256, FREEZE = 14, RELEASE = 20 };

static const uint32_t lanes[] = {0};
static const camxpt_weight weights[] = CAMXPT_STANDARD_WEIGHTS;
static const camxpt_adapter adapters[] = {{2, CAMXPT_NO_LINK}};
static const camxpt_device disks[] = {{0, 0, 0, 1}, {0, 1, 0, 1}};
static const camxpt_config config = {weights, 5, NULL, 0, adapters, 1, disks, 2, lanes, 1};
static const camxpt_limits limits = {TRIES, 16, TRIES, 1024};

/* The transport, and the handle of the next one. */
static camxpt handles[2] = {CAMXPT_INIT, CAMXPT_INIT}, *x = &handles[0], *next = &handles[1];
/* The tries, and the requests, each with the try that it is at: a CCB has a pointer to its request, over all transports. */
static camxpt_request tries[TRIES];
static size_t count;
static struct request {
    uint32_t disk, priority;
    size_t at;
} requests[REQUESTS];
/* The round, counted over all transports, and how many of them there were. */
static uint32_t now = 1, transports = 1;

static void want(camxpt_code code, const char *call)
{
    if (code == CAMXPT_OK)
        return;
    fprintf(stderr, "longrun: %s in round %u: %s\n", call, now, camxpt_code_name(code));
    exit(EXIT_FAILURE);
}

/* A request has one try more, which waits from the round `arrival` on. */
static void add_try(struct request *request, uint32_t arrival)
{
    const camxpt_request one = {request->disk, request->priority, arrival, CAMXPT_NO_LAST, 0, DRIVER, CAMXPT_NO_DONE};

    request->at = count;
    tries[count++] = one;
}

static void submit(uint32_t number)
{
    struct request *request = &requests[number];
    uint32_t ccb = 0;

    request->disk = number % 2;
    request->priority = number % 5 == 0 ? URGENT : NORMAL;
    want(camxpt_submit(x, DRIVER, request->disk, request->priority, RETRIES, false, false, request, &ccb), "submit");
    add_try(request, now);
}

/* Sends what can be sent. A try that is busy could have been started up to this round, and its CCB is tried again. */
static void run_lane(void)
{
    static unsigned served;
    camxpt_command command = {0, 0, 0, 0, 0, NULL};
    camxpt_completion done = {0, 0, NULL};

    while (camxpt_send_next(x, 0, &command) == CAMXPT_OK) {
        struct request *request = (struct request *)command.user;
        tries[request->at].start = now;
        want(camxpt_done(x, command.ccb, ++served % 7 == 0 ? CAM_BUSY : CAM_REQ_CMP, 0, NULL, 0, &done), "done");
        if (done.class_ == CAMXPT_COMPLETE)
            continue;
        tries[request->at].last = now;
        want(camxpt_requeue(x, command.ccb), "requeue");
        add_try(request, now + 1);
    }
}

/* Opens the next round in a fresh transport, in which the CCBs have other numbers and the same pointers. */
static void carry(void)
{
    static uint32_t numbers[TRIES];
    camxpt *const ended = x;
    size_t carried = 0;

    want(camxpt_carry(x, next, &limits, numbers, TRIES, &carried), "carry");
    want(camxpt_close(ended), "close");
    x = next;
    next = ended;
    transports++;
}

/* Writes the recording. A disk that is frozen takes nothing. */
static void save(const char *path)
{
    static const camxpt_cap frozen = {CAMXPT_CAP_DEVICE, 1, FREEZE, RELEASE - 1, 0};
    size_t room = 0, wrong = 0;
    camxpt_code code = camxpt_recording(&config, NULL, now, &frozen, 1, tries, count, NULL, 0, &room, &wrong);
    char *text = code == CAMXPT_E_SPACE ? (char *)malloc(room) : NULL;
    FILE *file = fopen(path, "wb");

    want(camxpt_recording(&config, NULL, now, &frozen, 1, tries, count, text, room, &room, &wrong), "recording");
    if (file == NULL || fwrite(text, 1, room, file) != room || fclose(file) != 0)
        exit(EXIT_FAILURE);
    free(text);
}

int main(int argc, char **argv)
{
    camxpt_counts counts = {0, 0, 0, 0, 0, 0, 0, 0};
    uint32_t submitted = 0, round = 0;

    if (argc != 2)
        return 2;
    for (want(camxpt_open_with(x, &config, &limits), "open_with");; now++) {
        if (now == FREEZE || now == RELEASE)
            want(now == FREEZE ? camxpt_freeze_dev(x, 1, 1) : camxpt_release_dev(x, 1, 1), "freeze");
        for (int k = 0; k < 3 && submitted < REQUESTS; k++)
            submit(submitted++);
        run_lane();
        want(camxpt_look(x, &counts), "look");
        if (submitted == REQUESTS && counts.waiting == 0)
            break;
        if (counts.round == limits.rounds)
            carry();
        else
            want(camxpt_tick(x, &round), "tick");
    }
    printf("%zu tries in %u rounds of %u transports\n", count, now, transports);
    save(argv[1]);
    want(camxpt_close(x), "close");
    return EXIT_SUCCESS;
}
