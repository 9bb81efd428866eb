/* Two simulated disks behind one adapter. Disk 1 is busy once, and its command is sent again; one command fails for good, and
 * disk 0 is frozen for a round. Each step is a line on standard output; the trace goes to the file that the argument names. */
#include "camxpt.h"

#include <stdio.h>
#include <stdlib.h>

enum { DRIVER = 7, NORMAL = 1152, URGENT = 128, RETRIES = 3 };

/* A request of the driver's: its CCB is submitted with a pointer to it, which comes back with each command. */
struct request {
    uint32_t disk, priority;
    bool is_invalid;
};

/* Ends the program if a call wasn't done. */
static void want(camxpt_code code, const char *call)
{
    if (code == CAMXPT_OK)
        return;
    fprintf(stderr, "driver: %s: %s\n", call, camxpt_code_name(code));
    exit(EXIT_FAILURE);
}

/* What a disk answers: disk 1 is busy the first time, and no disk takes an invalid request. */
static uint8_t serve(const camxpt_command *command)
{
    static int asked;
    const struct request *request = (const struct request *)command->user;

    if (command->device == 1 && asked++ == 0)
        return CAM_BUSY;
    return request->is_invalid ? CAM_REQ_INVALID : CAM_REQ_CMP;
}

static void submit(camxpt *x, struct request *request)
{
    uint32_t ccb = 0;

    want(camxpt_submit(x, DRIVER, request->disk, request->priority, RETRIES, false, false, request, &ccb), "submit");
    printf("submit ccb %u to disk %u at priority %u\n", ccb, request->disk, request->priority);
}

/* Sends what the lane may send, and hands in each result. */
static void run_lane(camxpt *x, uint32_t lane)
{
    camxpt_command command = {0, 0, 0, 0, 0, NULL};
    camxpt_completion done = {0, 0, NULL};
    camxpt_code code;

    while ((code = camxpt_send_next(x, lane, &command)) == CAMXPT_OK) {
        const uint8_t status = serve(&command);

        printf("  send ccb %u to disk %u, attempt %u\n", command.ccb, command.device, command.attempt);
        want(camxpt_done(x, command.ccb, status, 0, NULL, 0, &done), "done");
        printf("  done with status %02x: class %u, value %02x\n", status, done.class_, done.value);
    }
    if (!CAMXPT_IS_IDLE(code))
        want(code, "send_next");
    printf("  %s\n", camxpt_code_name(code));
}

/* Decides on each command that failed, as its class asks. */
static void recover(camxpt *x)
{
    camxpt_case found = {0, 0, NULL};
    camxpt_code code;

    while ((code = camxpt_next_case(x, &found)) == CAMXPT_OK) {
        const bool again = CAMXPT_ASKS_REQUEUE(found.class_);

        printf("  %s ccb %u\n", again ? "requeue" : "finish", found.ccb);
        want(again ? camxpt_requeue(x, found.ccb) : camxpt_finish(x, found.ccb), "decision");
    }
    if (code != CAMXPT_NONE)
        want(code, "next_case");
}

/* Writes the trace to the file. */
static void save(camxpt *x, const char *path)
{
    size_t needed = 0;
    char *text = NULL;
    FILE *file;

    if (camxpt_trace(x, NULL, 0, &needed) != CAMXPT_E_SPACE || (text = (char *)malloc(needed)) == NULL)
        exit(EXIT_FAILURE);
    want(camxpt_trace(x, text, needed, &needed), "trace");
    file = fopen(path, "wb");
    if (file == NULL || fwrite(text, 1, needed, file) != needed || fclose(file) != 0) {
        perror(path);
        exit(EXIT_FAILURE);
    }
    free(text);
    printf("trace of %zu bytes\n", needed);
}

int main(int argc, char **argv)
{
    static const uint32_t adapters[] = {2}, lanes[] = {0};
    static const camxpt_device disks[] = {{0, 0, 0, 1}, {0, 1, 0, 1}};
    static const camxpt_limits limits = {16, 64, 64, 1024};
    static struct request requests[] = {
        {0, NORMAL, false}, {1, NORMAL, false}, {0, NORMAL, false}, {1, NORMAL, false}, {0, URGENT, true},
    };
    camxpt x = CAMXPT_INIT;
    camxpt_counts counts = {0, 0, 0, 0, 0, 0, 0, 0};
    uint32_t round = 1, ccb = 0;

    if (argc != 2) {
        fprintf(stderr, "usage: driver TRACE\n");
        return 2;
    }
    want(camxpt_open(&x, adapters, 1, disks, 2, lanes, 1, &limits), "open");
    for (size_t k = 0; k < sizeof requests / sizeof *requests; k++)
        submit(&x, &requests[k]);
    want(camxpt_freeze_dev(&x, 0, 1), "freeze_dev");
    do {
        printf("round %u\n", round);
        run_lane(&x, 0);
        recover(&x);
        if (round == 1)
            want(camxpt_release_dev(&x, 0, 1), "release_dev");
        want(camxpt_look(&x, &counts), "look");
        want(camxpt_tick(&x, &round), "tick");
    } while (counts.waiting > 0);
    want(camxpt_look(&x, &counts), "look");
    printf("%u events in %u rounds\n", counts.length, counts.round);
    printf("submit to disk 9: %s\n", camxpt_code_name(camxpt_submit(&x, DRIVER, 9, NORMAL, 0, false, false, NULL, &ccb)));
    save(&x, argv[1]);
    want(camxpt_close(&x), "close");
    printf("tick after close: %s\n", camxpt_code_name(camxpt_tick(&x, &round)));
    return EXIT_SUCCESS;
}
