/* What each call answers to misuse: each code and each refusal is reached, what a refused call gives stays as it was, and each
 * request for memory is refused in turn. Link with --wrap for malloc, realloc and free. */
#include "raw.h"

#include <stdio.h>
#include <stdlib.h>
#include <string.h>

void *__real_malloc(size_t size);
void *__real_realloc(void *old, size_t size);
void __real_free(void *old);

/* How many requests are granted yet (none are refused if it is negative), how many were made, and how many blocks are there. */
static long granted = -1, requests, blocks;

static bool refuses(void)
{
    requests++;
    if (granted == 0)
        return true;
    if (granted > 0)
        granted--;
    return false;
}

void *__wrap_malloc(size_t size)
{
    void *made = refuses() ? NULL : __real_malloc(size);

    blocks += made != NULL;
    return made;
}

void *__wrap_realloc(void *old, size_t size)
{
    void *made = refuses() ? NULL : __real_realloc(old, size);

    blocks += old == NULL && made != NULL;
    return made;
}

void __wrap_free(void *old)
{
    blocks -= old != NULL;
    __real_free(old);
}

enum { LEAST = -13, MOST = 71 };

static unsigned checks;
static bool reached[MOST - LEAST + 1];

static void due(camxpt_code code, camxpt_code wanted, int line)
{
    if (code != wanted) {
        fprintf(stderr, "misuse.c:%d: %s, due %s\n", line, camxpt_code_name(code), camxpt_code_name(wanted));
        exit(EXIT_FAILURE);
    }
    reached[wanted - LEAST] = true;
    checks++;
}

static void holds(bool fact, int line)
{
    if (!fact) {
        fprintf(stderr, "misuse.c:%d: doesn't hold\n", line);
        exit(EXIT_FAILURE);
    }
    checks++;
}

#define DUE(call, wanted) due((call), (wanted), __LINE__)
#define HOLDS(fact) holds((fact), __LINE__)

static const uint32_t one_adapter[] = {2}, two_adapters[] = {2, 2}, one_lane[] = {0}, two_lanes[] = {0, 1};
static const camxpt_device two_disks[] = {{0, 0, 0, 1}, {0, 1, 0, 1}}, apart[] = {{0, 0, 0, 2}, {1, 0, 0, 2}};
static const camxpt_limits most = CAMXPT_MOST;

static camxpt_code open_small(camxpt *x, const camxpt_limits *limits)
{
    return camxpt_open(x, one_adapter, 1, two_disks, 2, one_lane, 1, limits);
}

static camxpt_code submit(camxpt *x, uint32_t disk, uint32_t *ccb)
{
    return camxpt_submit(x, 1, disk, 1152, 3, false, false, NULL, ccb);
}

/* Handles that are closed, copied, moved or none. */
static void handles(void)
{
    camxpt x = CAMXPT_INIT, copy, junk;
    camxpt_raw raw = {&junk, 12345};
    uint32_t n = 77;

    memset(&junk, 0xdb, sizeof junk);
    DUE(camxpt_tick(NULL, &n), CAMXPT_E_NULL);
    DUE(camxpt_tick(&x, &n), CAMXPT_E_CLOSED);
    DUE(camxpt_tick(&junk, &n), CAMXPT_E_COPIED);
    DUE(camxpt_raw_tick(&raw, &n), CAMXPT_E_CLOSED);
    DUE(camxpt_close(&x), CAMXPT_E_CLOSED);
    DUE(open_small(&x, &most), CAMXPT_OK);
    DUE(open_small(&x, &most), CAMXPT_E_OPEN);
    DUE(camxpt_raw_open(&x.raw_, one_adapter, 1, two_disks, 2, one_lane, 1, &most), CAMXPT_E_OPEN);
    copy = x;
    DUE(camxpt_tick(&copy, &n), CAMXPT_E_COPIED);
    DUE(open_small(&copy, &most), CAMXPT_E_COPIED);
    DUE(camxpt_close(&copy), CAMXPT_E_COPIED);
    DUE(camxpt_tick(&x, NULL), CAMXPT_E_NULL);
    HOLDS(n == 77);
    DUE(camxpt_close(&x), CAMXPT_OK);
    DUE(camxpt_close(&x), CAMXPT_E_CLOSED);
    HOLDS(blocks == 0);
}

/* Each call on a closed handle. */
static void closed(void)
{
    camxpt x = CAMXPT_INIT, y = CAMXPT_INIT;
    camxpt_command command = {1, 2, 3, 4, 5, NULL};
    camxpt_completion done = {1, 2, NULL};
    camxpt_case found = {1, 2, NULL};
    camxpt_counts counts = {1, 2, 3, 4, 5, 6, 7, 8};
    camxpt_device_counts device = {1, 2, 3, 4, 5, 6, 7};
    camxpt_event event;
    char text[4] = "abc";
    size_t size = 9;
    uint32_t n = 77;

    memset(&event, 0, sizeof event);
    event.kind = CAMXPT_TICK;
    DUE(submit(&x, 0, &n), CAMXPT_E_CLOSED);
    DUE(camxpt_send_next(&x, 0, &command), CAMXPT_E_CLOSED);
    DUE(camxpt_done(&x, 0, CAM_REQ_CMP, 0, NULL, 0, &done), CAMXPT_E_CLOSED);
    DUE(camxpt_requeue(&x, 0), CAMXPT_E_CLOSED);
    DUE(camxpt_finish(&x, 0), CAMXPT_E_CLOSED);
    DUE(camxpt_freeze_dev(&x, 0, 1), CAMXPT_E_CLOSED);
    DUE(camxpt_release_dev(&x, 0, 1), CAMXPT_E_CLOSED);
    DUE(camxpt_freeze_sim(&x, 0, 1), CAMXPT_E_CLOSED);
    DUE(camxpt_release_sim(&x, 0), CAMXPT_E_CLOSED);
    DUE(camxpt_adjust(&x, 0, 1), CAMXPT_E_CLOSED);
    DUE(camxpt_has_head(&x, 0), CAMXPT_E_CLOSED);
    DUE(camxpt_next_case(&x, &found), CAMXPT_E_CLOSED);
    DUE(camxpt_case_at(&x, 0, &found), CAMXPT_E_CLOSED);
    DUE(camxpt_look(&x, &counts), CAMXPT_E_CLOSED);
    DUE(camxpt_device_state(&x, 0, &device), CAMXPT_E_CLOSED);
    DUE(camxpt_take(&x, &event, &n, &done), CAMXPT_E_CLOSED);
    DUE(camxpt_refusal(&x, &event), CAMXPT_E_CLOSED);
    DUE(camxpt_events(&x, 0, &event, 1, &size), CAMXPT_E_CLOSED);
    DUE(camxpt_trace(&x, text, sizeof text, &size), CAMXPT_E_CLOSED);
    DUE(camxpt_carry(&x, &y, &most, &n, 1, &size), CAMXPT_E_CLOSED);
    /* the library's own tests, behind those of the header */
    DUE(camxpt_raw_submit(&x.raw_, 1, 0, 0, 0, false, false, 0, &n), CAMXPT_E_CLOSED);
    DUE(camxpt_raw_send_next(&x.raw_, 0, &command), CAMXPT_E_CLOSED);
    DUE(camxpt_raw_done(&x.raw_, 0, 1, 0, (const uint8_t *)text, 0, &done), CAMXPT_E_CLOSED);
    DUE(camxpt_raw_requeue(&x.raw_, 0), CAMXPT_E_CLOSED);
    DUE(camxpt_raw_has_head(&x.raw_, 0), CAMXPT_E_CLOSED);
    DUE(camxpt_raw_case_at(&x.raw_, 0, &found), CAMXPT_E_CLOSED);
    DUE(camxpt_raw_look(&x.raw_, &counts), CAMXPT_E_CLOSED);
    DUE(camxpt_raw_device_state(&x.raw_, 0, &device), CAMXPT_E_CLOSED);
    DUE(camxpt_raw_take(&x.raw_, &event, &n, &done), CAMXPT_E_CLOSED);
    DUE(camxpt_raw_refusal(&x.raw_, &event), CAMXPT_E_CLOSED);
    DUE(camxpt_raw_events(&x.raw_, 0, &event, 1, &size), CAMXPT_E_CLOSED);
    DUE(camxpt_raw_trace(&x.raw_, (uint8_t *)text, sizeof text, &size), CAMXPT_E_CLOSED);
    DUE(camxpt_raw_carry(&x.raw_, &y.raw_, &most, &n, 1, &size), CAMXPT_E_CLOSED);
    event.kind = 0;
    DUE(camxpt_raw_take(&x.raw_, &event, &n, &done), CAMXPT_E_CLOSED);
    DUE(camxpt_raw_refusal(&x.raw_, &event), CAMXPT_E_CLOSED);
    DUE(camxpt_raw_close(&x.raw_), CAMXPT_E_CLOSED);
    HOLDS(command.ccb == 1 && command.attempt == 2 && command.device == 3 && command.priority == 4 && command.driver == 5);
    HOLDS(done.class_ == 1 && done.value == 2 && found.ccb == 1 && found.class_ == 2 && n == 77);
    HOLDS(counts.length == 1 && counts.round == 2 && counts.in_flight == 3 && counts.cases == 4 && counts.stays == 6 &&
          counts.alive == 7 && counts.heads == 8 && device.queued == 1 && device.errors == 7);
    HOLDS(size == 9 && strcmp(text, "abc") == 0 && blocks == 0);
}

/* Null in the place of each pointer of an open handle's calls. */
static void nulls(void)
{
    camxpt x = CAMXPT_INIT, y = CAMXPT_INIT;
    camxpt_event event;
    size_t size = 9;
    uint32_t n = 0;

    DUE(camxpt_open(&x, NULL, 1, two_disks, 2, one_lane, 1, &most), CAMXPT_E_NULL);
    DUE(camxpt_open(&x, one_adapter, 1, NULL, 2, one_lane, 1, &most), CAMXPT_E_NULL);
    DUE(camxpt_open(&x, one_adapter, 1, two_disks, 2, NULL, 1, &most), CAMXPT_E_NULL);
    DUE(open_small(&x, NULL), CAMXPT_E_NULL);
    DUE(camxpt_open_with(&x, NULL, &most), CAMXPT_E_NULL);
    DUE(open_small(&x, &most), CAMXPT_OK);
    DUE(submit(&x, 0, NULL), CAMXPT_E_NULL);
    DUE(camxpt_send_next(&x, 0, NULL), CAMXPT_E_NULL);
    DUE(camxpt_done(&x, 0, CAM_REQ_CMP, 0, NULL, 0, NULL), CAMXPT_E_NULL);
    DUE(camxpt_next_case(&x, NULL), CAMXPT_E_NULL);
    DUE(camxpt_case_at(&x, 0, NULL), CAMXPT_E_NULL);
    DUE(camxpt_look(&x, NULL), CAMXPT_E_NULL);
    DUE(camxpt_device_state(&x, 0, NULL), CAMXPT_E_NULL);
    DUE(camxpt_take(&x, NULL, &n, NULL), CAMXPT_E_NULL);
    DUE(camxpt_refusal(&x, NULL), CAMXPT_E_NULL);
    DUE(camxpt_events(&x, 0, NULL, 1, &size), CAMXPT_E_NULL);
    DUE(camxpt_events(&x, 0, &event, 1, NULL), CAMXPT_E_NULL);
    DUE(camxpt_trace(&x, NULL, 3, &size), CAMXPT_E_NULL);
    DUE(camxpt_trace(&x, &event, 3, NULL), CAMXPT_E_NULL);
    DUE(camxpt_carry(NULL, &y, &most, &n, 1, &size), CAMXPT_E_NULL);
    DUE(camxpt_carry(&x, NULL, &most, &n, 1, &size), CAMXPT_E_NULL);
    DUE(camxpt_carry(&x, &y, NULL, &n, 1, &size), CAMXPT_E_NULL);
    DUE(camxpt_carry(&x, &y, &most, NULL, 1, &size), CAMXPT_E_NULL);
    DUE(camxpt_carry(&x, &y, &most, &n, 1, NULL), CAMXPT_E_NULL);
    DUE(camxpt_events(&x, 0, NULL, 0, &size), CAMXPT_OK);
    HOLDS(size == 0);
    DUE(camxpt_close(&x), CAMXPT_OK);
}

/* Each rule that a configuration may break, and each limit out of its range. */
static void faults(void)
{
    static const camxpt_weight weights[] = CAMXPT_STANDARD_WEIGHTS, low[] = {{1278, 1}};
    static const camxpt_adapter on_link[] = {{2, 1}, {2, CAMXPT_NO_LINK}}, on_none[] = {{2, CAMXPT_NO_LINK}};
    static const uint32_t links[] = {255}, nine[] = {1, 1, 1, 1, 1, 1, 1, 1, 1}, none[] = {0};
    static const camxpt_device far[] = {{0, 0, 16384, 1}}, twice[] = {{0, 3, 4, 1}, {0, 3, 4, 2}}, away[] = {{1, 0, 0, 1}};
    /* No device after the 32nd is read: so many would lie beyond the stack. */
    const size_t too_many = 100000000;
    camxpt_device all[32];
    camxpt x = CAMXPT_INIT;
    camxpt_config c = {weights, 5, links, 1, on_link, 2, two_disks, 2, one_lane, 1};
    size_t needed = 0, wrong = 0;

    DUE(camxpt_open(&x, NULL, 0, NULL, 0, NULL, 0, &most), CAMXPT_FAULT_NO_ADAPTERS);
    DUE(camxpt_open(&x, nine, 9, NULL, 0, NULL, 0, &most), CAMXPT_FAULT_TOO_MANY);
    DUE(camxpt_open(&x, none, 1, NULL, 0, NULL, 0, &most), CAMXPT_FAULT_BAD_OPENINGS);
    DUE(camxpt_open(&x, one_adapter, 1, away, 1, NULL, 0, &most), CAMXPT_FAULT_NO_ADAPTER);
    DUE(camxpt_open(&x, one_adapter, 1, far, 1, NULL, 0, &most), CAMXPT_FAULT_BAD_ADDRESS);
    DUE(camxpt_open(&x, one_adapter, 1, twice, 2, NULL, 0, &most), CAMXPT_FAULT_DOUBLE_DEVICE);
    DUE(camxpt_open_with(&x, &c, &most), CAMXPT_FAULT_NO_LINK);
    c.weights = low;
    c.weight_count = 1;
    DUE(camxpt_open_with(&x, &c, &most), CAMXPT_FAULT_BAD_WEIGHT);
    c.weight_count = 0;
    c.weights = NULL;
    DUE(camxpt_open_with(&x, &c, &most), CAMXPT_FAULT_BAD_WEIGHT);
    for (int k = 0; k < 8; k++) {
        uint32_t bad[4] = {1024, 512, 4096, 65535};
        camxpt_limits limits;

        bad[k / 2] = k % 2 == 0 ? 0 : bad[k / 2] + 1;
        limits.ccbs = bad[0];
        limits.rounds = bad[1];
        limits.stays = bad[2];
        limits.events = bad[3];
        DUE(open_small(&x, &limits), CAMXPT_E_LIMIT);
        DUE(camxpt_open_with(&x, &c, &limits), CAMXPT_E_LIMIT);
    }
    HOLDS(blocks == 0);
    c.weights = weights;
    c.weight_count = 5;
    c.links = NULL;
    c.link_count = 0;
    c.adapters = on_none;
    c.adapter_count = 1;
    for (int k = 0; k < 32; k++)
        all[k] = (camxpt_device){0, (uint16_t)k, 0, 1};
    c.devices = all;
    c.device_count = too_many;
    DUE(camxpt_open(&x, one_adapter, 1, all, too_many, one_lane, 1, &most), CAMXPT_FAULT_TOO_MANY);
    DUE(camxpt_open_with(&x, &c, &most), CAMXPT_FAULT_TOO_MANY);
    DUE(camxpt_recording(&c, NULL, 1, NULL, 0, NULL, 0, NULL, 0, &needed, &wrong), CAMXPT_FAULT_TOO_MANY);
    c.device_count = 32;
    DUE(camxpt_open_with(&x, &c, &most), CAMXPT_OK);
    DUE(camxpt_close(&x), CAMXPT_OK);
    c.devices = two_disks;
    c.device_count = 2;
    DUE(camxpt_open_with(&x, &c, &most), CAMXPT_OK);
    DUE(camxpt_open_with(&x, &c, &most), CAMXPT_E_OPEN);
    DUE(camxpt_raw_open_with(&x.raw_, weights, 5, links, 0, on_none, 1, two_disks, 2, one_lane, 1, &most), CAMXPT_E_OPEN);
    DUE(camxpt_close(&x), CAMXPT_OK);
}

/* The refusals of the calls, in a transport of 2 CCBs, 3 rounds, 4 stays and 24 events. Nothing asks for memory. */
static void refusals(void)
{
    static const camxpt_limits small = {2, 3, 4, 24};
    static const uint8_t sense[64] = {0x70, 0, 6};
    camxpt x = CAMXPT_INIT;
    camxpt_command command = {9, 9, 9, 9, 9, NULL};
    camxpt_completion done = {9, 9, NULL};
    camxpt_case found = {9, 9, NULL};
    camxpt_counts counts = {9, 9, 9, 9, 9, 9, 9, 9};
    uint32_t n = 77;
    long before;

    DUE(open_small(&x, &small), CAMXPT_OK);
    before = requests;
    DUE(camxpt_has_head(&x, 0), CAMXPT_NONE);
    DUE(camxpt_next_case(&x, &found), CAMXPT_NONE);
    DUE(camxpt_send_next(&x, 0, &command), CAMXPT_IDLE_EMPTY);
    DUE(camxpt_send_next(&x, 1, &command), CAMXPT_NO_LANE);
    DUE(submit(&x, 2, &n), CAMXPT_NO_DEVICE);
    DUE(camxpt_submit(&x, 1, 0, 1280, 0, false, false, NULL, &n), CAMXPT_BAD_PRIORITY);
    DUE(camxpt_submit(&x, 1, 0, 0, 8, false, false, NULL, &n), CAMXPT_BAD_RETRIES);
    DUE(camxpt_done(&x, 0, CAM_REQ_CMP, 0, NULL, 0, &done), CAMXPT_NO_CCB);
    DUE(camxpt_requeue(&x, 0), CAMXPT_NO_CCB);
    DUE(camxpt_finish(&x, 0), CAMXPT_NO_CCB);
    DUE(camxpt_freeze_dev(&x, 2, 1), CAMXPT_NO_DEVICE);
    DUE(camxpt_freeze_dev(&x, 0, 0), CAMXPT_BAD_COUNT);
    DUE(camxpt_release_dev(&x, 0, 65536), CAMXPT_BAD_COUNT);
    DUE(camxpt_release_dev(&x, 0, 1), CAMXPT_RELEASE_TOO_MANY);
    DUE(camxpt_freeze_sim(&x, 1, 1), CAMXPT_NO_ADAPTER);
    DUE(camxpt_release_sim(&x, 1), CAMXPT_NO_ADAPTER);
    DUE(camxpt_release_sim(&x, 0), CAMXPT_RELEASE_TOO_MANY);
    DUE(camxpt_adjust(&x, 0, 256), CAMXPT_BAD_OPENINGS);
    HOLDS(n == 77 && command.ccb == 9 && command.driver == 9 && done.class_ == 9 && found.ccb == 9);
    DUE(camxpt_look(&x, &counts), CAMXPT_OK);
    HOLDS(counts.length == 0 && counts.round == 1 && counts.in_flight == 0 && counts.cases == 0 && counts.waiting == 0);
    DUE(camxpt_submit(&x, 5, 0, 1152, 1, true, false, NULL, &n), CAMXPT_OK);
    HOLDS(n == 0);
    DUE(submit(&x, 1, &n), CAMXPT_OK);
    HOLDS(n == 1);
    DUE(submit(&x, 1, &n), CAMXPT_CCB_FULL);
    DUE(camxpt_look(&x, &counts), CAMXPT_OK);
    HOLDS(counts.alive == small.ccbs && counts.stays == 2);
    DUE(camxpt_freeze_dev(&x, 0, 65535), CAMXPT_OK);
    DUE(camxpt_freeze_dev(&x, 0, 1), CAMXPT_FREEZE_OVERFLOW);
    DUE(camxpt_freeze_dev(&x, 1, 1), CAMXPT_OK);
    DUE(camxpt_send_next(&x, 0, &command), CAMXPT_IDLE_DEVICES_HELD);
    DUE(camxpt_release_dev(&x, 0, 65535), CAMXPT_OK);
    DUE(camxpt_freeze_sim(&x, 0, 1), CAMXPT_OK);
    DUE(camxpt_send_next(&x, 0, &command), CAMXPT_IDLE_ADAPTER_FROZEN);
    DUE(camxpt_release_sim(&x, 0), CAMXPT_OK);
    DUE(camxpt_has_head(&x, 0), CAMXPT_OK);
    DUE(camxpt_send_next(&x, 0, &command), CAMXPT_OK);
    HOLDS(command.ccb == 0 && command.attempt == 0 && command.device == 0 && command.priority == 1152 && command.driver == 5);
    DUE(camxpt_tick(&x, &n), CAMXPT_IN_FLIGHT);
    DUE(camxpt_done(&x, 0, 0, 0, NULL, 0, &done), CAMXPT_BAD_STATUS);
    DUE(camxpt_done(&x, 1, CAM_REQ_CMP, 0, NULL, 0, &done), CAMXPT_NOT_IN_FLIGHT);
    DUE(camxpt_requeue(&x, 1), CAMXPT_NOT_RECOVERING);
    DUE(camxpt_release_dev(&x, 1, 1), CAMXPT_OK);
    DUE(camxpt_send_next(&x, 0, &command), CAMXPT_OK);
    HOLDS(command.ccb == 1 && command.device == 1 && command.driver == 1);
    DUE(camxpt_send_next(&x, 0, &command), CAMXPT_IDLE_EMPTY);
    /* CCB 0 has sense data of a unit attention, and asks to be sent again. */
    DUE(camxpt_done(&x, 0, CAM_SCSI_STATUS_ERROR, 2, sense, sizeof sense, &done), CAMXPT_OK);
    HOLDS(done.class_ == CAMXPT_COUNTED_REQUEUE && done.value == (CAM_SCSI_STATUS_ERROR | CAM_DEV_QFRZN | CAM_AUTOSNS_VALID));
    DUE(camxpt_next_case(&x, &found), CAMXPT_OK);
    HOLDS(found.ccb == 0 && found.class_ == CAMXPT_COUNTED_REQUEUE);
    DUE(camxpt_finish(&x, 0), CAMXPT_WRONG_DECISION);
    DUE(camxpt_requeue(&x, 0), CAMXPT_OK);
    DUE(camxpt_release_dev(&x, 0, 1), CAMXPT_OK);
    /* CCB 1 has failed for good. */
    DUE(camxpt_done(&x, 1, CAM_REQ_CMP_ERR, 0, NULL, 0, &done), CAMXPT_OK);
    HOLDS(done.class_ == CAMXPT_OTHER && done.value == (CAM_REQ_CMP_ERR | CAM_DEV_QFRZN));
    DUE(camxpt_requeue(&x, 1), CAMXPT_WRONG_DECISION);
    DUE(camxpt_finish(&x, 1), CAMXPT_OK);
    DUE(submit(&x, 1, &n), CAMXPT_OK);
    DUE(camxpt_look(&x, &counts), CAMXPT_OK);
    HOLDS(counts.length == 16 && counts.round == 1 && counts.in_flight == 0 && counts.cases == 0 && counts.waiting == 2);
    DUE(camxpt_tick(&x, &n), CAMXPT_OK);
    HOLDS(n == 2);
    DUE(camxpt_send_next(&x, 0, &command), CAMXPT_OK);
    HOLDS(command.ccb == 0 && command.attempt == 1);
    DUE(camxpt_done(&x, 0, CAM_REQ_CMP, 0, NULL, 0, &done), CAMXPT_OK);
    HOLDS(done.class_ == CAMXPT_COMPLETE && done.value == CAM_REQ_CMP);
    DUE(submit(&x, 0, &n), CAMXPT_STAYS_FULL);
    DUE(camxpt_look(&x, &counts), CAMXPT_OK);
    HOLDS(counts.alive == 1 && counts.stays == small.stays);
    DUE(camxpt_tick(&x, &n), CAMXPT_OK);
    DUE(camxpt_tick(&x, &n), CAMXPT_ROUNDS_FULL);
    HOLDS(n == 3);
    for (int k = 0; k < 4; k++)
        DUE(camxpt_adjust(&x, 1, 2), CAMXPT_OK);
    DUE(camxpt_adjust(&x, 1, 2), CAMXPT_HISTORY_FULL);
    DUE(camxpt_look(&x, &counts), CAMXPT_OK);
    HOLDS(counts.length == small.events && counts.round == small.rounds);
    DUE(camxpt_tick(&x, &n), CAMXPT_HISTORY_FULL);
    HOLDS(requests == before);
    DUE(camxpt_close(&x), CAMXPT_OK);
    HOLDS(blocks == 0);
}

static camxpt_event event_of(uint32_t kind)
{
    camxpt_event event;

    memset(&event, 0, sizeof event);
    event.kind = kind;
    return event;
}

static camxpt_event send_of(uint32_t lane, uint32_t ccb)
{
    camxpt_event event = event_of(CAMXPT_SEND);

    event.lane = lane;
    event.ccb = ccb;
    return event;
}

/* What camxpt_take answers to an event, and camxpt_refusal before it. */
static camxpt_code take(camxpt *x, const camxpt_event *event)
{
    const camxpt_code got = camxpt_refusal(x, event);

    DUE(camxpt_take(x, event, NULL, NULL), got);
    return got;
}

static camxpt_code take_send(camxpt *x, uint32_t lane, uint32_t ccb)
{
    const camxpt_event event = send_of(lane, ccb);

    return take(x, &event);
}

/* The refusals that a send has. */
static void sends(void)
{
    camxpt x = CAMXPT_INIT;
    camxpt_command command = {0, 0, 0, 0, 0, NULL};
    camxpt_event event = event_of(12);
    uint32_t n = 0;

    DUE(camxpt_open(&x, two_adapters, 2, apart, 2, two_lanes, 2, &most), CAMXPT_OK);
    DUE(take(&x, &event), CAMXPT_E_KIND);
    DUE(submit(&x, 0, &n), CAMXPT_OK);
    DUE(submit(&x, 0, &n), CAMXPT_OK);
    DUE(submit(&x, 0, &n), CAMXPT_OK);
    DUE(take_send(&x, 2, 0), CAMXPT_NO_LANE);
    DUE(take_send(&x, 0, 3), CAMXPT_NO_CCB);
    DUE(take_send(&x, 1, 0), CAMXPT_WRONG_LANE);
    DUE(take_send(&x, 0, 1), CAMXPT_NOT_HEAD);
    DUE(camxpt_freeze_dev(&x, 0, 1), CAMXPT_OK);
    DUE(take_send(&x, 0, 0), CAMXPT_DEVICE_FROZEN);
    DUE(camxpt_release_dev(&x, 0, 1), CAMXPT_OK);
    DUE(camxpt_freeze_sim(&x, 0, 1), CAMXPT_OK);
    DUE(take_send(&x, 0, 0), CAMXPT_ADAPTER_FROZEN);
    DUE(camxpt_release_sim(&x, 0), CAMXPT_OK);
    DUE(take_send(&x, 0, 0), CAMXPT_OK);
    DUE(take_send(&x, 0, 0), CAMXPT_NOT_QUEUED);
    DUE(camxpt_send_next(&x, 0, &command), CAMXPT_OK);
    DUE(take_send(&x, 0, 2), CAMXPT_NO_OPENING);
    DUE(camxpt_send_next(&x, 0, &command), CAMXPT_IDLE_ADAPTER_BUSY);
    DUE(camxpt_close(&x), CAMXPT_OK);
}

/* Each kind of event is read as it was written: the events of one transport, taken by a second one, are the same there. */
static void events(void)
{
    static const uint8_t sense[20] = {0x70, 1, 2, 3, 4, 5, 6, 7, 8, 9, 10, 11, 12, 13, 14, 15, 16, 17, 18, 19};
    static char first[4096], second[4096];
    static camxpt_event got[32], again[32];
    camxpt x = CAMXPT_INIT, y = CAMXPT_INIT;
    camxpt_command command = {0, 0, 0, 0, 0, NULL};
    camxpt_completion done = {0, 0, NULL};
    size_t count = 0, part = 0, size = 0;
    uint32_t n = 0;

    DUE(camxpt_open(&x, two_adapters, 2, apart, 2, two_lanes, 2, &most), CAMXPT_OK);
    DUE(camxpt_open(&y, two_adapters, 2, apart, 2, two_lanes, 2, &most), CAMXPT_OK);
    DUE(camxpt_submit(&x, 201, 1, 1033, 6, true, false, NULL, &n), CAMXPT_OK);
    DUE(camxpt_submit(&x, 202, 0, 17, 5, false, true, NULL, &n), CAMXPT_OK);
    DUE(camxpt_freeze_dev(&x, 1, 600), CAMXPT_OK);
    DUE(camxpt_release_dev(&x, 1, 600), CAMXPT_OK);
    DUE(camxpt_freeze_sim(&x, 1, 1), CAMXPT_OK);
    DUE(camxpt_release_sim(&x, 1), CAMXPT_OK);
    DUE(camxpt_adjust(&x, 1, 200), CAMXPT_OK);
    DUE(camxpt_send_next(&x, 1, &command), CAMXPT_OK);
    DUE(camxpt_send_next(&x, 0, &command), CAMXPT_OK);
    DUE(camxpt_done(&x, 0, CAM_BUSY, 0, NULL, 0, &done), CAMXPT_OK);
    DUE(camxpt_done(&x, 1, CAM_DATA_RUN_ERR | 0x80, 0x18, sense, sizeof sense, &done), CAMXPT_OK);
    DUE(camxpt_requeue(&x, 0), CAMXPT_OK);
    DUE(camxpt_finish(&x, 1), CAMXPT_OK);
    DUE(camxpt_tick(&x, &n), CAMXPT_OK);
    DUE(camxpt_events(&x, 0, got, 32, &count), CAMXPT_OK);
    HOLDS(count == 14 && got[14].kind == 0);
    HOLDS(got[0].kind == CAMXPT_SUBMIT && got[0].driver == 201 && got[0].device == 1 && got[0].priority == 1033);
    HOLDS(got[0].retries == 6 && got[0].qfreeze == 1 && got[0].qfrzdis == 0 && got[1].qfreeze == 0 && got[1].qfrzdis == 1);
    HOLDS(got[2].kind == CAMXPT_FREEZE_DEV && got[2].device == 1 && got[2].count == 600);
    HOLDS(got[3].kind == CAMXPT_RELEASE_DEV && got[3].device == 1 && got[3].count == 600);
    HOLDS(got[4].kind == CAMXPT_FREEZE_SIM && got[4].sim == 1 && got[4].count == 1);
    HOLDS(got[5].kind == CAMXPT_RELEASE_SIM && got[5].sim == 1);
    HOLDS(got[6].kind == CAMXPT_ADJUST && got[6].device == 1 && got[6].openings == 200);
    HOLDS(got[7].kind == CAMXPT_SEND && got[7].lane == 1 && got[7].ccb == 0 && got[8].ccb == 1);
    HOLDS(got[9].kind == CAMXPT_DONE && got[9].ccb == 0 && got[9].status == CAM_BUSY && got[9].sense_len == 0);
    HOLDS(got[10].status == (CAM_DATA_RUN_ERR | 0x80) && got[10].scsi == 0x18 && got[10].sense_len == 18);
    HOLDS(memcmp(got[10].sense, sense, 18) == 0);
    HOLDS(got[11].kind == CAMXPT_REQUEUE && got[11].ccb == 0 && got[12].kind == CAMXPT_FINISH && got[12].ccb == 1);
    HOLDS(got[13].kind == CAMXPT_TICK);
    for (size_t k = 0; k < count; k++)
        DUE(take(&y, &got[k]), CAMXPT_OK);
    DUE(camxpt_events(&y, 9, again, 3, &part), CAMXPT_OK);
    HOLDS(part == 3 && memcmp(again, got + 9, 3 * sizeof again[0]) == 0 && again[3].kind == 0);
    DUE(camxpt_events(&y, 14, again, 3, &part), CAMXPT_OK);
    HOLDS(part == 0);
    DUE(camxpt_events(&y, UINT32_MAX, again, 3, &part), CAMXPT_OK);
    HOLDS(part == 0);
    /* more of the sense data counts than there is */
    got[10].sense_len = 255;
    DUE(camxpt_refusal(&y, &got[10]), CAMXPT_NOT_IN_FLIGHT);
    DUE(camxpt_trace(&x, first, sizeof first, &size), CAMXPT_OK);
    DUE(camxpt_trace(&y, second, sizeof second, &part), CAMXPT_OK);
    HOLDS(size == part && memcmp(first, second, sizeof first) == 0 && first[size - 1] == '\n' && first[size] == 0);
    memset(second, 'x', sizeof second);
    part = 5;
    DUE(camxpt_trace(&y, second, size - 1, &part), CAMXPT_E_SPACE);
    HOLDS(part == size && second[0] == 'x');
    DUE(camxpt_trace(&y, second, size, &part), CAMXPT_OK);
    HOLDS(memcmp(first, second, size) == 0 && second[size] == 'x');
    DUE(camxpt_close(&x), CAMXPT_OK);
    DUE(camxpt_close(&y), CAMXPT_OK);
    HOLDS(blocks == 0);
}

/* What a device has, in the order of camxpt_device_counts. */
static void device_has(camxpt *x, uint32_t device, const uint32_t *due, int line)
{
    camxpt_device_counts counts = {99, 99, 99, 99, 99, 99, 99};
    const uint32_t *given = (const uint32_t *)&counts;

    holds(camxpt_device_state(x, device, &counts) == CAMXPT_OK, line);
    for (int k = 0; k < 7; k++)
        holds(given[k] == due[k], line);
}

#define DEVICE_HAS(x, device, ...)                        \
    do {                                                  \
        static const uint32_t due_[7] = {__VA_ARGS__};    \
        device_has((x), (device), due_, __LINE__);        \
    } while (0)

/* The case of a number, and its pointer. */
static void case_is(camxpt *x, size_t number, uint32_t ccb, uint32_t class_, const void *user, int line)
{
    camxpt_case found = {99, 99, &checks};

    holds(camxpt_case_at(x, number, &found) == CAMXPT_OK, line);
    holds(found.ccb == ccb && found.class_ == class_ && found.user == user, line);
}

#define CASE_IS(x, number, ccb, class_, user) case_is((x), (number), (ccb), (class_), (user), __LINE__)

/* A command is sent to the device, as this CCB and with this pointer. */
static void sent_is(camxpt *x, uint32_t device, uint32_t ccb, const void *user, int line)
{
    camxpt_command command = {99, 99, 99, 99, 99, &checks};

    holds(camxpt_send_next(x, 0, &command) == CAMXPT_OK, line);
    holds(command.device == device && command.ccb == ccb && command.user == user, line);
}

#define SENT_IS(x, device, ccb, user) sent_is((x), (device), (ccb), (user), __LINE__)

/* A completion of the CCB comes to this class, with this pointer. */
static void done_is(camxpt *x, uint32_t ccb, uint8_t status, uint32_t class_, const void *user, int line)
{
    camxpt_completion done = {99, 99, &checks};

    holds(camxpt_done(x, ccb, status, 0, NULL, 0, &done) == CAMXPT_OK, line);
    holds(done.class_ == class_ && done.user == user, line);
}

#define DONE_IS(x, ccb, status, class_, user) done_is((x), (ccb), (status), (class_), (user), __LINE__)

/* Pointers, cases and the counts of two disks, worked by hand over a round, a tick and two carries. */
static void worked(void)
{
    static const uint32_t adapter[] = {8};
    static const camxpt_device disks[] = {{0, 0, 0, 3}, {0, 1, 0, 2}};
    static const camxpt_limits limits = {16, 8, 16, 64};
    static char tags[6];
    camxpt x = CAMXPT_INIT, y = CAMXPT_INIT;
    camxpt_command command = {0, 0, 0, 0, 0, NULL};
    camxpt_case found = {99, 99, &found};
    camxpt_device_counts none = {99, 99, 99, 99, 99, 99, 99};
    camxpt_counts counts = {0, 0, 0, 0, 0, 0, 0, 0};
    uint32_t numbers[8], n = 0;
    size_t count = 0;

    DUE(camxpt_open(&x, adapter, 1, disks, 2, one_lane, 1, &limits), CAMXPT_OK);
    DEVICE_HAS(&x, 0, 0, 0, 0, 3, 3, 0, 0);
    DUE(camxpt_device_state(&x, 2, &none), CAMXPT_NO_DEVICE);
    HOLDS(none.queued == 99 && none.errors == 99);
    /* CCBs 0 to 3 are of disk 0. CCB 4 freezes disk 1 when it is sent, and has no pointer; CCB 5's failures don't freeze it. */
    for (int k = 0; k < 4; k++)
        DUE(camxpt_submit(&x, 1, 0, 1152, 3, false, false, &tags[k], &n), CAMXPT_OK);
    DUE(camxpt_submit(&x, 1, 1, 1152, 3, true, false, NULL, &n), CAMXPT_OK);
    DUE(camxpt_submit(&x, 1, 1, 1152, 3, false, true, &tags[5], &n), CAMXPT_OK);
    DEVICE_HAS(&x, 0, 4, 0, 0, 3, 3, 0, 0);
    DEVICE_HAS(&x, 1, 2, 0, 0, 2, 2, 0, 0);
    SENT_IS(&x, 0, 0, &tags[0]);
    SENT_IS(&x, 1, 4, NULL);
    SENT_IS(&x, 0, 1, &tags[1]);
    SENT_IS(&x, 0, 2, &tags[2]);
    DUE(camxpt_send_next(&x, 0, &command), CAMXPT_IDLE_DEVICES_HELD);
    DEVICE_HAS(&x, 0, 1, 0, 3, 3, 3, 0, 0);
    DEVICE_HAS(&x, 1, 1, 0, 1, 2, 2, 1, 0);
    DONE_IS(&x, 1, CAM_BUSY, CAMXPT_COUNTED_REQUEUE, &tags[1]);
    DONE_IS(&x, 0, CAM_REQ_CMP_ERR, CAMXPT_OTHER, &tags[0]);
    DONE_IS(&x, 4, CAM_BUSY, CAMXPT_COUNTED_REQUEUE, NULL);
    CASE_IS(&x, 0, 1, CAMXPT_COUNTED_REQUEUE, &tags[1]);
    CASE_IS(&x, 1, 0, CAMXPT_OTHER, &tags[0]);
    CASE_IS(&x, 2, 4, CAMXPT_COUNTED_REQUEUE, NULL);
    DUE(camxpt_case_at(&x, 3, &found), CAMXPT_NONE);
    DUE(camxpt_case_at(&x, SIZE_MAX, &found), CAMXPT_NONE);
    HOLDS(found.ccb == 99 && found.class_ == 99 && found.user == &found);
    DUE(camxpt_next_case(&x, &found), CAMXPT_OK);
    HOLDS(found.ccb == 1 && found.class_ == CAMXPT_COUNTED_REQUEUE && found.user == &tags[1]);
    /* two freezes of disk 0 are by errors; disk 1 has one of each kind */
    DEVICE_HAS(&x, 0, 1, 0, 1, 3, 3, 0, 2);
    DEVICE_HAS(&x, 1, 1, 0, 0, 2, 2, 1, 1);
    DUE(camxpt_adjust(&x, 0, 5), CAMXPT_OK);
    DUE(camxpt_freeze_dev(&x, 0, 4), CAMXPT_OK);
    DEVICE_HAS(&x, 0, 1, 0, 1, 3, 5, 4, 2);
    DUE(camxpt_requeue(&x, 1), CAMXPT_OK);
    DEVICE_HAS(&x, 0, 1, 1, 1, 3, 5, 4, 1);
    CASE_IS(&x, 0, 0, CAMXPT_OTHER, &tags[0]);
    CASE_IS(&x, 1, 4, CAMXPT_COUNTED_REQUEUE, NULL);
    DUE(camxpt_case_at(&x, 2, &found), CAMXPT_NONE);
    DUE(camxpt_look(&x, &counts), CAMXPT_OK);
    HOLDS(counts.stays == 7 && counts.alive == 6 && counts.waiting == 3 && counts.in_flight == 1 && counts.cases == 2);
    DUE(camxpt_finish(&x, 0), CAMXPT_OK);
    DONE_IS(&x, 2, CAM_REQ_CMP, CAMXPT_COMPLETE, &tags[2]);
    DUE(camxpt_requeue(&x, 4), CAMXPT_OK);
    DEVICE_HAS(&x, 0, 1, 1, 0, 3, 5, 4, 0);
    DEVICE_HAS(&x, 1, 1, 1, 0, 2, 2, 1, 0);
    DUE(camxpt_look(&x, &counts), CAMXPT_OK);
    HOLDS(counts.stays == 8 && counts.alive == 4 && counts.waiting == 4 && counts.in_flight == 0 && counts.cases == 0);
    DUE(camxpt_tick(&x, &n), CAMXPT_OK);
    DEVICE_HAS(&x, 0, 2, 0, 0, 5, 5, 4, 0);
    DUE(camxpt_adjust(&x, 1, 1), CAMXPT_OK);
    DEVICE_HAS(&x, 1, 2, 0, 0, 2, 1, 1, 0);
    /* what came first goes first: CCBs 3 and 5, and then 1 and 4, which were sent again */
    DUE(camxpt_carry(&x, &y, &limits, numbers, 8, &count), CAMXPT_OK);
    HOLDS(count == 4 && numbers[0] == 3 && numbers[1] == 5 && numbers[2] == 1 && numbers[3] == 4);
    DUE(camxpt_look(&y, &counts), CAMXPT_OK);
    HOLDS(counts.stays == 4 && counts.alive == 4 && counts.waiting == 4);
    DEVICE_HAS(&y, 0, 2, 0, 0, 5, 5, 4, 0);
    DEVICE_HAS(&y, 1, 2, 0, 0, 1, 1, 1, 0);
    DUE(camxpt_release_dev(&y, 0, 4), CAMXPT_OK);
    SENT_IS(&y, 0, 0, &tags[3]);
    SENT_IS(&y, 0, 2, &tags[1]);
    DUE(camxpt_release_dev(&y, 1, 1), CAMXPT_OK);
    SENT_IS(&y, 1, 1, &tags[5]);
    DONE_IS(&y, 0, CAM_BUSY, CAMXPT_COUNTED_REQUEUE, &tags[3]);
    CASE_IS(&y, 0, 0, CAMXPT_COUNTED_REQUEUE, &tags[3]);
    DONE_IS(&y, 1, CAM_REQ_CMP, CAMXPT_COMPLETE, &tags[5]);
    DONE_IS(&y, 2, CAM_REQ_CMP, CAMXPT_COMPLETE, &tags[1]);
    DUE(camxpt_requeue(&y, 0), CAMXPT_OK);
    /* the old one has its pointers still */
    DUE(camxpt_release_dev(&x, 0, 4), CAMXPT_OK);
    SENT_IS(&x, 0, 3, &tags[3]);
    DUE(camxpt_close(&x), CAMXPT_OK);
    DUE(camxpt_carry(&y, &x, &limits, numbers, 8, &count), CAMXPT_OK);
    HOLDS(count == 2 && numbers[0] == 3 && numbers[1] == 0);
    SENT_IS(&x, 0, 1, &tags[3]);
    SENT_IS(&x, 1, 0, NULL);
    DUE(camxpt_close(&x), CAMXPT_OK);
    DUE(camxpt_close(&y), CAMXPT_OK);
    HOLDS(blocks == 0);
}

/* What camxpt_take gives: the number of a submit, what a completion comes to, and nothing else. */
static void takes(void)
{
    static char tag;
    camxpt x = CAMXPT_INIT;
    camxpt_completion done = {99, 99, &done};
    camxpt_event event = event_of(CAMXPT_SUBMIT);
    uint32_t n = 77;

    DUE(open_small(&x, &most), CAMXPT_OK);
    DUE(camxpt_submit(&x, 1, 1, 1152, 0, false, false, &tag, &n), CAMXPT_OK);
    event.retries = 1;
    DUE(camxpt_take(&x, &event, &n, &done), CAMXPT_OK);
    HOLDS(n == 1 && done.class_ == 99);
    DUE(camxpt_take(&x, &event, NULL, &done), CAMXPT_OK);
    event.device = 2;
    DUE(camxpt_take(&x, &event, &n, &done), CAMXPT_NO_DEVICE);
    HOLDS(n == 1 && done.class_ == 99);
    /* CCB 1 has no pointer, and CCB 0 has one */
    SENT_IS(&x, 0, 1, NULL);
    event = send_of(0, 0);
    DUE(camxpt_take(&x, &event, &n, &done), CAMXPT_OK);
    event = event_of(CAMXPT_DONE);
    event.ccb = 1;
    event.status = CAM_BUSY;
    DUE(camxpt_take(&x, &event, &n, &done), CAMXPT_OK);
    HOLDS(n == 1 && done.class_ == CAMXPT_COUNTED_REQUEUE && done.value == (CAM_BUSY | CAM_DEV_QFRZN) && done.user == NULL);
    DUE(camxpt_take(&x, &event, &n, &done), CAMXPT_NOT_IN_FLIGHT);
    HOLDS(done.class_ == CAMXPT_COUNTED_REQUEUE);
    event.ccb = 0;
    DUE(camxpt_take(&x, &event, NULL, &done), CAMXPT_OK);
    HOLDS(done.class_ == CAMXPT_SPENT && done.user == &tag);
    CASE_IS(&x, 0, 1, CAMXPT_COUNTED_REQUEUE, NULL);
    CASE_IS(&x, 1, 0, CAMXPT_SPENT, &tag);
    event = event_of(CAMXPT_FINISH);
    DUE(camxpt_take(&x, &event, NULL, NULL), CAMXPT_OK);
    HOLDS(n == 1 && done.class_ == CAMXPT_SPENT);
    DUE(camxpt_close(&x), CAMXPT_OK);
    HOLDS(blocks == 0);
}

/* What a carry is refused for, and what it gives. */
static void carries(void)
{
    static const camxpt_limits few_ccbs = {2, 512, 4096, 65535}, one_round = {1024, 1, 4096, 65535};
    static const camxpt_limits few_stays = {1024, 512, 2, 65535}, few_events = {1024, 512, 4096, 3}, none = {0, 1, 1, 1};
    camxpt x = CAMXPT_INIT, y = CAMXPT_INIT, copy;
    camxpt_command command = {0, 0, 0, 0, 0, NULL};
    camxpt_completion done = {0, 0, NULL};
    camxpt_counts counts = {0, 0, 0, 0, 0, 0, 0, 0};
    camxpt_event got[8];
    uint32_t numbers[4] = {9, 9, 9, 9}, n = 0;
    size_t count = 77;

    DUE(open_small(&x, &most), CAMXPT_OK);
    DUE(camxpt_carry(&x, &x, &most, numbers, 4, &count), CAMXPT_E_OPEN);
    DUE(open_small(&y, &most), CAMXPT_OK);
    DUE(camxpt_carry(&x, &y, &most, numbers, 4, &count), CAMXPT_E_OPEN);
    DUE(camxpt_raw_carry(&x.raw_, &y.raw_, &most, numbers, 4, &count), CAMXPT_E_OPEN);
    copy = y;
    DUE(camxpt_carry(&x, &copy, &most, numbers, 4, &count), CAMXPT_E_COPIED);
    DUE(camxpt_carry(&copy, &y, &most, numbers, 4, &count), CAMXPT_E_COPIED);
    DUE(camxpt_close(&y), CAMXPT_OK);
    DUE(camxpt_carry(&x, &y, &none, numbers, 4, &count), CAMXPT_E_LIMIT);
    for (uint32_t disk = 0; disk < 2; disk++)
        DUE(submit(&x, disk, &n), CAMXPT_OK);
    DUE(camxpt_submit(&x, 1, 1, 128, 3, false, true, NULL, &n), CAMXPT_OK);
    DUE(submit(&x, 0, &n), CAMXPT_OK);
    DUE(camxpt_send_next(&x, 0, &command), CAMXPT_OK);
    DUE(camxpt_carry(&x, &y, &most, numbers, 4, &count), CAMXPT_IN_FLIGHT);
    DUE(camxpt_done(&x, 2, CAM_BUSY, 0, NULL, 0, &done), CAMXPT_OK);
    HOLDS(command.ccb == 2 && done.class_ == CAMXPT_COUNTED_REQUEUE);
    DUE(camxpt_carry(&x, &y, &most, numbers, 4, &count), CAMXPT_UNDECIDED);
    DUE(camxpt_requeue(&x, 2), CAMXPT_OK);
    DUE(camxpt_send_next(&x, 0, &command), CAMXPT_OK);
    DUE(camxpt_done(&x, 0, CAM_REQ_CMP, 0, NULL, 0, &done), CAMXPT_OK);
    DUE(camxpt_adjust(&x, 0, 7), CAMXPT_OK);
    DUE(camxpt_freeze_dev(&x, 1, 2), CAMXPT_OK);
    DUE(camxpt_freeze_sim(&x, 0, 1), CAMXPT_OK);
    DUE(camxpt_carry(&x, &y, &few_ccbs, numbers, 4, &count), CAMXPT_CCB_FULL);
    DUE(camxpt_carry(&x, &y, &one_round, numbers, 4, &count), CAMXPT_ROUNDS_FULL);
    DUE(camxpt_carry(&x, &y, &few_stays, numbers, 4, &count), CAMXPT_STAYS_FULL);
    DUE(camxpt_carry(&x, &y, &few_events, numbers, 4, &count), CAMXPT_HISTORY_FULL);
    HOLDS(count == 77);
    DUE(camxpt_carry(&x, &y, &most, numbers, 2, &count), CAMXPT_E_SPACE);
    HOLDS(count == 3 && numbers[0] == 9 && numbers[1] == 9);
    DUE(camxpt_carry(&x, &y, &most, NULL, 0, &count), CAMXPT_E_SPACE);
    DUE(camxpt_tick(&y, &n), CAMXPT_E_CLOSED);
    DUE(camxpt_carry(&x, &y, &most, numbers, 4, &count), CAMXPT_OK);
    HOLDS(count == 3 && numbers[0] == 2 && numbers[1] == 1 && numbers[2] == 3 && numbers[3] == 9);
    DUE(camxpt_look(&y, &counts), CAMXPT_OK);
    HOLDS(counts.length == 7 && counts.round == 2 && counts.in_flight == 0 && counts.cases == 0 && counts.waiting == 3);
    DUE(camxpt_events(&y, 0, got, 8, &count), CAMXPT_OK);
    HOLDS(got[0].kind == CAMXPT_ADJUST && got[0].device == 0 && got[0].openings == 7 && got[1].kind == CAMXPT_TICK);
    HOLDS(got[2].kind == CAMXPT_FREEZE_DEV && got[2].device == 1 && got[2].count == 2);
    HOLDS(got[3].kind == CAMXPT_FREEZE_SIM && got[3].sim == 0 && got[3].count == 1);
    HOLDS(got[4].kind == CAMXPT_SUBMIT && got[4].device == 1 && got[4].priority == 128 && got[4].retries == 2);
    HOLDS(got[4].driver == 1 && got[4].qfreeze == 0 && got[4].qfrzdis == 1);
    HOLDS(got[5].kind == CAMXPT_SUBMIT && got[5].device == 1 && got[5].priority == 1152 && got[5].retries == 3);
    HOLDS(got[6].kind == CAMXPT_SUBMIT && got[6].device == 0 && got[6].priority == 1152 && got[6].retries == 3);
    /* the old one is as it was */
    DUE(camxpt_look(&x, &counts), CAMXPT_OK);
    HOLDS(counts.length == 12 && counts.round == 1 && counts.waiting == 3);
    DUE(camxpt_tick(&x, &n), CAMXPT_OK);
    DUE(camxpt_close(&x), CAMXPT_OK);
    DUE(camxpt_close(&y), CAMXPT_OK);
    HOLDS(blocks == 0);
}

static const camxpt_weight standard[] = CAMXPT_STANDARD_WEIGHTS;
static const camxpt_adapter linked[] = {{2, 0}};
static const uint32_t narrow[] = {1};
/* There are no lanes, and they aren't read. */
static const camxpt_config shelf = {standard, 5, narrow, 1, linked, 1, two_disks, 2, NULL, 9};

/* Two caps and two requests. */
struct recording {
    camxpt_span unit;
    uint32_t rounds;
    camxpt_cap caps[2];
    camxpt_request requests[2];
};

static const struct recording plain = {
    {5, CAMXPT_MILLISECONDS},
    3,
    {{CAMXPT_CAP_DEVICE, 1, 1, 2, 1}, {CAMXPT_CAP_ADAPTER, 0, 2, 3, 1}},
    {{1, 1152, 1, 2, 1, 7, CAMXPT_NO_DONE}, {0, 896, 1, CAMXPT_NO_LAST, 3, 201, CAMXPT_NO_DONE}},
};
static const char plain_text[] = "camrecord1,a,b,c,d,e,f,g\nunit,5,ms,,,,,\nrounds,3,,,,,,\n"
                                 "weight,255,16,,,,,\nweight,511,8,,,,,\nweight,767,4,,,,,\n"
                                 "weight,1023,2,,,,,\nweight,1279,1,,,,,\n"
                                 "link,1,,,,,,\nsim,2,0,,,,,\ndev,0,0,0,1,,,\ndev,0,1,0,1,,,\n"
                                 "cap,dev,1,1,2,1,,\ncap,sim,0,2,3,1,,\n"
                                 "request,7,1,1152,1,2,1,\nrequest,201,0,896,1,,3,\n";

static camxpt_code write_recording(const struct recording *r, char *text, size_t room, size_t *needed, size_t *wrong)
{
    return camxpt_recording(&shelf, &r->unit, r->rounds, r->caps, 2, r->requests, 2, text, room, needed, wrong);
}

enum { NO_NUMBER = 99 };

/* One that isn't a recording gives nothing but the number of its wrong cap or request, if one of them is wrong. */
static void wrong_recording(const struct recording *r, camxpt_code wanted, size_t number, int line)
{
    char text[4] = "abc";
    size_t needed = 77, wrong = NO_NUMBER;

    due(write_recording(r, text, sizeof text, &needed, &wrong), wanted, line);
    holds(needed == 77 && wrong == number && strcmp(text, "abc") == 0 && blocks == 0, line);
}

#define WRONG(change, wanted, number)                      \
    do {                                                   \
        struct recording r = plain;                        \
        change;                                            \
        wrong_recording(&r, (wanted), (number), __LINE__); \
    } while (0)

/* What may be wrong with a recording, by the first that is. */
static void wrong_recordings(void)
{
    static camxpt_request many[1048577];
    camxpt_config c = shelf;
    size_t needed = 77, wrong = NO_NUMBER;

    WRONG(r.unit.unit = 4; r.rounds = 0, CAMXPT_E_UNIT, NO_NUMBER);
    WRONG(r.unit.count = 0; r.unit.unit = 4, CAMXPT_E_UNIT, NO_NUMBER);
    WRONG(r.rounds = 0; r.caps[0].kind = 3, CAMXPT_E_ROUNDS, NO_NUMBER);
    WRONG(r.rounds = 65536, CAMXPT_E_ROUNDS, NO_NUMBER);
    WRONG(r.caps[0].kind = 3; r.caps[1].kind = 3; r.requests[0].device = 2, CAMXPT_E_CAP, 0);
    WRONG(r.caps[1].kind = 3, CAMXPT_E_CAP, 1);
    WRONG(r.caps[0].number = 2, CAMXPT_E_CAP, 0);
    WRONG(r.caps[1].number = 1, CAMXPT_E_CAP, 1);
    WRONG(r.caps[1].kind = CAMXPT_CAP_LINK; r.caps[1].number = 1, CAMXPT_E_CAP, 1);
    WRONG(r.caps[0].first = 0, CAMXPT_E_CAP, 0);
    WRONG(r.caps[0].first = 3, CAMXPT_E_CAP, 0);
    WRONG(r.caps[0].last = 4, CAMXPT_E_CAP, 0);
    WRONG(r.caps[0].most = 65536, CAMXPT_E_CAP, 0);
    WRONG(r.caps[1] = r.caps[0], CAMXPT_E_CAP, 1);
    WRONG(r.caps[0] = plain.caps[1]; r.caps[1] = plain.caps[0], CAMXPT_E_CAP, 1);
    WRONG(r.requests[1].done = 2; r.requests[1].device = 2, CAMXPT_E_DONE, 1);
    WRONG(r.requests[1].device = 2, CAMXPT_CAUSE_NO_DEVICE, 1);
    WRONG(r.requests[0].priority = 1280; r.requests[1].device = 2, CAMXPT_CAUSE_BAD_PRIORITY, 0);
    WRONG(r.requests[0].arrival = 0, CAMXPT_CAUSE_BAD_WINDOW, 0);
    WRONG(r.requests[0].last = 4, CAMXPT_CAUSE_BAD_WINDOW, 0);
    WRONG(r.requests[1].arrival = 4, CAMXPT_CAUSE_BAD_WINDOW, 1);
    WRONG(r.requests[1].arrival = 2; r.requests[1].start = 1, CAMXPT_CAUSE_EARLY, 1);
    WRONG(r.requests[0].start = 3, CAMXPT_CAUSE_LATE, 0);
    WRONG(r.requests[1].start = 4, CAMXPT_CAUSE_LATE, 1);
    WRONG(r.requests[1] = r.requests[0], CAMXPT_CAUSE_DEVICE_FULL, 1);
    WRONG(r.requests[0].start = 2; r.requests[1].start = 2, CAMXPT_CAUSE_ADAPTER_FULL, 1);
    WRONG(r.requests[1].start = 1, CAMXPT_CAUSE_LINK_FULL, 1);
    DUE(camxpt_recording(&c, NULL, 1, NULL, 0, many, 1048577, NULL, 0, &needed, &wrong), CAMXPT_E_REQUESTS);
    c.adapter_count = 0;
    DUE(camxpt_recording(&c, NULL, 1, NULL, 0, many, 1048577, NULL, 0, &needed, &wrong), CAMXPT_E_REQUESTS);
    DUE(camxpt_recording(&c, NULL, 1, plain.caps, 1, NULL, 0, NULL, 0, &needed, &wrong), CAMXPT_FAULT_NO_ADAPTERS);
    HOLDS(needed == 77 && wrong == NO_NUMBER && blocks == 0);
}

/* What a recording is. */
static void recordings(void)
{
    static char text[1024];
    const struct recording *r = &plain;
    struct recording completed = plain;
    camxpt_config c = shelf;
    size_t needed = 77, wrong = NO_NUMBER;
    static const char short_text[] = "camrecord1,a,b,c,d,e,f,g\nrounds,65535,,,,,,\nweight,";

    DUE(camxpt_recording(NULL, NULL, 1, NULL, 0, NULL, 0, text, 9, &needed, &wrong), CAMXPT_E_NULL);
    DUE(camxpt_recording(&c, NULL, 1, NULL, 1, NULL, 0, text, 9, &needed, &wrong), CAMXPT_E_NULL);
    DUE(camxpt_recording(&c, NULL, 1, NULL, 0, NULL, 1, text, 9, &needed, &wrong), CAMXPT_E_NULL);
    DUE(camxpt_recording(&c, NULL, 1, NULL, 0, NULL, 0, NULL, 9, &needed, &wrong), CAMXPT_E_NULL);
    DUE(camxpt_recording(&c, NULL, 1, NULL, 0, NULL, 0, text, 9, NULL, &wrong), CAMXPT_E_NULL);
    DUE(camxpt_recording(&c, NULL, 1, NULL, 0, NULL, 0, text, 9, &needed, NULL), CAMXPT_E_NULL);
    c.devices = NULL;
    DUE(camxpt_recording(&c, NULL, 1, NULL, 0, NULL, 0, text, 9, &needed, &wrong), CAMXPT_E_NULL);
    HOLDS(needed == 77);
    DUE(write_recording(r, NULL, 0, &needed, &wrong), CAMXPT_E_SPACE);
    HOLDS(needed == sizeof plain_text - 1);
    memset(text, 'x', sizeof text);
    DUE(write_recording(r, text, needed - 1, &needed, &wrong), CAMXPT_E_SPACE);
    HOLDS(needed == sizeof plain_text - 1 && text[0] == 'x');
    DUE(write_recording(r, text, needed, &needed, &wrong), CAMXPT_OK);
    HOLDS(needed == sizeof plain_text - 1 && memcmp(text, plain_text, needed) == 0 && text[needed] == 'x');
    /* with a completion, after the last round, the header is another, and the row says it */
    completed.requests[1].done = 5;
    DUE(write_recording(&completed, text, sizeof text, &needed, &wrong), CAMXPT_OK);
    HOLDS(needed == sizeof plain_text && memcmp(text, "camrecord2", 10) == 0);
    HOLDS(memcmp(text + 10, plain_text + 10, needed - 12) == 0 && memcmp(text + needed - 3, ",5\n", 3) == 0);
    c.device_count = 0;
    DUE(camxpt_recording(&c, NULL, 65535, NULL, 0, NULL, 0, text, sizeof text, &needed, &wrong), CAMXPT_OK);
    HOLDS(memcmp(text, short_text, sizeof short_text - 1) == 0 && wrong == NO_NUMBER && blocks == 0);
}

/* Each request for memory of the opening, of a trace, of a carry and of a recording is refused in turn. */
static void memory(void)
{
    static const camxpt_weight weights[] = CAMXPT_STANDARD_WEIGHTS;
    static const camxpt_adapter on_link[] = {{2, 0}};
    static const uint32_t links[] = {255};
    static const camxpt_config c = {weights, 5, links, 1, on_link, 1, two_disks, 2, one_lane, 1};
    static char text[4096];
    camxpt x = CAMXPT_INIT, y = CAMXPT_INIT;
    camxpt_code code;
    size_t needed = 5, wrong = 5;
    uint32_t n = 5;
    long counts[5] = {0, 0, 0, 0, 0}, before;

    for (int linked = 0; linked < 2; linked++) {
        do {
            granted = counts[linked];
            code = linked ? camxpt_open_with(&x, &c, &most) : open_small(&x, &most);
            granted = -1;
            DUE(code, code == CAMXPT_OK ? CAMXPT_OK : CAMXPT_E_MEMORY);
            HOLDS(code == CAMXPT_OK || blocks == 0);
            counts[linked]++;
        } while (code != CAMXPT_OK);
        if (!linked)
            DUE(camxpt_close(&x), CAMXPT_OK);
    }
    before = blocks;
    do {
        granted = counts[2];
        needed = 5;
        text[0] = 'x';
        code = camxpt_trace(&x, text, sizeof text, &needed);
        granted = -1;
        DUE(code, code == CAMXPT_OK ? CAMXPT_OK : CAMXPT_E_MEMORY);
        HOLDS(blocks == before && (code == CAMXPT_OK || (needed == 5 && text[0] == 'x')));
        counts[2]++;
    } while (code != CAMXPT_OK);
    DUE(submit(&x, 0, &n), CAMXPT_OK);
    n = 5;
    do {
        granted = counts[3];
        needed = 5;
        code = camxpt_carry(&x, &y, &most, &n, 1, &needed);
        granted = -1;
        DUE(code, code == CAMXPT_OK ? CAMXPT_OK : CAMXPT_E_MEMORY);
        HOLDS(code == CAMXPT_OK || (blocks == before && needed == 5 && n == 5));
        counts[3]++;
    } while (code != CAMXPT_OK);
    DUE(camxpt_close(&y), CAMXPT_OK);
    DUE(camxpt_close(&x), CAMXPT_OK);
    HOLDS(blocks == 0);
    do {
        granted = counts[4];
        needed = 5;
        text[0] = 'x';
        code = write_recording(&plain, text, sizeof text, &needed, &wrong);
        granted = -1;
        DUE(code, code == CAMXPT_OK ? CAMXPT_OK : CAMXPT_E_MEMORY);
        HOLDS(blocks == 0 && wrong == 5 && (code == CAMXPT_OK || (needed == 5 && text[0] == 'x')));
        counts[4]++;
    } while (code != CAMXPT_OK);
    for (int k = 0; k < 5; k++)
        HOLDS(counts[k] > 1);
    printf("requests for memory: %ld to open, %ld with links, %ld for a trace, %ld to carry, %ld for a recording\n",
           counts[0] - 1, counts[1] - 1, counts[2] - 1, counts[3] - 1, counts[4] - 1);
}

/* What a recorder wrote. */
struct written {
    char text[32768];
    size_t size, windows;
};

static int keep(void *user, const camxpt_window *window, const void *bytes, size_t size)
{
    struct written *w = (struct written *)user;

    HOLDS(w->size + size <= sizeof w->text);
    if (window->offset == 0)
        w->windows++;
    memcpy(w->text + w->size, bytes, size);
    w->size += size;
    return 0;
}

/* Records three windows, and refuses requests for memory after so many: of the opening, of the note that ends two windows, or of
 * the end. Whether one was refused. */
static bool record(struct written *to, int where, long after)
{
    static const camxpt_recorder_device disks[] = {{"sda", 2}, {"sdb", 0}};
    static const char *const drivers[] = {"web", "log"};
    const camxpt_recorder_options o = {{1, CAMXPT_MILLISECONDS}, 1000000000, 100, disks, 2, drivers, 2, keep, to};
    camxpt_recorder r = CAMXPT_RECORDER_INIT;
    const uint64_t late = UINT64_C(3500000000);
    bool refused = false;
    camxpt_code code;

    memset(to, 0, sizeof *to);
    granted = where == 0 ? after : -1;
    code = camxpt_recorder_open(&r, &o);
    granted = -1;
    if (code != CAMXPT_OK) {
        DUE(code, CAMXPT_E_MEMORY);
        HOLDS(blocks == 0);
        refused = true;
        DUE(camxpt_recorder_open(&r, &o), CAMXPT_OK);
    }
    granted = 0;
    for (uint64_t id = 0; id < 20; id++) {
        const uint64_t ns = 500000000 + id * 60000000;

        DUE(camxpt_note_arrival(&r, id, (uint32_t)(id % 2), (uint8_t)(id % 2), 1152, ns), CAMXPT_OK);
        DUE(camxpt_note_start(&r, id, ns + 3000000), CAMXPT_OK);
        DUE(camxpt_note_done(&r, id, ns + 9000000), CAMXPT_OK);
    }
    HOLDS(to->windows == 0);
    granted = where == 1 ? after : -1;
    code = camxpt_note_arrival(&r, 20, 0, 0, 1152, late);
    granted = -1;
    refused |= code != CAMXPT_OK;
    HOLDS(code == CAMXPT_OK || code == CAMXPT_E_MEMORY);
    HOLDS(r.self_ == &r);
    DUE(camxpt_note_start(&r, 20, late), CAMXPT_OK);
    HOLDS(to->windows > 0);
    granted = where == 2 ? after : -1;
    code = camxpt_recorder_close(&r);
    granted = -1;
    refused |= code != CAMXPT_OK;
    HOLDS(code == CAMXPT_OK || code == CAMXPT_E_MEMORY);
    if (code == CAMXPT_E_MEMORY)
        DUE(camxpt_recorder_close(&r), CAMXPT_OK);
    HOLDS(blocks == 0 && r.self_ == NULL);
    return refused;
}

/* Each request for memory of a recorder is refused in turn, and what it writes is the same. */
static void recorder_memory(void)
{
    static struct written plain, other;
    long counts[3] = {0, 0, 0};

    HOLDS(!record(&plain, 0, -1) && plain.windows == 3);
    for (int where = 0; where < 3; where++) {
        for (; record(&other, where, counts[where]); counts[where]++)
            HOLDS(other.windows == plain.windows && other.size == plain.size && memcmp(other.text, plain.text, plain.size) == 0);
        HOLDS(counts[where] > 1);
    }
    printf("a recorder's requests for memory: %ld to open, %ld for two windows, %ld at its end\n", counts[0], counts[1], counts[2]);
}

int main(void)
{
    HOLDS(strcmp(camxpt_version(), CAMXPT_VERSION) == 0);
    handles();
    closed();
    nulls();
    faults();
    refusals();
    sends();
    events();
    worked();
    takes();
    carries();
    wrong_recordings();
    recordings();
    memory();
    recorder_memory();
    for (camxpt_code code = LEAST; code <= MOST; code++)
        if (strcmp(camxpt_code_name(code), "Unknown") != 0 && !reached[code - LEAST]) {
            fprintf(stderr, "misuse: no call answers %s\n", camxpt_code_name(code));
            return EXIT_FAILURE;
        }
    printf("%u checks, each code was answered\n", checks);
    return EXIT_SUCCESS;
}
