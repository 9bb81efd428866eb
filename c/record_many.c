/*
 * record_many.c - four threads note the requests of four disks to one recorder, under a lock, and write down the same as a table for
 * `camxpt import --from csv`. The recordings of the windows have to be those that import makes of the table:
 *
 *   record_many REQUESTS WINDOW_NS FOLDER > table.csv
 *   camxpt import --from csv --unit ns --window WINDOW_NSns --depth sda=9 --out OTHER table.csv
 *
 * writes the same files to both folders, byte for byte. Each disk has its thread, which at each turn has a request arrive, starts one of
 * those that wait, has one of those in flight done, or has one arrive that it
 * withdraws at once. The clock goes on by about half a microsecond a turn.
 */
#include "camxpt.h"

#include <inttypes.h>
#include <pthread.h>
#include <stdio.h>
#include <stdlib.h>

#define DISKS 4
#define MOST_WAITING 64
#define MOST_IN_FLIGHT 9

static const camxpt_recorder_device devices[DISKS] = { { "sda", 9 }, { "sdb", 0 }, { "sdc", 0 }, { "sdd", 0 } };
static const char *const drivers[] = { "db", "web", "backup" };
static const uint32_t priorities[] = { 16, 640, 896 };

struct request {
    uint64_t arrival, start, done;
    uint8_t disk, driver;
};

struct disk {
    uint32_t number, waiting[MOST_WAITING], in_flight[MOST_IN_FLIGHT];
    size_t waits, flies;
    uint64_t chance;
};

static pthread_mutex_t lock = PTHREAD_MUTEX_INITIALIZER;
static camxpt_recorder recorder = CAMXPT_RECORDER_INIT;
static struct request *requests;
static uint32_t most, count;
static uint64_t now = 1000000000000;
static const char *folder;
static FILE *file;
static char path[4096];
static uint64_t written;

static void fail(const char *what)
{
    fprintf(stderr, "record_many: %s\n", what);
    exit(1);
}

static void expect(camxpt_code code, const char *call)
{
    if (code != CAMXPT_OK) {
        fprintf(stderr, "record_many: %s: %s\n", call, camxpt_code_name(code));
        exit(1);
    }
}

static int write_window(void *user, const camxpt_window *window, const void *bytes, size_t size)
{
    (void)user;
    if (window->offset == 0) {
        snprintf(path, sizeof path, "%s/%" PRIu64 ".%06" PRIu64 ".csv", folder, window->from_ns / 1000000000,
                 window->from_ns % 1000000000 / 1000);
        file = fopen(path, "wb");
        if (!file)
            return 1;
    }
    if (fwrite(bytes, 1, size, file) != size)
        return 1;
    if (window->offset + size == window->size) {
        written++;
        return fclose(file);
    }
    return 0;
}

/* A number below this one. */
static uint64_t below(struct disk *disk, uint64_t end)
{
    disk->chance = disk->chance * 6364136223846793005u + 1442695040888963407u;
    return (disk->chance >> 33) % end;
}

/* Takes one of a list out. */
static uint32_t taken(uint32_t *list, size_t *length, size_t place)
{
    const uint32_t it = list[place];
    (*length)--;
    for (; place < *length; place++)
        list[place] = list[place + 1];
    return it;
}

/* What a disk does at its turn. Ids are the addresses of requests, as a driver would have them. */
static void turn(struct disk *disk)
{
    const uint64_t what = below(disk, 1000);
    now += 200 + below(disk, 600);
    if (what < 340 && disk->waits < MOST_WAITING && count < most) {
        struct request *it = &requests[count];
        it->arrival = now;
        it->disk = (uint8_t)disk->number;
        it->driver = (uint8_t)below(disk, 3);
        disk->waiting[disk->waits++] = count++;
        expect(camxpt_note_arrival(&recorder, (uintptr_t)it, it->disk, it->driver, priorities[it->driver], now), "camxpt_note_arrival");
    } else if (what < 680 && disk->waits > 0 && disk->flies < MOST_IN_FLIGHT) {
        const uint32_t number = taken(disk->waiting, &disk->waits, below(disk, disk->waits));
        struct request *it = &requests[number];
        it->start = now;
        disk->in_flight[disk->flies++] = number;
        expect(camxpt_note_start(&recorder, (uintptr_t)it, now), "camxpt_note_start");
    } else if (what < 999 && disk->flies > 0) {
        struct request *it = &requests[taken(disk->in_flight, &disk->flies, below(disk, disk->flies))];
        it->done = now;
        expect(camxpt_note_done(&recorder, (uintptr_t)it, now), "camxpt_note_done");
    } else if (what == 999) {
        /* (one that waited at a window's end and is withdrawn later has no row of a table that says so) */
        expect(camxpt_note_arrival(&recorder, 1, disk->number, 0, priorities[0], now), "camxpt_note_arrival");
        expect(camxpt_note_cancel(&recorder, 1), "camxpt_note_cancel");
    }
}

static void *serve(void *given)
{
    struct disk *disk = (struct disk *)given;
    bool goes_on = true;
    while (goes_on) {
        pthread_mutex_lock(&lock);
        turn(disk);
        goes_on = count < most || disk->waits > 0 || disk->flies > 0;
        pthread_mutex_unlock(&lock);
    }
    return NULL;
}

int main(int argc, char **argv)
{
    static struct disk disks[DISKS];
    pthread_t threads[DISKS];
    camxpt_recorder_options options = { { 0, CAMXPT_NANOSECONDS }, 0, 1500000, devices, DISKS, drivers, 3, write_window, NULL };

    if (argc != 4)
        fail("REQUESTS WINDOW_NS FOLDER");
    most = (uint32_t)strtoul(argv[1], NULL, 10);
    options.window_ns = strtoull(argv[2], NULL, 10);
    folder = argv[3];
    requests = (struct request *)calloc(most, sizeof *requests);
    if (!requests)
        fail("no memory");
    expect(camxpt_recorder_open(&recorder, &options), "camxpt_recorder_open");
    for (uint32_t k = 0; k < DISKS; k++) {
        disks[k].number = k;
        disks[k].chance = k + 1;
        if (pthread_create(&threads[k], NULL, serve, &disks[k]) != 0)
            fail("no thread");
    }
    for (uint32_t k = 0; k < DISKS; k++)
        pthread_join(threads[k], NULL);
    expect(camxpt_recorder_close(&recorder), "camxpt_recorder_close");
    puts("arrival,start,end,device,driver,priority");
    for (uint32_t k = 0; k < count; k++) {
        const struct request *it = &requests[k];
        printf("%" PRIu64 ",%" PRIu64 ",%" PRIu64 ",%s,%s,%" PRIu32 "\n", it->arrival, it->start, it->done, devices[it->disk].name,
               drivers[it->driver], priorities[it->driver]);
    }
    fprintf(stderr, "%" PRIu64 " windows\n", written);
    free(requests);
    return fflush(stdout) != 0;
}
