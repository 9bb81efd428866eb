/*
 * An nbdkit plugin: a file that is served through a camxpt transport. Each request is a CCB of the class that its export names. It
 * waits for its turn in the device's queue, a thread of nbdkit serves it once it was sent, and what became of it is its result. Who
 * finds nothing in flight and nothing to send opens the next round. A thread of the plugin's own notes to a recorder when each
 * request arrived, was sent and was done, and the recorder writes a recording of each window.
 *
 *   nbdkit -U - ./nbdkit-camxpt-plugin.so file=DISK [openings=4] [class=NAME=PRIORITY ..] [recordings=FOLDER [window=10]]
 *
 * docs/c.md tells more, and says how to build it.
 */
#define NBDKIT_API_VERSION 2
#define THREAD_MODEL NBDKIT_THREAD_MODEL_PARALLEL
#include <nbdkit-plugin.h>

#include <errno.h>
#include <fcntl.h>
#include <inttypes.h>
#include <limits.h>
#include <pthread.h>
#include <stdio.h>
#include <stdlib.h>
#include <string.h>
#include <sys/queue.h>
#include <sys/stat.h>
#include <time.h>
#include <unistd.h>

#include "camxpt.h"

/* Classes that are given; all other exports are one more, which is the last driver. */
#define MAX_CLASSES 255
#define MAX_CCBS 1024
#define MAX_ROUNDS 512
/* From here on a transport takes nothing new: what is in flight, at most 255 commands, can still come to its end. */
#define LATE_STAYS 3800
#define LATE_EVENTS 64000
#define RETRIES 4
/* How many requests the recorder keeps, and how many notes wait for it. */
#define MAX_KEPT 1048576
#define MAX_NOTES 262144

/* ---- options ------------------------------------------------------------------------------------------------------------ */

static char *file, *folder, *trace;
static unsigned openings = 4, host = 255, failing, busy, service, window_seconds = 10;

/* Exports that have a priority of their own, by their names. The number of one is that of its driver. */
static const char *names[MAX_CLASSES + 1];
static uint32_t priorities[MAX_CLASSES + 1];
static unsigned class_count;

/* The number of the class of an export: that of all others, if it has none of its own. */
static unsigned class_of(const char *export)
{
    unsigned number = 0;
    while (number < class_count && strcmp(names[number], export) != 0)
        number++;
    return number;
}

/* NAME=PRIORITY. */
static int take_class(const char *value)
{
    const char *sign = strrchr(value, '=');
    unsigned priority;
    if (!sign || sign == value || nbdkit_parse_unsigned("class", sign + 1, &priority) == -1 || priority > 1279) {
        nbdkit_error("class=%s: it has to be NAME=PRIORITY, with a priority of 0 to 1279", value);
        return -1;
    }
    const char *name = nbdkit_strndup_intern(value, (size_t)(sign - value));
    if (!name)
        return -1;
    const unsigned number = class_of(name);
    if (number == MAX_CLASSES) {
        nbdkit_error("class=%s: there are %u classes already", value, MAX_CLASSES);
        return -1;
    }
    class_count += number == class_count;
    names[number] = name;
    priorities[number] = priority;
    return 0;
}

static int take_path(char **path, const char *value)
{
    free(*path);
    *path = nbdkit_absolute_path(value);
    return *path ? 0 : -1;
}

static int take_number(const char *key, const char *value, unsigned *number, unsigned least, unsigned most)
{
    if (nbdkit_parse_unsigned(key, value, number) == -1)
        return -1;
    if (*number < least || *number > most) {
        nbdkit_error("%s=%s: it has to be %u to %u", key, value, least, most);
        return -1;
    }
    return 0;
}

static int camxpt_config_word(const char *key, const char *value)
{
    if (strcmp(key, "file") == 0)
        return take_path(&file, value);
    if (strcmp(key, "recordings") == 0)
        return take_path(&folder, value);
    if (strcmp(key, "window") == 0)
        return take_number(key, value, &window_seconds, 1, 3600);
    if (strcmp(key, "trace") == 0)
        return take_path(&trace, value);
    if (strcmp(key, "class") == 0)
        return take_class(value);
    if (strcmp(key, "openings") == 0)
        return take_number(key, value, &openings, 1, 255);
    if (strcmp(key, "host") == 0)
        return take_number(key, value, &host, 1, 255);
    if (strcmp(key, "error-rate") == 0)
        return take_number(key, value, &failing, 0, 1000000000);
    if (strcmp(key, "busy") == 0)
        return take_number(key, value, &busy, 0, 1000000000);
    if (strcmp(key, "service") == 0)
        return take_number(key, value, &service, 0, 1000000);
    nbdkit_error("unknown parameter '%s'", key);
    return -1;
}

static int config_complete(void)
{
    if (!file) {
        nbdkit_error("file=DISK has to be given");
        return -1;
    }
    names[class_count] = "other";
    priorities[class_count] = 896;
    return 0;
}

#define HELP                                                                                                          \
    "file=DISK              the file that is served\n"                                                                \
    "openings=N             how many requests are sent in a round, 1 to 255 (4)\n"                                    \
    "host=N                 how many of them the host takes, 1 to 255 (255)\n"                                        \
    "class=NAME=PRIORITY    the priority of an export's requests, 0 (most urgent) to 1279 (896)\n"                    \
    "service=MICROSECONDS   how much longer each request takes (0)\n"                                                 \
    "error-rate=N           one of N requests fails (0: none)\n"                                                      \
    "busy=N                 one of N requests is busy at first, and sent again (0: none)\n"                           \
    "recordings=FOLDER      where a recording of each window is written, for camxpt audit\n"                          \
    "window=SECONDS         how long a window is, 1 to 3600 (10)\n"                                                   \
    "trace=FILE             where the trace is written at the end, if it fits into one"

/* ---- the recorder: notes under the lock, and a thread that takes them ---------------------------------------------------- */

static pthread_mutex_t lock = PTHREAD_MUTEX_INITIALIZER;
static pthread_cond_t room = PTHREAD_COND_INITIALIZER;

enum note_kind { ARRIVES, STARTS, IS_DONE, IS_WITHDRAWN };

struct note {
    uint64_t id, ns;
    uint8_t kind, driver;
};

static struct note *notes, *taken;
static size_t note_count;
static uint64_t last_id, clock_base;
static pthread_t recording_thread;
/* Over: no note comes any more. Closing: the recording thread has ended, and what is left is written. */
static bool is_recording, is_over, is_closing;

static camxpt_recorder recorder = CAMXPT_RECORDER_INIT;
/* Something of the recordings or the trace is lost: the status is 1. */
static bool is_lost;

static uint64_t nanoseconds(clockid_t clock)
{
    struct timespec now;
    clock_gettime(clock, &now);
    return (uint64_t)now.tv_sec * 1000000000 + (uint64_t)now.tv_nsec;
}

/* The time of day at the start, and what has passed since then: it never goes back. */
static uint64_t now(void)
{
    return clock_base + nanoseconds(CLOCK_MONOTONIC);
}

static void note(enum note_kind kind, uint64_t id, unsigned driver)
{
    if (is_recording)
        notes[note_count++] = (struct note){ id, now(), (uint8_t)kind, (uint8_t)driver };
}

/* If many notes wait for the recorder, no request enters until they were taken. Those that have entered make a few notes each. */
static bool has_room_for_notes(void)
{
    return note_count <= MAX_NOTES / 2;
}

/* Says what went wrong with a recording, once until it goes well again. */
static bool is_said;

static void complain(const char *what, const char *why)
{
    if (!is_said)
        nbdkit_error("%s: %s", what, why);
    is_said = true;
}

/* Writes a window's recording to FOLDER/BEGIN.csv, which is there once it is whole. After a failure it isn't tried for a second. */
static int write_window(void *user, const camxpt_window *window, const void *bytes, size_t size)
{
    static char path[PATH_MAX + 64], partial[PATH_MAX + 80];
    static FILE *out;
    static uint64_t wait_until;
    (void)user;
    if (now() < wait_until && !is_closing)
        return 1;
    if (window->offset == 0) {
        snprintf(path, sizeof path, "%s/%" PRIu64 ".%06" PRIu64 ".csv", folder, window->from_ns / 1000000000,
                 window->from_ns % 1000000000 / 1000);
        snprintf(partial, sizeof partial, "%s.partial", path);
        out = fopen(partial, "wb");
    }
    const bool is_last = window->offset + size == window->size;
    bool is_written = out && fwrite(bytes, 1, size, out) == size && (!is_last || (fflush(out) == 0 && fsync(fileno(out)) == 0));
    if (out && (is_last || !is_written)) {
        is_written = fclose(out) == 0 && is_written;
        out = NULL;
    }
    if (is_written && is_last)
        is_written = rename(partial, path) == 0;
    if (!is_written) {
        complain(path, strerror(errno));
        unlink(partial);
        wait_until = now() + 1000000000;
        return 1;
    }
    if (is_last) {
        is_said = false;
        fprintf(stderr, "camxpt: %s: written, with %" PRIu64 " requests\n", path, window->requests);
    }
    return 0;
}

static camxpt_code note_to_recorder(const struct note *note)
{
    switch (note->kind) {
    case ARRIVES:
        return camxpt_note_arrival(&recorder, note->id, 0, note->driver, priorities[note->driver], note->ns);
    case STARTS:
        return camxpt_note_start(&recorder, note->id, note->ns);
    case IS_DONE:
        return camxpt_note_done(&recorder, note->id, note->ns);
    default:
        return camxpt_note_cancel(&recorder, note->id);
    }
}

/* Notes what happened. A window that couldn't be written is kept; a request for which there is no room, and a window that can't be
 * made, are lost. */
static void take(const struct note *note)
{
    const camxpt_code code = note_to_recorder(note);
    if (code == CAMXPT_OK || code == CAMXPT_E_WRITE)
        return;
    /* (one that was in flight over two windows isn't open any more, nor is one that was lost) */
    if (code == CAMXPT_NOTE_NOT_OPEN)
        return;
    complain(folder, camxpt_code_name(code));
    is_lost |= code != CAMXPT_E_MEMORY;
}

/* Takes notes a hundred times a second, until the server ends. */
static void *take_notes(void *unused)
{
    const struct timespec pause = { 0, 10000000 };
    bool is_last = false;
    while (!is_last) {
        nanosleep(&pause, NULL);
        pthread_mutex_lock(&lock);
        struct note *const full = notes;
        const size_t count = note_count;
        notes = taken;
        taken = full;
        note_count = 0;
        is_last = is_over;
        pthread_cond_broadcast(&room);
        pthread_mutex_unlock(&lock);
        for (size_t k = 0; k < count; k++)
            take(&full[k]);
    }
    return unused;
}

/* Opens the recorder, if its folder is there and has room for 64 kB. */
static int open_recorder(void)
{
    char path[PATH_MAX + 64];
    snprintf(path, sizeof path, "%s/.camxpt-%ld", folder, (long)getpid());
    int probe = strlen(folder) < PATH_MAX ? open(path, O_RDWR | O_CREAT | O_EXCL | O_CLOEXEC, 0600) : -1;
    int error = probe == -1 ? errno : posix_fallocate(probe, 0, 65536);
    if (probe != -1) {
        close(probe);
        unlink(path);
    }
    if (error) {
        nbdkit_error("recordings=%s: %s", folder, strerror(error));
        return -1;
    }
    const char *name = strrchr(file, '/') + 1;
    const camxpt_recorder_device device = { name, openings };
    const camxpt_recorder_options options = {
        .window_ns = (uint64_t)window_seconds * 1000000000,
        .room = MAX_KEPT,
        .devices = &device,
        .device_count = 1,
        .drivers = names,
        .driver_count = class_count + 1,
        .write = write_window,
    };
    camxpt_code code = camxpt_recorder_open(&recorder, &options);
    notes = malloc(MAX_NOTES * sizeof *notes);
    taken = malloc(MAX_NOTES * sizeof *taken);
    if (code == CAMXPT_OK && (!notes || !taken))
        code = CAMXPT_E_MEMORY;
    if (code != CAMXPT_OK) {
        nbdkit_error("recordings=%s: %s", folder, camxpt_code_name(code));
        return -1;
    }
    clock_base = nanoseconds(CLOCK_REALTIME) - nanoseconds(CLOCK_MONOTONIC);
    return 0;
}

static int start_recording(void)
{
    const int error = pthread_create(&recording_thread, NULL, take_notes, NULL);
    if (error)
        nbdkit_error("recordings=%s: %s", folder, strerror(error));
    is_recording = !error;
    return error ? -1 : 0;
}

/* Takes the notes that are left, and writes the windows that are. */
static void end_recording(void)
{
    pthread_mutex_lock(&lock);
    is_over = true;
    pthread_mutex_unlock(&lock);
    pthread_join(recording_thread, NULL);
    is_closing = true;
    const camxpt_code code = camxpt_recorder_close(&recorder);
    if (code != CAMXPT_OK) {
        nbdkit_error("recordings=%s: not all were written: %s", folder, camxpt_code_name(code));
        is_lost = true;
    }
    (void)camxpt_recorder_abandon(&recorder);
}

/* ---- the transport, under the lock -------------------------------------------------------------------------------------- */

struct request {
    TAILQ_ENTRY(request) place;
    pthread_cond_t turn;
    uint64_t id;
    uint32_t ccb;
    unsigned driver;
    enum { WAITS, IS_SENT, IS_REFUSED } state;
};

static pthread_cond_t renewed = PTHREAD_COND_INITIALIZER;
/* The transport, and the handle of the one after it. */
static camxpt handles[2] = { CAMXPT_INIT, CAMXPT_INIT }, *xpt = &handles[0];
/* The requests in its queue. Late are those that wait for a fresh transport. */
static TAILQ_HEAD(, request) queue = TAILQ_HEAD_INITIALIZER(queue);
static uint32_t alive, late, served;
static bool is_open, is_renewed;
static int disk = -1;

/* A code that no call here may answer ends the server: its requests would wait for ever. */
static void expect(camxpt_code code, const char *call)
{
    if (code == CAMXPT_OK)
        return;
    nbdkit_error("%s: %s", call, camxpt_code_name(code));
    abort();
}

static camxpt_counts counts(void)
{
    camxpt_counts counts = { 0, 0, 0, 0, 0, 0, 0, 0 };
    expect(camxpt_look(xpt, &counts), "camxpt_look");
    return counts;
}

static bool is_late(void)
{
    const camxpt_counts now = counts();
    return now.stays > LATE_STAYS || now.length > LATE_EVENTS;
}

static const camxpt_limits limits = CAMXPT_MOST;

/* False if there is no memory. */
static bool open_transport(void)
{
    const uint32_t adapters[] = { host }, lanes[] = { 0 };
    const camxpt_device devices[] = { { 0, 0, 0, openings } };
    const camxpt_code code = camxpt_open(xpt, adapters, 1, devices, 1, lanes, 1, &limits);
    if (code != CAMXPT_E_MEMORY)
        expect(code, "camxpt_open");
    is_open = code == CAMXPT_OK;
    return is_open;
}

/* Without memory for a fresh transport, all requests in the queue are refused, and an empty one takes the place of this one. */
static void refuse_all(void)
{
    struct request *request;
    TAILQ_FOREACH(request, &queue, place) {
        request->state = IS_REFUSED;
        note(IS_WITHDRAWN, request->id, request->driver);
        pthread_cond_signal(&request->turn);
    }
    TAILQ_INIT(&queue);
    expect(camxpt_close(xpt), "camxpt_close");
    (void)open_transport();
}

/* Opens the next round in a fresh transport, with what waits. A request's CCB has another number there, and still its pointer. */
static void renew(void)
{
    static uint32_t numbers[MAX_CCBS];
    camxpt *fresh = xpt == &handles[0] ? &handles[1] : &handles[0];
    size_t count = 0;
    const camxpt_code code = camxpt_carry(xpt, fresh, &limits, numbers, MAX_CCBS, &count);
    if (code == CAMXPT_E_MEMORY)
        refuse_all();
    else {
        expect(code, "camxpt_carry");
        expect(camxpt_close(xpt), "camxpt_close");
        xpt = fresh;
    }
    is_renewed = true;
    pthread_cond_broadcast(&renewed);
}

/* Sends what can be sent, and opens rounds while something waits that no command in flight holds up. */
static void pump(void)
{
    while (is_open) {
        camxpt_command command = { 0, 0, 0, 0, 0, NULL };
        uint32_t round = 0;
        while (!is_late() && camxpt_send_next(xpt, 0, &command) == CAMXPT_OK) {
            struct request *request = command.user;
            TAILQ_REMOVE(&queue, request, place);
            request->ccb = command.ccb;
            request->state = IS_SENT;
            note(STARTS, request->id, request->driver);
            pthread_cond_signal(&request->turn);
        }
        if (counts().in_flight > 0 || (counts().waiting == 0 && !(is_late() && late > 0)))
            return;
        if (is_late() || counts().round == MAX_ROUNDS)
            renew();
        else
            expect(camxpt_tick(xpt, &round), "camxpt_tick");
    }
}

static void arrive(struct request *request)
{
    request->id = ++last_id;
    request->state = WAITS;
    note(ARRIVES, request->id, request->driver);
}

enum outcome { AGAIN, COMPLETE, FAILED };

/* Takes a result: whether the request was put into the queue again, has completed or has failed. */
static enum outcome done(struct request *request, uint8_t status)
{
    camxpt_completion completion = { 0, 0, NULL };
    expect(camxpt_done(xpt, request->ccb, status, 0, NULL, 0, &completion), "camxpt_done");
    note(IS_DONE, request->id, request->driver);
    if (CAMXPT_ASKS_REQUEUE(completion.class_)) {
        expect(camxpt_requeue(xpt, request->ccb), "camxpt_requeue");
        arrive(request);
        TAILQ_INSERT_TAIL(&queue, request, place);
        return AGAIN;
    }
    if (completion.class_ == CAMXPT_COMPLETE)
        return COMPLETE;
    expect(camxpt_finish(xpt, request->ccb), "camxpt_finish");
    return FAILED;
}

/* ---- requests ----------------------------------------------------------------------------------------------------------- */

struct job {
    enum { READ, WRITE, FLUSH } kind;
    char *bytes;
    uint32_t size, flags;
    uint64_t offset;
};

/* Serves a job outside the lock: 0, or what went wrong. */
static int serve(const struct job *job)
{
    if (service)
        usleep(service);
    for (uint32_t at = 0; at < job->size;) {
        off_t offset = (off_t)(job->offset + at);
        ssize_t moved = job->kind == READ ? pread(disk, job->bytes + at, job->size - at, offset)
                                          : pwrite(disk, job->bytes + at, job->size - at, offset);
        if (moved < 0 && errno == EINTR)
            continue;
        if (moved <= 0)
            return moved < 0 ? errno : EIO;
        at += (uint32_t)moved;
    }
    if (job->kind == FLUSH || (job->flags & NBDKIT_FLAG_FUA))
        return fdatasync(disk) ? errno : 0;
    return 0;
}

/* Serves a try that was sent, and gives its CAM status. */
static uint8_t tried(const struct job *job, uint32_t number, int *error)
{
    if (busy && number % busy == 0)
        return CAM_BUSY;
    *error = failing && number % failing == 0 ? EIO : serve(job);
    return *error ? CAM_REQ_CMP_ERR : CAM_REQ_CMP;
}

/* Takes the request into the queue, once there is room. It is refused if there is no transport, nor memory for one. */
static void enter(struct request *request)
{
    while (!has_room_for_notes())
        pthread_cond_wait(&room, &lock);
    arrive(request);
    while (alive == MAX_CCBS)
        pthread_cond_wait(&room, &lock);
    alive++;
    if (is_open && is_late()) {
        late++;
        pump();
        while (is_open && is_late())
            pthread_cond_wait(&renewed, &lock);
        late--;
    }
    if (!is_open && !open_transport()) {
        request->state = IS_REFUSED;
        note(IS_WITHDRAWN, request->id, request->driver);
        return;
    }
    uint32_t priority = priorities[request->driver];
    expect(camxpt_submit(xpt, (uint8_t)request->driver, 0, priority, RETRIES, false, false, request, &request->ccb),
           "camxpt_submit");
    TAILQ_INSERT_TAIL(&queue, request, place);
    pump();
}

static void leave(void)
{
    alive--;
    pthread_cond_signal(&room);
}

/* Serves the job once its request was sent, and again if it was busy: 0, or -1 with an error. */
static int go_through(void *handle, const struct job *job)
{
    struct request request = { .driver = *(unsigned *)handle };
    enum outcome outcome = AGAIN;
    int error = 0;
    pthread_cond_init(&request.turn, NULL);
    pthread_mutex_lock(&lock);
    enter(&request);
    while (outcome == AGAIN) {
        while (request.state == WAITS)
            pthread_cond_wait(&request.turn, &lock);
        if (request.state == IS_REFUSED) {
            error = ENOMEM;
            break;
        }
        uint32_t number = ++served;
        pthread_mutex_unlock(&lock);
        uint8_t status = tried(job, number, &error);
        pthread_mutex_lock(&lock);
        outcome = done(&request, status);
        pump();
    }
    leave();
    pthread_mutex_unlock(&lock);
    pthread_cond_destroy(&request.turn);
    if (outcome == COMPLETE)
        return 0;
    nbdkit_set_error(error ? error : EIO);
    return -1;
}

static int camxpt_pread(void *handle, void *buffer, uint32_t count, uint64_t offset, uint32_t flags)
{
    struct job job = { READ, buffer, count, 0, offset };
    (void)flags;
    return go_through(handle, &job);
}

static int camxpt_pwrite(void *handle, const void *buffer, uint32_t count, uint64_t offset, uint32_t flags)
{
    struct job job = { WRITE, (char *)buffer, count, flags, offset };
    return go_through(handle, &job);
}

static int camxpt_flush(void *handle, uint32_t flags)
{
    struct job job = { FLUSH, NULL, 0, flags, 0 };
    return go_through(handle, &job);
}

/* ---- the server --------------------------------------------------------------------------------------------------------- */

/* Before anybody is answered: what is missing then ends the server. */
static int get_ready(void)
{
    disk = open(file, O_RDWR | O_CLOEXEC);
    if (disk == -1) {
        nbdkit_error("file=%s: %m", file);
        return -1;
    }
    if (folder && open_recorder() == -1)
        return -1;
    if (!open_transport()) {
        nbdkit_error("there is no memory");
        return -1;
    }
    return 0;
}

static int after_fork(void)
{
    return folder ? start_recording() : 0;
}

/* A connection's handle is the number of its export's class. */
static void *camxpt_connect(int readonly)
{
    (void)readonly;
    unsigned *driver = malloc(sizeof *driver);
    if (driver)
        *driver = class_of(nbdkit_export_name());
    else
        nbdkit_error("there is no memory");
    return driver;
}

static int64_t size_of(void *handle)
{
    struct stat stat;
    (void)handle;
    if (fstat(disk, &stat) == -1) {
        nbdkit_error("%s: %m", file);
        return -1;
    }
    return stat.st_size;
}

static int can_fua(void *handle)
{
    (void)handle;
    return NBDKIT_FUA_NATIVE;
}

static int can_multi_conn(void *handle)
{
    (void)handle;
    return 1;
}

/* Writes the trace: false if it isn't written. */
static bool put_trace(void)
{
    size_t needed = 0;
    if (is_renewed || !is_open) {
        nbdkit_error("trace=%s: not written, since there were more events than a trace has", trace);
        return false;
    }
    camxpt_code code = camxpt_trace(xpt, NULL, 0, &needed);
    char *text = code == CAMXPT_E_SPACE ? malloc(needed) : NULL;
    if (!text || camxpt_trace(xpt, text, needed, &needed) != CAMXPT_OK) {
        nbdkit_error("trace=%s: there is no memory", trace);
        free(text);
        return false;
    }
    FILE *out = fopen(trace, "w");
    const bool is_written = out && fwrite(text, 1, needed, out) == needed;
    free(text);
    if (!out || fclose(out) != 0 || !is_written) {
        nbdkit_error("trace=%s: %m", trace);
        return false;
    }
    return true;
}

static void unload(void)
{
    if (is_recording)
        end_recording();
    if (disk != -1) {
        if (trace && !put_trace())
            is_lost = true;
        (void)camxpt_close(xpt);
        close(disk);
    }
    free(notes);
    free(taken);
    free(file);
    free(folder);
    free(trace);
    /* (nbdkit asks no plugin for its status) */
    if (is_lost)
        exit(EXIT_FAILURE);
}

static struct nbdkit_plugin plugin = {
    .name = "camxpt",
    .longname = "a file behind a CAM transport",
    .config = camxpt_config_word,
    .config_complete = config_complete,
    .config_help = HELP,
    .magic_config_key = "file",
    .get_ready = get_ready,
    .after_fork = after_fork,
    .open = camxpt_connect,
    .close = free,
    .get_size = size_of,
    .can_fua = can_fua,
    .can_multi_conn = can_multi_conn,
    .pread = camxpt_pread,
    .pwrite = camxpt_pwrite,
    .flush = camxpt_flush,
    .unload = unload,
};

NBDKIT_REGISTER_PLUGIN(plugin)
