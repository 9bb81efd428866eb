/* A recorder's calls: what they answer, what windows they give, and what comes of a write function that fails. The recordings of
 * two windows are written to files that begin with the argument, of which `runs/c` holds what `camxpt check` counts against the
 * numbers that are printed. */
#include "camxpt.h"

#include <stdio.h>
#include <stdlib.h>
#include <string.h>

enum { LEAST = -15, MOST = 90, NOTES = 80, NORMAL = 1152, EACH = 20, TEXT = 1 << 20 };

#define MS UINT64_C(1000000)
#define SECOND (1000 * MS)

static unsigned checks;
static bool reached[MOST - LEAST + 1];

static void due(camxpt_code code, camxpt_code wanted, int line)
{
    if (code != wanted) {
        fprintf(stderr, "recorder.c:%d: %s, due %s\n", line, camxpt_code_name(code), camxpt_code_name(wanted));
        exit(EXIT_FAILURE);
    }
    reached[wanted - LEAST] = true;
    checks++;
}

static void holds(bool fact, int line)
{
    if (!fact) {
        fprintf(stderr, "recorder.c:%d: doesn't hold\n", line);
        exit(EXIT_FAILURE);
    }
    checks++;
}

#define DUE(call, wanted) due((call), (wanted), __LINE__)
#define HOLDS(fact) holds((fact), __LINE__)

/* What was written: the last window and its bytes, how many windows were written whole, and how many calls are refused after how many
 * that are granted. */
struct written {
    camxpt_window window;
    char text[TEXT];
    size_t size;
    unsigned whole, calls, granted, refused;
};

static int keep(void *user, const camxpt_window *window, const void *bytes, size_t size)
{
    struct written *w = (struct written *)user;

    w->calls++;
    if (w->granted > 0)
        w->granted--;
    else if (w->refused > 0) {
        w->refused--;
        return 1;
    }
    HOLDS(size > 0 && size <= 65536 && window->offset + size <= window->size && window->size <= sizeof w->text);
    if (window->offset == 0)
        w->size = 0;
    HOLDS(w->size == window->offset);
    memcpy(w->text + w->size, bytes, size);
    w->size += size;
    w->window = *window;
    w->whole += w->size == window->size;
    return 0;
}

static const camxpt_recorder_device disks[] = {{"sda", 4}, {"sdb", 0}};
static const camxpt_recorder_device wide_disks[] = {{"sda", 16}, {"sdb", 16}}, narrow_disks[] = {{"sda", 1}};
static const char *const drivers[] = {"fio"};

static camxpt_recorder_options options_of(struct written *to, uint64_t window_ns, uint32_t room)
{
    camxpt_recorder_options o;

    memset(to, 0, sizeof *to);
    memset(&o, 0, sizeof o);
    o.round.count = 1;
    o.round.unit = CAMXPT_MILLISECONDS;
    o.window_ns = window_ns;
    o.room = room;
    o.devices = disks;
    o.device_count = 2;
    o.drivers = drivers;
    o.driver_count = 1;
    o.write = keep;
    o.user = to;
    return o;
}

/* A request that arrives at this time, is started 2 ms later and is done 8 ms later. What the last note answers. */
static camxpt_code serve(camxpt_recorder *r, uint64_t id, uint64_t ns)
{
    DUE(camxpt_note_arrival(r, id, (uint32_t)(id % 2), 0, NORMAL, ns), CAMXPT_OK);
    DUE(camxpt_note_start(r, id, ns + 2 * MS), CAMXPT_OK);
    return camxpt_note_done(r, id, ns + 8 * MS);
}

static void save(const char *prefix, const struct written *w)
{
    char path[4096];
    FILE *file;

    snprintf(path, sizeof path, "%s-%u.csv", prefix, (unsigned)w->window.number);
    file = fopen(path, "wb");
    if (file == NULL || fwrite(w->text, 1, w->size, file) != w->size || fclose(file) != 0)
        exit(EXIT_FAILURE);
    printf("window %u: %u requests in %u rounds\n", (unsigned)w->window.number, (unsigned)w->window.requests, w->window.rounds);
}

static void is_window(const struct written *w, unsigned number, uint64_t from, unsigned requests)
{
    HOLDS(w->window.number == number && w->window.from_ns == from && w->window.until_ns == from + SECOND);
    HOLDS(w->window.requests == requests && w->window.carried == 0 && w->window.rounds == 1000);
    HOLDS(w->size == w->window.size && w->size > 10 && memcmp(w->text, "camrecord2", 10) == 0);
}

/* Two windows of a second each, in each of which 20 requests are started. */
static void windows(const char *prefix)
{
    static struct written w;
    const camxpt_recorder_options o = options_of(&w, SECOND, 1000);
    const uint64_t begin = 5 * SECOND, gap = SECOND / EACH;
    camxpt_recorder r = CAMXPT_RECORDER_INIT;
    unsigned calls;
    uint64_t id = 0;

    DUE(camxpt_recorder_open(&r, &o), CAMXPT_OK);
    for (; id < 2 * EACH; id++)
        DUE(serve(&r, id, begin + id * gap), CAMXPT_OK);
    HOLDS(w.calls == 0);
    /* a second after its end the first window is over */
    DUE(serve(&r, id, begin + 2 * SECOND), CAMXPT_OK);
    HOLDS(w.whole == 1 && r.self_ == &r);
    is_window(&w, 1, begin, EACH);
    save(prefix, &w);
    /* the second one can't be written, at three notes */
    calls = w.calls;
    w.refused = 3;
    DUE(camxpt_note_arrival(&r, 1000, 0, 0, NORMAL, begin + 3 * SECOND), CAMXPT_E_WRITE);
    DUE(camxpt_note_arrival(&r, 1000, 0, 0, NORMAL, begin + 3 * SECOND), CAMXPT_NOTE_ALREADY_OPEN);
    DUE(camxpt_note_start(&r, 1000, begin + 3 * SECOND), CAMXPT_E_WRITE);
    DUE(camxpt_recorder_close(&r), CAMXPT_E_WRITE);
    HOLDS(w.whole == 1 && w.calls == calls + 3);
    DUE(camxpt_note_done(&r, 1000, begin + 3 * SECOND + MS), CAMXPT_OK);
    HOLDS(w.whole == 2);
    is_window(&w, 2, begin + SECOND, EACH);
    save(prefix, &w);
    /* nothing more was started but two requests */
    DUE(camxpt_recorder_close(&r), CAMXPT_OK);
    HOLDS(w.whole == 4 && w.window.number == 4 && w.window.requests == 1 && w.window.from_ns == begin + 3 * SECOND);
    DUE(camxpt_recorder_close(&r), CAMXPT_E_CLOSED);
}

/* A write function that fails after the first pieces of a window gets the whole window anew. */
static void pieces(void)
{
    static struct written w;
    static char first[TEXT];
    camxpt_recorder_options o = options_of(&w, SECOND, 4000);
    camxpt_recorder r = CAMXPT_RECORDER_INIT;
    uint64_t id = 0;
    size_t size;

    o.devices = wide_disks;
    DUE(camxpt_recorder_open(&r, &o), CAMXPT_OK);
    for (; id < 2000; id++)
        DUE(serve(&r, id, SECOND + id * MS / 2), CAMXPT_OK);
    w.granted = 1;
    w.refused = 1;
    DUE(camxpt_note_arrival(&r, id, 0, 0, NORMAL, 3 * SECOND), CAMXPT_E_WRITE);
    size = w.size;
    HOLDS(w.whole == 0 && w.calls == 2 && size > 0 && size < w.window.size);
    memcpy(first, w.text, size);
    DUE(camxpt_note_cancel(&r, id), CAMXPT_OK);
    HOLDS(w.whole == 1 && w.window.requests == 1996 && w.size > size && memcmp(first, w.text, size) == 0);
    DUE(camxpt_recorder_abandon(&r), CAMXPT_OK);
    HOLDS(w.whole == 1);
}

/* Why a note isn't taken. */
static void faults(void)
{
    static struct written w;
    const camxpt_recorder_options o = options_of(&w, SECOND, 3);
    camxpt_recorder r = CAMXPT_RECORDER_INIT;
    const uint64_t now = 10 * SECOND;

    DUE(camxpt_recorder_open(&r, &o), CAMXPT_OK);
    DUE(camxpt_note_arrival(&r, 1, 2, 0, NORMAL, now), CAMXPT_NOTE_NO_DEVICE);
    DUE(camxpt_note_arrival(&r, 1, 0, 1, NORMAL, now), CAMXPT_NOTE_NO_DRIVER);
    DUE(camxpt_note_arrival(&r, 1, 0, 0, 1280, now), CAMXPT_NOTE_BAD_PRIORITY);
    DUE(camxpt_note_start(&r, 1, now), CAMXPT_NOTE_NOT_OPEN);
    DUE(camxpt_note_arrival(&r, 1, 0, 0, 1279, now), CAMXPT_OK);
    DUE(camxpt_note_arrival(&r, 1, 0, 0, NORMAL, now), CAMXPT_NOTE_ALREADY_OPEN);
    DUE(camxpt_note_arrival(&r, 2, 0, 0, NORMAL, now - SECOND - 1), CAMXPT_NOTE_TIME_FALLS);
    DUE(camxpt_note_arrival(&r, 2, 0, 0, NORMAL, now - SECOND), CAMXPT_OK);
    DUE(camxpt_note_start(&r, 1, now - 1), CAMXPT_NOTE_BEFORE_ARRIVAL);
    DUE(camxpt_note_done(&r, 1, now), CAMXPT_NOTE_NOT_STARTED);
    DUE(camxpt_note_start(&r, 1, now), CAMXPT_OK);
    DUE(camxpt_note_start(&r, 1, now), CAMXPT_NOTE_ALREADY_STARTED);
    DUE(camxpt_note_cancel(&r, 1), CAMXPT_NOTE_ALREADY_STARTED);
    DUE(camxpt_note_done(&r, 1, now - 1), CAMXPT_NOTE_BEFORE_START);
    DUE(camxpt_note_cancel(&r, 3), CAMXPT_NOTE_NOT_OPEN);
    DUE(camxpt_note_arrival(&r, 3, 1, 0, NORMAL, now), CAMXPT_OK);
    DUE(camxpt_note_arrival(&r, 4, 1, 0, NORMAL, now), CAMXPT_NOTE_FULL);
    DUE(camxpt_note_done(&r, 1, now), CAMXPT_OK);
    DUE(camxpt_recorder_close(&r), CAMXPT_OK);
    HOLDS(w.window.requests == 1);
}

/* Where there is no room, the window is cut off early. */
static void room(void)
{
    static struct written w;
    const camxpt_recorder_options o = options_of(&w, 60 * SECOND, 10);
    camxpt_recorder r = CAMXPT_RECORDER_INIT;
    uint64_t requests = 0, last;

    DUE(camxpt_recorder_open(&r, &o), CAMXPT_OK);
    for (uint64_t id = 0; id < 100; id++) {
        const unsigned whole = w.whole;

        DUE(serve(&r, id, (id + 1) * SECOND / 4), CAMXPT_OK);
        requests += w.whole > whole ? w.window.requests : 0;
    }
    HOLDS(w.whole > 10 && w.window.rounds < 60000);
    /* also if it can't be written: then there is room for the note all the same */
    w.refused = 1;
    for (last = 100; w.refused == 1; last++) {
        const camxpt_code code = camxpt_note_arrival(&r, last, 0, 0, NORMAL, (last + 1) * SECOND / 4);

        DUE(code, w.refused == 1 ? CAMXPT_OK : CAMXPT_E_WRITE);
    }
    for (uint64_t id = 100; id < last; id++) {
        const unsigned whole = w.whole;

        DUE(camxpt_note_cancel(&r, id), CAMXPT_OK);
        requests += w.whole > whole ? w.window.requests : 0;
    }
    DUE(camxpt_recorder_close(&r), CAMXPT_OK);
    HOLDS(requests + w.window.requests == 100);
}

/* What a recorder isn't opened with, and recorders that are closed or copied. */
static void openings(void)
{
    static struct written w;
    static camxpt_recorder_device many[33];
    static const char *names[257];
    const camxpt_recorder_options good = options_of(&w, SECOND, 10);
    camxpt_recorder_options o = good;
    camxpt_recorder r = CAMXPT_RECORDER_INIT, copy;

    DUE(camxpt_recorder_open(NULL, &good), CAMXPT_E_NULL);
    DUE(camxpt_recorder_open(&r, NULL), CAMXPT_E_NULL);
    o.write = NULL;
    DUE(camxpt_recorder_open(&r, &o), CAMXPT_E_NULL);
    o = good;
    o.devices = NULL;
    DUE(camxpt_recorder_open(&r, &o), CAMXPT_E_NULL);
    o = good;
    o.drivers = NULL;
    DUE(camxpt_recorder_open(&r, &o), CAMXPT_E_NULL);
    o.drivers = names;
    DUE(camxpt_recorder_open(&r, &o), CAMXPT_E_NULL);
    o = good;
    o.window_ns = 0;
    DUE(camxpt_recorder_open(&r, &o), CAMXPT_E_LIMIT);
    o = good;
    o.room = 0;
    DUE(camxpt_recorder_open(&r, &o), CAMXPT_E_LIMIT);
    o.room = 16777217;
    DUE(camxpt_recorder_open(&r, &o), CAMXPT_E_LIMIT);
    o = good;
    o.round.unit = 4;
    DUE(camxpt_recorder_open(&r, &o), CAMXPT_E_UNIT);
    for (size_t k = 0; k < 257; k++)
        names[k] = "web";
    for (size_t k = 0; k < 33; k++)
        many[k].name = "sda";
    o = good;
    o.devices = many;
    o.device_count = 33;
    DUE(camxpt_recorder_open(&r, &o), CAMXPT_E_LIMIT);
    o = good;
    o.drivers = names;
    o.driver_count = 257;
    DUE(camxpt_recorder_open(&r, &o), CAMXPT_E_LIMIT);
    o.driver_count = 256;
    HOLDS(r.self_ == NULL);
    DUE(camxpt_note_start(&r, 1, 1), CAMXPT_E_CLOSED);
    DUE(camxpt_recorder_abandon(&r), CAMXPT_E_CLOSED);
    DUE(camxpt_note_cancel(NULL, 1), CAMXPT_E_NULL);
    DUE(camxpt_recorder_open(&r, &o), CAMXPT_OK);
    DUE(camxpt_recorder_open(&r, &o), CAMXPT_E_OPEN);
    copy = r;
    DUE(camxpt_recorder_open(&copy, &o), CAMXPT_E_COPIED);
    DUE(camxpt_note_arrival(&copy, 1, 0, 0, NORMAL, 1), CAMXPT_E_COPIED);
    DUE(camxpt_note_done(&copy, 1, 1), CAMXPT_E_COPIED);
    DUE(camxpt_recorder_close(&copy), CAMXPT_E_COPIED);
    DUE(camxpt_note_arrival(&r, 1, 0, 255, NORMAL, 1), CAMXPT_OK);
    DUE(camxpt_recorder_close(&r), CAMXPT_OK);
    HOLDS(w.calls == 0);
}

/* A device that has more in flight than its depth. */
static void shallow(void)
{
    static struct written w;
    camxpt_recorder_options o = options_of(&w, SECOND, 100);
    camxpt_recorder r = CAMXPT_RECORDER_INIT;

    o.devices = narrow_disks;
    o.device_count = 1;
    DUE(camxpt_recorder_open(&r, &o), CAMXPT_OK);
    for (uint64_t id = 0; id < 2; id++) {
        DUE(camxpt_note_arrival(&r, id, 0, 0, NORMAL, SECOND), CAMXPT_OK);
        DUE(camxpt_note_start(&r, id, SECOND + MS), CAMXPT_OK);
    }
    for (uint64_t id = 0; id < 2; id++)
        DUE(camxpt_note_done(&r, id, SECOND + 2 * MS), CAMXPT_OK);
    DUE(camxpt_note_arrival(&r, 3, 0, 0, NORMAL, 3 * SECOND), CAMXPT_E_WINDOW);
    DUE(camxpt_note_arrival(&r, 3, 0, 0, NORMAL, 3 * SECOND), CAMXPT_NOTE_ALREADY_OPEN);
    DUE(camxpt_note_start(&r, 3, 3 * SECOND), CAMXPT_E_WINDOW);
    DUE(camxpt_note_start(&r, 3, 3 * SECOND), CAMXPT_NOTE_ALREADY_STARTED);
    DUE(camxpt_recorder_close(&r), CAMXPT_E_WINDOW);
    DUE(camxpt_recorder_close(&r), CAMXPT_E_CLOSED);
}

int main(int argc, char **argv)
{
    if (argc != 2)
        return 2;
    windows(argv[1]);
    pieces();
    faults();
    room();
    openings();
    shallow();
    for (camxpt_code code = LEAST; code <= MOST; code++)
        if ((code < CAMXPT_E_DONE || code >= NOTES) && !reached[code - LEAST]) {
            fprintf(stderr, "recorder: no call answers %s\n", camxpt_code_name(code));
            return EXIT_FAILURE;
        }
    printf("%u checks, each code of a recorder was answered\n", checks);
    return EXIT_SUCCESS;
}
