/* The functions of camxpt.h. Each tests its pointers and whether its handle is open, and then calls the proved function of its name. */
#include "raw.h"

#include <string.h>

const char *camxpt_version(void)
{
    return CAMXPT_VERSION;
}

const char *camxpt_code_name(camxpt_code code)
{
    switch (code) {
    case CAMXPT_OK: return "Ok";
    case CAMXPT_E_CLOSED: return "Closed";
    case CAMXPT_E_OPEN: return "Open";
    case CAMXPT_E_MEMORY: return "OutOfMemory";
    case CAMXPT_E_LIMIT: return "BadLimit";
    case CAMXPT_E_SPACE: return "NoSpace";
    case CAMXPT_E_NULL: return "Null";
    case CAMXPT_E_COPIED: return "Copied";
    case CAMXPT_E_KIND: return "BadKind";
    case CAMXPT_E_UNIT: return "BadUnit";
    case CAMXPT_E_ROUNDS: return "BadRounds";
    case CAMXPT_E_REQUESTS: return "TooManyRequests";
    case CAMXPT_E_CAP: return "BadCap";
    case CAMXPT_E_DONE: return "BadDone";
    case CAMXPT_E_WRITE: return "WriteFailed";
    case CAMXPT_E_WINDOW: return "NoWindow";
    case CAMXPT_HISTORY_FULL: return "HistoryFull";
    case CAMXPT_NO_DEVICE: return "NoDevice";
    case CAMXPT_NO_ADAPTER: return "NoAdapter";
    case CAMXPT_NO_LANE: return "NoLane";
    case CAMXPT_NO_CCB: return "NoCcb";
    case CAMXPT_BAD_PRIORITY: return "BadPriority";
    case CAMXPT_BAD_RETRIES: return "BadRetries";
    case CAMXPT_BAD_COUNT: return "BadCount";
    case CAMXPT_BAD_OPENINGS: return "BadOpenings";
    case CAMXPT_BAD_STATUS: return "BadStatus";
    case CAMXPT_CCB_FULL: return "CcbFull";
    case CAMXPT_STAYS_FULL: return "StaysFull";
    case CAMXPT_NOT_QUEUED: return "NotQueued";
    case CAMXPT_WRONG_LANE: return "WrongLane";
    case CAMXPT_DEVICE_FROZEN: return "DeviceFrozen";
    case CAMXPT_ADAPTER_FROZEN: return "AdapterFrozen";
    case CAMXPT_NO_OPENING: return "NoOpening";
    case CAMXPT_NOT_HEAD: return "NotHead";
    case CAMXPT_NOT_IN_FLIGHT: return "NotInFlight";
    case CAMXPT_NOT_RECOVERING: return "NotRecovering";
    case CAMXPT_WRONG_DECISION: return "WrongDecision";
    case CAMXPT_FREEZE_OVERFLOW: return "FreezeOverflow";
    case CAMXPT_RELEASE_TOO_MANY: return "ReleaseTooMany";
    case CAMXPT_IN_FLIGHT: return "InFlight";
    case CAMXPT_ROUNDS_FULL: return "RoundsFull";
    case CAMXPT_IDLE_EMPTY: return "IdleEmpty";
    case CAMXPT_IDLE_ADAPTER_FROZEN: return "IdleAdapterFrozen";
    case CAMXPT_IDLE_ADAPTER_BUSY: return "IdleAdapterBusy";
    case CAMXPT_IDLE_DEVICES_HELD: return "IdleDevicesHeld";
    case CAMXPT_NONE: return "None";
    case CAMXPT_UNDECIDED: return "Undecided";
    case CAMXPT_FAULT_NO_ADAPTERS: return "FaultNoAdapters";
    case CAMXPT_FAULT_TOO_MANY: return "FaultTooMany";
    case CAMXPT_FAULT_BAD_OPENINGS: return "FaultBadOpenings";
    case CAMXPT_FAULT_NO_ADAPTER: return "FaultNoAdapter";
    case CAMXPT_FAULT_BAD_ADDRESS: return "FaultBadAddress";
    case CAMXPT_FAULT_DOUBLE_DEVICE: return "FaultDoubleDevice";
    case CAMXPT_FAULT_BAD_WEIGHT: return "FaultBadWeight";
    case CAMXPT_FAULT_NO_LINK: return "FaultNoLink";
    case CAMXPT_CAUSE_NO_DEVICE: return "CauseNoDevice";
    case CAMXPT_CAUSE_BAD_PRIORITY: return "CauseBadPriority";
    case CAMXPT_CAUSE_BAD_WINDOW: return "CauseBadWindow";
    case CAMXPT_CAUSE_EARLY: return "CauseEarly";
    case CAMXPT_CAUSE_LATE: return "CauseLate";
    case CAMXPT_CAUSE_DEVICE_FULL: return "CauseDeviceFull";
    case CAMXPT_CAUSE_ADAPTER_FULL: return "CauseAdapterFull";
    case CAMXPT_CAUSE_LINK_FULL: return "CauseLinkFull";
    case CAMXPT_NOTE_NO_DEVICE: return "NoteNoDevice";
    case CAMXPT_NOTE_NO_DRIVER: return "NoteNoDriver";
    case CAMXPT_NOTE_BAD_PRIORITY: return "NoteBadPriority";
    case CAMXPT_NOTE_TIME_FALLS: return "NoteTimeFalls";
    case CAMXPT_NOTE_ALREADY_OPEN: return "NoteAlreadyOpen";
    case CAMXPT_NOTE_FULL: return "NoteFull";
    case CAMXPT_NOTE_NOT_OPEN: return "NoteNotOpen";
    case CAMXPT_NOTE_ALREADY_STARTED: return "NoteAlreadyStarted";
    case CAMXPT_NOTE_NOT_STARTED: return "NoteNotStarted";
    case CAMXPT_NOTE_BEFORE_ARRIVAL: return "NoteBeforeArrival";
    case CAMXPT_NOTE_BEFORE_START: return "NoteBeforeStart";
    default: return "Unknown";
    }
}

/* What is wrong with a handle that has to be open. */
static camxpt_code bad_handle(const camxpt *x)
{
    if (!x)
        return CAMXPT_E_NULL;
    if (x->self_ == x)
        return CAMXPT_OK;
    return x->self_ ? CAMXPT_E_COPIED : CAMXPT_E_CLOSED;
}

/* How many devices a configuration has at most. */
enum { MOST_DEVICES = 32 };

/* The devices that may be read: one too many is refused as any other number of them is, so none after the 32nd is looked at. */
struct devices {
    camxpt_device list[MOST_DEVICES + 1];
    size_t count;
};

static struct devices first_devices(const camxpt_device *devices, size_t count)
{
    struct devices first;

    memset(&first, 0, sizeof first);
    if (count > 0)
        memcpy(first.list, devices, (count < MOST_DEVICES ? count : MOST_DEVICES) * sizeof *devices);
    first.count = count > MOST_DEVICES ? MOST_DEVICES + 1 : count;
    return first;
}

#define CALL(x, pointers, call) (bad_handle(x) != CAMXPT_OK ? bad_handle(x) : (pointers) ? (call) : (camxpt_code)CAMXPT_E_NULL)

camxpt_code camxpt_open(camxpt *x, const uint32_t *adapters, size_t adapter_count, const camxpt_device *devices,
                        size_t device_count, const uint32_t *lanes, size_t lane_count, const camxpt_limits *limits)
{
    static const uint32_t no_number = 0;
    struct devices first;
    camxpt_code code;

    if (!x || !limits || (!adapters && adapter_count) || (!devices && device_count) || (!lanes && lane_count))
        return CAMXPT_E_NULL;
    if (x->self_)
        return x->self_ == x ? CAMXPT_E_OPEN : CAMXPT_E_COPIED;
    first = first_devices(devices, device_count);
    code = camxpt_raw_open(&x->raw_, adapters ? adapters : &no_number, adapter_count, first.list, first.count,
                           lanes ? lanes : &no_number, lane_count, limits);
    if (code == CAMXPT_OK)
        x->self_ = x;
    return code;
}

camxpt_code camxpt_open_with(camxpt *x, const camxpt_config *c, const camxpt_limits *limits)
{
    static const camxpt_weight no_weight = {0, 0};
    static const uint32_t no_number = 0;
    static const camxpt_adapter no_adapter = {0, 0};
    struct devices first;
    camxpt_code code;

    if (!x || !c || !limits || (!c->weights && c->weight_count) || (!c->links && c->link_count) ||
        (!c->adapters && c->adapter_count) || (!c->devices && c->device_count) || (!c->lanes && c->lane_count))
        return CAMXPT_E_NULL;
    if (x->self_)
        return x->self_ == x ? CAMXPT_E_OPEN : CAMXPT_E_COPIED;
    first = first_devices(c->devices, c->device_count);
    code = camxpt_raw_open_with(&x->raw_, c->weights ? c->weights : &no_weight, c->weight_count,
                                c->links ? c->links : &no_number, c->link_count, c->adapters ? c->adapters : &no_adapter,
                                c->adapter_count, first.list, first.count, c->lanes ? c->lanes : &no_number, c->lane_count,
                                limits);
    if (code == CAMXPT_OK)
        x->self_ = x;
    return code;
}

camxpt_code camxpt_close(camxpt *x)
{
    const camxpt_code bad = bad_handle(x);

    if (bad != CAMXPT_OK)
        return bad;
    x->self_ = NULL;
    return camxpt_raw_close(&x->raw_);
}

camxpt_code camxpt_submit(camxpt *x, uint8_t driver, uint32_t device, uint32_t priority, uint32_t retries, bool qfreeze,
                          bool qfrzdis, void *user, uint32_t *ccb)
{
    return CALL(x, ccb,
                camxpt_raw_submit(&x->raw_, driver, device, priority, retries, qfreeze, qfrzdis, (uintptr_t)user, ccb));
}

camxpt_code camxpt_send_next(camxpt *x, uint32_t lane, camxpt_command *command)
{
    return CALL(x, command, camxpt_raw_send_next(&x->raw_, lane, command));
}

camxpt_code camxpt_done(camxpt *x, uint32_t ccb, uint8_t status, uint8_t scsi, const uint8_t *sense, size_t sense_len,
                        camxpt_completion *done)
{
    static const uint8_t no_byte = 0;

    return CALL(x, done && (sense || !sense_len),
                camxpt_raw_done(&x->raw_, ccb, status, scsi, sense ? sense : &no_byte, sense_len, done));
}

camxpt_code camxpt_requeue(camxpt *x, uint32_t ccb)
{
    return CALL(x, true, camxpt_raw_requeue(&x->raw_, ccb));
}

camxpt_code camxpt_finish(camxpt *x, uint32_t ccb)
{
    return CALL(x, true, camxpt_raw_finish(&x->raw_, ccb));
}

camxpt_code camxpt_freeze_dev(camxpt *x, uint32_t device, uint32_t count)
{
    return CALL(x, true, camxpt_raw_freeze_dev(&x->raw_, device, count));
}

camxpt_code camxpt_release_dev(camxpt *x, uint32_t device, uint32_t count)
{
    return CALL(x, true, camxpt_raw_release_dev(&x->raw_, device, count));
}

camxpt_code camxpt_freeze_sim(camxpt *x, uint32_t sim, uint32_t count)
{
    return CALL(x, true, camxpt_raw_freeze_sim(&x->raw_, sim, count));
}

camxpt_code camxpt_release_sim(camxpt *x, uint32_t sim)
{
    return CALL(x, true, camxpt_raw_release_sim(&x->raw_, sim));
}

camxpt_code camxpt_adjust(camxpt *x, uint32_t device, uint32_t openings)
{
    return CALL(x, true, camxpt_raw_adjust(&x->raw_, device, openings));
}

camxpt_code camxpt_tick(camxpt *x, uint32_t *round)
{
    return CALL(x, round, camxpt_raw_tick(&x->raw_, round));
}

camxpt_code camxpt_has_head(camxpt *x, uint32_t lane)
{
    return CALL(x, true, camxpt_raw_has_head(&x->raw_, lane));
}

camxpt_code camxpt_next_case(camxpt *x, camxpt_case *found)
{
    return camxpt_case_at(x, 0, found);
}

camxpt_code camxpt_case_at(camxpt *x, size_t number, camxpt_case *found)
{
    return CALL(x, found, camxpt_raw_case_at(&x->raw_, number, found));
}

camxpt_code camxpt_look(camxpt *x, camxpt_counts *counts)
{
    return CALL(x, counts, camxpt_raw_look(&x->raw_, counts));
}

camxpt_code camxpt_device_state(camxpt *x, uint32_t device, camxpt_device_counts *counts)
{
    return CALL(x, counts, camxpt_raw_device_state(&x->raw_, device, counts));
}

camxpt_code camxpt_take(camxpt *x, const camxpt_event *event, uint32_t *ccb, camxpt_completion *done)
{
    uint32_t no_ccb = 0;
    camxpt_completion no_done = {0, 0, NULL};

    return CALL(x, event, camxpt_raw_take(&x->raw_, event, ccb ? ccb : &no_ccb, done ? done : &no_done));
}

camxpt_code camxpt_refusal(camxpt *x, const camxpt_event *event)
{
    return CALL(x, event, camxpt_raw_refusal(&x->raw_, event));
}

camxpt_code camxpt_events(camxpt *x, uint32_t first, camxpt_event *events, size_t room, size_t *copied)
{
    camxpt_event no_event;

    no_event.kind = 0;
    return CALL(x, copied && (events || !room),
                camxpt_raw_events(&x->raw_, first, events ? events : &no_event, room, copied));
}

camxpt_code camxpt_trace(camxpt *x, void *buffer, size_t room, size_t *needed)
{
    uint8_t no_byte = 0;

    return CALL(x, needed && (buffer || !room),
                camxpt_raw_trace(&x->raw_, buffer ? (uint8_t *)buffer : &no_byte, room, needed));
}

camxpt_code camxpt_carry(camxpt *from, camxpt *to, const camxpt_limits *limits, uint32_t *numbers, size_t room, size_t *count)
{
    uint32_t no_number = 0;
    camxpt_code code = bad_handle(from);

    if (code != CAMXPT_OK)
        return code;
    if (!to || !limits || !count || (!numbers && room))
        return CAMXPT_E_NULL;
    if (to->self_)
        return to->self_ == to ? CAMXPT_E_OPEN : CAMXPT_E_COPIED;
    code = camxpt_raw_carry(&from->raw_, &to->raw_, limits, numbers ? numbers : &no_number, room, count);
    if (code == CAMXPT_OK)
        to->self_ = to;
    return code;
}

camxpt_code camxpt_recording(const camxpt_config *c, const camxpt_span *unit, uint32_t rounds, const camxpt_cap *caps,
                             size_t cap_count, const camxpt_request *requests, size_t request_count, void *buffer, size_t room,
                             size_t *needed, size_t *wrong)
{
    static const camxpt_weight no_weight = {0, 0};
    static const uint32_t no_number = 0;
    static const camxpt_adapter no_adapter = {0, 0};
    static const camxpt_span no_span = {0, 0};
    static const camxpt_cap no_cap = {0, 0, 0, 0, 0};
    static const camxpt_request no_request = {0, 0, 0, 0, 0, 0, 0};
    struct devices first;
    uint8_t no_byte = 0;

    if (!c || !needed || !wrong || (!c->weights && c->weight_count) || (!c->links && c->link_count) ||
        (!c->adapters && c->adapter_count) || (!c->devices && c->device_count) || (!caps && cap_count) ||
        (!requests && request_count) || (!buffer && room))
        return CAMXPT_E_NULL;
    first = first_devices(c->devices, c->device_count);
    return camxpt_raw_recording(c->weights ? c->weights : &no_weight, c->weight_count, c->links ? c->links : &no_number,
                                c->link_count, c->adapters ? c->adapters : &no_adapter, c->adapter_count, first.list,
                                first.count, unit ? unit : &no_span, rounds, caps ? caps : &no_cap, cap_count,
                                requests ? requests : &no_request, request_count, buffer ? (uint8_t *)buffer : &no_byte, room,
                                needed, wrong);
}

/* ---- recorder ----------------------------------------------------------------------------------------------------------- */

/* How a window ends. */
enum { WHOLE = 0, BEFORE = 1, LAST_START = 2 };

/* How many bytes of a recording are written at once. */
enum { PIECE = 16384 };

/* What is wrong with a recorder that has to be open. */
static camxpt_code bad_recorder(const camxpt_recorder *r)
{
    if (!r)
        return CAMXPT_E_NULL;
    if (r->self_ == r)
        return CAMXPT_OK;
    return r->self_ ? CAMXPT_E_COPIED : CAMXPT_E_CLOSED;
}

/* Adds devices and drivers, until one can't be added. */
static camxpt_code add_names(camxpt_recorder *r, const camxpt_recorder_options *o)
{
    camxpt_code code = CAMXPT_OK;

    for (size_t k = 0; k < o->device_count && code == CAMXPT_OK; k++) {
        const char *name = o->devices[k].name;

        code = name ? camxpt_raw_recorder_add_device(&r->raw_, (const uint8_t *)name, strlen(name), o->devices[k].depth)
                    : (camxpt_code)CAMXPT_E_NULL;
    }
    for (size_t k = 0; k < o->driver_count && code == CAMXPT_OK; k++) {
        const char *name = o->drivers[k];

        code = name ? camxpt_raw_recorder_add_driver(&r->raw_, (const uint8_t *)name, strlen(name)) : (camxpt_code)CAMXPT_E_NULL;
    }
    return code;
}

camxpt_code camxpt_recorder_open(camxpt_recorder *r, const camxpt_recorder_options *o)
{
    camxpt_code code;

    if (!r || !o || !o->write || (!o->devices && o->device_count) || (!o->drivers && o->driver_count))
        return CAMXPT_E_NULL;
    if (r->self_)
        return r->self_ == r ? CAMXPT_E_OPEN : CAMXPT_E_COPIED;
    code = camxpt_raw_recorder_open(&r->raw_, &o->round, o->window_ns, o->room);
    if (code != CAMXPT_OK)
        return code;
    code = add_names(r, o);
    if (code != CAMXPT_OK) {
        (void)camxpt_raw_recorder_close(&r->raw_);
        return code;
    }
    r->write_ = o->write;
    r->user_ = o->user;
    r->lost_ = r->stuck_ = false;
    r->self_ = r;
    return CAMXPT_OK;
}

/* Writes all bytes of the window that was made. */
static bool write_window(camxpt_recorder *r, camxpt_window *window)
{
    uint8_t piece[PIECE];
    size_t size = 0;

    for (window->offset = 0; window->offset < window->size; window->offset += size) {
        if (camxpt_raw_recorder_read(&r->raw_, window->offset, piece, sizeof piece, &size) != CAMXPT_OK || size == 0 ||
            r->write_(r->user_, window, piece, size) != 0)
            return false;
    }
    return true;
}

/* Makes and writes all windows that are over, or that end so, until one can't be made. If the next one can't be made either, that
 * stays so. */
static camxpt_code write_windows(camxpt_recorder *r, uint32_t ending)
{
    camxpt_window window;
    camxpt_code code;

    memset(&window, 0, sizeof window);
    while ((code = camxpt_raw_recorder_make(&r->raw_, ending, &window)) == CAMXPT_OK) {
        r->lost_ = false;
        if (!write_window(r, &window))
            return CAMXPT_E_WRITE;
        (void)camxpt_raw_recorder_written(&r->raw_);
    }
    if (code == CAMXPT_E_WINDOW) {
        r->stuck_ = r->lost_;
        r->lost_ = true;
    }
    return code == CAMXPT_NONE ? (camxpt_code)CAMXPT_OK : code;
}

/* After a note that was answered so: writes what is over. */
static camxpt_code after_note(camxpt_recorder *r, camxpt_code code)
{
    if (code != CAMXPT_OK || camxpt_raw_recorder_is_due(&r->raw_) != CAMXPT_OK)
        return code;
    return r->stuck_ ? (camxpt_code)CAMXPT_E_WINDOW : write_windows(r, WHOLE);
}

#define NOTE(r, call) (bad_recorder(r) != CAMXPT_OK ? bad_recorder(r) : after_note((r), (call)))

camxpt_code camxpt_note_arrival(camxpt_recorder *r, uint64_t id, uint32_t device, uint8_t driver, uint32_t priority, uint64_t ns)
{
    camxpt_code code = bad_recorder(r), made;

    if (code != CAMXPT_OK)
        return code;
    code = camxpt_raw_note_arrival(&r->raw_, id, device, driver, priority, ns);
    if (code != CAMXPT_NOTE_FULL)
        return after_note(r, code);
    /* the window is cut off where nothing more can be noted, whether it can be written or not */
    made = r->stuck_ ? (camxpt_code)CAMXPT_E_WINDOW : write_windows(r, BEFORE);
    code = camxpt_raw_note_arrival(&r->raw_, id, device, driver, priority, ns);
    return made == CAMXPT_OK ? after_note(r, code) : code == CAMXPT_OK ? made : code;
}

camxpt_code camxpt_note_start(camxpt_recorder *r, uint64_t id, uint64_t ns)
{
    return NOTE(r, camxpt_raw_note_start(&r->raw_, id, ns));
}

camxpt_code camxpt_note_done(camxpt_recorder *r, uint64_t id, uint64_t ns)
{
    return NOTE(r, camxpt_raw_note_done(&r->raw_, id, ns));
}

camxpt_code camxpt_note_cancel(camxpt_recorder *r, uint64_t id)
{
    return NOTE(r, camxpt_raw_note_cancel(&r->raw_, id));
}

camxpt_code camxpt_recorder_close(camxpt_recorder *r)
{
    camxpt_code code = bad_recorder(r);
    bool lost = false;

    if (code != CAMXPT_OK)
        return code;
    while ((code = write_windows(r, LAST_START)) == CAMXPT_E_WINDOW && !r->stuck_)
        lost = true;
    if (code != CAMXPT_OK && code != CAMXPT_E_WINDOW)
        return code;
    (void)camxpt_recorder_abandon(r);
    return lost ? (camxpt_code)CAMXPT_E_WINDOW : code;
}

camxpt_code camxpt_recorder_abandon(camxpt_recorder *r)
{
    const camxpt_code bad = bad_recorder(r);

    if (bad != CAMXPT_OK)
        return bad;
    r->self_ = NULL;
    return camxpt_raw_recorder_close(&r->raw_);
}
