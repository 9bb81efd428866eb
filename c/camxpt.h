/*
 * camxpt.h - a CAM transport for disk drivers: CCBs, queues, openings, freezes and recovery from errors.
 *
 * What the library does is proved of its source, which is written in Rattle (crates/camxpt_c). The functions below test the
 * pointers that they are given, and call that. What a caller owes is not tested, unless a code is named for it:
 *
 *   - A handle is a struct camxpt of your own. Begin with CAMXPT_INIT: that is a closed handle, as is one whose bytes are all
 *     zero. A call on a closed handle answers CAMXPT_E_CLOSED and does nothing, also after camxpt_close. A call on a copy of a
 *     handle that was opened, or on a handle that was moved, answers CAMXPT_E_COPIED. Neither read nor write its members. Close
 *     it before its memory goes: what it owns is lost otherwise.
 *   - A handle is used by one thread at a time. It goes to another one by a lock, or by a start or a join of a thread. No call
 *     waits, and none starts a thread.
 *   - An out-parameter is initialized memory that overlaps no other argument. A call that doesn't answer CAMXPT_OK leaves it as
 *     it was. But at CAMXPT_E_SPACE camxpt_trace, camxpt_recording and camxpt_carry say how much room they need; and
 *     camxpt_recording says which cap or request is wrong.
 *   - A null pointer answers CAMXPT_E_NULL, unless it is an array of length 0, or it may be null where the call says so. No other
 *     wrong pointer is noticed.
 *   - No call comes from a signal handler, or in the child of a fork of a process with threads. Memory is this program's
 *     malloc, realloc and free. Only camxpt_open, camxpt_open_with, camxpt_carry, camxpt_trace and camxpt_recording ask for
 *     any, and of a recorder's calls camxpt_recorder_open and those that make a window. A longjmp out of malloc loses the handle:
 *     it answers CAMXPT_E_CLOSED then, and its memory isn't freed.
 *   - The stack has 128 kB or more where camxpt_trace and camxpt_recording are called, and where a recorder makes a window.
 *
 * A transport takes 65,535 events, 512 rounds and 4,096 stays at most (a stay is one passage of a CCB through its queue, so a
 * submit or a requeue begins one). A driver that runs longer carries what waits over to a fresh transport by camxpt_carry, at
 * the end of a round in which all results are in. If it keeps its requests in an array, camxpt_recording writes what all the
 * transports did as one recording, for `camxpt audit`. docs/c.md shows how. A driver that has a scheduler of its own notes what it
 * does to a recorder (camxpt_recorder_open), which writes recordings of it, window by window.
 *
 * Link with libcamxpt.a or libcamxpt.so.1: cc driver.c -lcamxpt
 */
#ifndef CAMXPT_H
#define CAMXPT_H

#include <stdbool.h>
#include <stddef.h>
#include <stdint.h>

#ifdef __cplusplus
extern "C" {
#define CAMXPT_ASSERT_(holds, text) static_assert(holds, text)
#else
#define CAMXPT_ASSERT_(holds, text) _Static_assert(holds, text)
#endif

#if defined(__GNUC__)
#define CAMXPT_NODISCARD __attribute__((warn_unused_result))
#else
#define CAMXPT_NODISCARD
#endif

/** The version of this header, as `camxpt --version` has it. */
#define CAMXPT_VERSION "0.6.6"

/** The version of the library: CAMXPT_VERSION if it is of this header. */
const char *camxpt_version(void);

/* The layout that the library was built with. */
#define CAMXPT_SIZE_(name, size) CAMXPT_ASSERT_(sizeof(name) == (size), "size of " #name)
#define CAMXPT_AT_(name, field, at) CAMXPT_ASSERT_(offsetof(name, field) == (at), "place of " #field " in " #name)

/* ---- codes -------------------------------------------------------------------------------------------------------------- */

/** What a call answers: 0, a negative number if the call itself is at fault, or a positive one for a cause. */
typedef int32_t camxpt_code;

enum {
    CAMXPT_OK = 0,
    /* the call itself */
    CAMXPT_E_CLOSED = -1, /**< the handle is closed */
    CAMXPT_E_OPEN = -2,   /**< the handle is open already */
    CAMXPT_E_MEMORY = -3, /**< there is no memory */
    CAMXPT_E_LIMIT = -4,  /**< a limit is out of its range */
    CAMXPT_E_SPACE = -5,  /**< the buffer is too small */
    CAMXPT_E_NULL = -6,   /**< a pointer is null */
    CAMXPT_E_COPIED = -7, /**< the handle is a copy of one that was opened, was moved, or is no handle */
    CAMXPT_E_KIND = -8,   /**< no event is of this kind */
    CAMXPT_E_UNIT = -9,   /**< no unit of time is of this number */
    CAMXPT_E_ROUNDS = -10,   /**< there are no rounds, or more than 65,535 */
    CAMXPT_E_REQUESTS = -11, /**< there are more than 1,048,576 requests */
    CAMXPT_E_CAP = -12,      /**< a cap can't be one of the recording */
    CAMXPT_E_DONE = -13,     /**< a request was completed before it was started */
    CAMXPT_E_WRITE = -14,    /**< a recorder's write function failed */
    CAMXPT_E_WINDOW = -15,   /**< there is no recording of a window, and its requests are lost */
    /* refusals: the first one that holds, in this order; nothing has changed */
    CAMXPT_HISTORY_FULL = 1,
    CAMXPT_NO_DEVICE = 2,
    CAMXPT_NO_ADAPTER = 3,
    CAMXPT_NO_LANE = 4,
    CAMXPT_NO_CCB = 5,
    CAMXPT_BAD_PRIORITY = 6,
    CAMXPT_BAD_RETRIES = 7,
    CAMXPT_BAD_COUNT = 8,
    CAMXPT_BAD_OPENINGS = 9,
    CAMXPT_BAD_STATUS = 10,
    CAMXPT_CCB_FULL = 11,
    CAMXPT_STAYS_FULL = 12,
    CAMXPT_NOT_QUEUED = 13,
    CAMXPT_WRONG_LANE = 14,
    CAMXPT_DEVICE_FROZEN = 15,
    CAMXPT_ADAPTER_FROZEN = 16,
    CAMXPT_NO_OPENING = 17,
    CAMXPT_NOT_HEAD = 18,
    CAMXPT_NOT_IN_FLIGHT = 19,
    CAMXPT_NOT_RECOVERING = 20,
    CAMXPT_WRONG_DECISION = 21,
    CAMXPT_FREEZE_OVERFLOW = 22,
    CAMXPT_RELEASE_TOO_MANY = 23,
    CAMXPT_IN_FLIGHT = 24,
    CAMXPT_ROUNDS_FULL = 25,
    /* why a lane is idle (camxpt_send_next): no error, and nothing has changed */
    CAMXPT_IDLE_EMPTY = 32,
    CAMXPT_IDLE_ADAPTER_FROZEN = 33,
    CAMXPT_IDLE_ADAPTER_BUSY = 34,
    CAMXPT_IDLE_DEVICES_HELD = 35,
    /** there is none (camxpt_next_case, camxpt_case_at, camxpt_has_head) */
    CAMXPT_NONE = 36,
    /** CCBs wait for a decision (camxpt_carry) */
    CAMXPT_UNDECIDED = 37,
    /* the first rule that a configuration breaks (camxpt_open, camxpt_open_with) */
    CAMXPT_FAULT_NO_ADAPTERS = 48,
    CAMXPT_FAULT_TOO_MANY = 49,
    CAMXPT_FAULT_BAD_OPENINGS = 50,
    CAMXPT_FAULT_NO_ADAPTER = 51,
    CAMXPT_FAULT_BAD_ADDRESS = 52,
    CAMXPT_FAULT_DOUBLE_DEVICE = 53,
    CAMXPT_FAULT_BAD_WEIGHT = 54,
    CAMXPT_FAULT_NO_LINK = 55,
    /* why a request can't be one of a recording: the first cause that holds, in this order (camxpt_recording) */
    CAMXPT_CAUSE_NO_DEVICE = 64,
    CAMXPT_CAUSE_BAD_PRIORITY = 65,
    CAMXPT_CAUSE_BAD_WINDOW = 66,
    CAMXPT_CAUSE_EARLY = 67,
    CAMXPT_CAUSE_LATE = 68,
    CAMXPT_CAUSE_DEVICE_FULL = 69,
    CAMXPT_CAUSE_ADAPTER_FULL = 70,
    CAMXPT_CAUSE_LINK_FULL = 71,
    /* why a recorder doesn't take a note: the first cause that holds, in this order; nothing has changed */
    CAMXPT_NOTE_NO_DEVICE = 80,       /**< it has no device of this number */
    CAMXPT_NOTE_NO_DRIVER = 81,       /**< it has no driver of this number */
    CAMXPT_NOTE_BAD_PRIORITY = 82,    /**< the priority is above 1279 */
    CAMXPT_NOTE_TIME_FALLS = 83,      /**< the time is more than a second before the latest one noted */
    CAMXPT_NOTE_ALREADY_OPEN = 84,    /**< a request of this id is open already */
    CAMXPT_NOTE_FULL = 85,            /**< there is no room for one more request */
    CAMXPT_NOTE_NOT_OPEN = 86,        /**< no request of this id is open */
    CAMXPT_NOTE_ALREADY_STARTED = 87, /**< the request was started already */
    CAMXPT_NOTE_NOT_STARTED = 88,     /**< the request wasn't started yet */
    CAMXPT_NOTE_BEFORE_ARRIVAL = 89,  /**< the request would be started before it arrived */
    CAMXPT_NOTE_BEFORE_START = 90     /**< the request would be done before it was started */
};

/** Whether the code says that a lane had nothing to send. */
#define CAMXPT_IS_IDLE(code) ((code) >= CAMXPT_IDLE_EMPTY && (code) <= CAMXPT_IDLE_DEVICES_HELD)

/** The name of a code, no two alike, or "Unknown" for a number that is none. A refusal, a rule and a cause are named as in traces,
 *  reports and the other documents, with Idle, Fault or Cause before it: CAMXPT_IDLE_ADAPTER_FROZEN is IdleAdapterFrozen. */
const char *camxpt_code_name(camxpt_code code);

/* CAM statuses with the names and numbers of FreeBSD's cam.h, which is included before this header where both are wanted. The
 * transport knows the first ten; any other but 0 is a failure that no retry would help. */
#ifndef _CAM_CAM_H
enum {
    CAM_REQ_CMP = 0x01,           /**< the command has completed */
    CAM_BUSY = 0x05,              /**< the adapter is busy */
    CAM_SEL_TIMEOUT = 0x0a,       /**< the device didn't answer its selection */
    CAM_CMD_TIMEOUT = 0x0b,       /**< the command took too long */
    CAM_SCSI_STATUS_ERROR = 0x0c, /**< the SCSI status says what went wrong */
    CAM_SCSI_BUS_RESET = 0x0e,    /**< the bus was reset */
    CAM_UNCOR_PARITY = 0x0f,      /**< a parity error that couldn't be corrected */
    CAM_UNEXP_BUSFREE = 0x13,     /**< the bus was given up in the middle of the command */
    CAM_BDR_SENT = 0x17,          /**< the device was reset */
    CAM_REQUEUE_REQ = 0x1b,       /**< the adapter gives the command back, to be sent again */
    CAM_REQ_ABORTED = 0x02,
    CAM_REQ_CMP_ERR = 0x04,
    CAM_REQ_INVALID = 0x06,
    CAM_DEV_NOT_THERE = 0x08,
    CAM_AUTOSENSE_FAIL = 0x10,
    CAM_DATA_RUN_ERR = 0x12,
    CAM_STATUS_MASK = 0x3f,  /**< the status itself */
    CAM_DEV_QFRZN = 0x40,    /**< with it: the device's queue was frozen */
    CAM_AUTOSNS_VALID = 0x80 /**< with it: the sense data can be read */
};
#endif

/* ---- structs ------------------------------------------------------------------------------------------------------------ */

/** The library's part of a handle. */
typedef struct camxpt_raw {
    void *at_;
    uint32_t state_;
} camxpt_raw;

/** A transport. All members are the library's: self_ is the handle's own address while it is open, which tells a copy. */
typedef struct camxpt {
    camxpt_raw raw_;
    const struct camxpt *self_;
} camxpt;

/** A closed handle. */
#define CAMXPT_INIT { { NULL, 0 }, NULL }

/** How far a transport goes: 1 to 1,024 CCBs alive at once, 1 to 512 rounds, 1 to 4,096 stays and 1 to 65,535 events. */
typedef struct camxpt_limits {
    uint32_t ccbs, rounds, stays, events;
} camxpt_limits;

/** The largest limits. */
#define CAMXPT_MOST { 1024, 512, 4096, 65535 }

/** A device: the number of its adapter, its target and logical unit (0 to 16,383), and how many of its commands may be sent in
 *  a round, 1 to 255. */
typedef struct camxpt_device {
    uint8_t bus;
    uint16_t target, lun;
    uint32_t openings;
} camxpt_device;

/** The link of an adapter that is on none. */
#define CAMXPT_NO_LINK UINT32_MAX

/** An adapter: how many commands its lanes may send in a round, 1 to 255, and the number of its link, or CAMXPT_NO_LINK. */
typedef struct camxpt_adapter {
    uint32_t openings, link;
} camxpt_adapter;

/** A row of a table of weights: the last priority of its range, and what a round of waiting costs there, 1 to 1,000. */
typedef struct camxpt_weight {
    uint32_t last, weight;
} camxpt_weight;

/** The standard table of weights, by CAM's run levels. */
#define CAMXPT_STANDARD_WEIGHTS { { 255, 16 }, { 511, 8 }, { 767, 4 }, { 1023, 2 }, { 1279, 1 } }

/** A configuration with all that it may have: 1 to 16 weights, up to 4 links of 1 to 255 openings in a round, 1 to 8 adapters,
 *  up to 32 devices, and up to 4 lanes of each adapter, by the adapter's number. */
typedef struct camxpt_config {
    const camxpt_weight *weights;
    size_t weight_count;
    const uint32_t *links;
    size_t link_count;
    const camxpt_adapter *adapters;
    size_t adapter_count;
    const camxpt_device *devices;
    size_t device_count;
    const uint32_t *lanes;
    size_t lane_count;
} camxpt_config;

/** A command that is sent to a device. */
typedef struct camxpt_command {
    uint32_t ccb;      /**< the number of its CCB */
    uint32_t attempt;  /**< how many stays of its CCB were before this one */
    uint32_t device;   /**< the number of its device */
    uint32_t priority; /**< 0 to 1279, the smaller number the more urgent */
    uint8_t driver;    /**< who submitted it */
    void *user;        /**< the pointer that its CCB was submitted with */
} camxpt_command;

/** What a result asks for. */
enum {
    CAMXPT_COMPLETE = 0,        /**< the CCB has completed */
    CAMXPT_FREE_REQUEUE = 1,    /**< call camxpt_requeue: it doesn't count as a retry */
    CAMXPT_COUNTED_REQUEUE = 2, /**< call camxpt_requeue: it counts as a retry */
    CAMXPT_RECOVERED = 3,       /**< call camxpt_finish: the device recovered by itself */
    CAMXPT_SPENT = 4,           /**< call camxpt_finish: no retry is left */
    CAMXPT_OTHER = 5            /**< call camxpt_finish: no retry would help */
};

/** Whether a class asks for camxpt_requeue. If not, and it isn't CAMXPT_COMPLETE, it asks for camxpt_finish. */
#define CAMXPT_ASKS_REQUEUE(class_) ((class_) == CAMXPT_FREE_REQUEUE || (class_) == CAMXPT_COUNTED_REQUEUE)

/** What a completion comes to: its class; the CAM status to hand up, with CAM_DEV_QFRZN if it froze its device's queue and
 *  CAM_AUTOSNS_VALID if its sense data can be read; and the pointer that its CCB was submitted with. */
typedef struct camxpt_completion {
    uint32_t class_;
    uint8_t value;
    void *user;
} camxpt_completion;

/** A CCB that waits for a decision, the class of its last result, and the pointer that it was submitted with. */
typedef struct camxpt_case {
    uint32_t ccb;
    uint32_t class_;
    void *user;
} camxpt_case;

/** What there is to see of a transport, in counts. */
typedef struct camxpt_counts {
    uint32_t length;    /**< the events so far */
    uint32_t round;     /**< the round, from 1 */
    uint32_t in_flight; /**< the CCBs in flight */
    uint32_t cases;     /**< the CCBs that wait for a decision */
    uint32_t waiting;   /**< the stays without a send */
    uint32_t stays;     /**< the stays that have begun: the submits and requeues so far */
    uint32_t alive;     /**< the CCBs alive: submitted, and neither completed nor finished */
    size_t heads;       /**< the lanes whose adapter has something to send */
} camxpt_counts;

/** What there is to see of a device, in counts. While it has a freeze of either kind, nothing is sent to it. */
typedef struct camxpt_device_counts {
    uint32_t queued;        /**< the CCBs in its queue */
    uint32_t requeued;      /**< the CCBs that enter it with the next round */
    uint32_t in_flight;     /**< its CCBs in flight */
    uint32_t openings;      /**< how many commands may be sent to it in this round */
    uint32_t next_openings; /**< the same in the next round: after camxpt_adjust it may be another number */
    uint32_t callers;       /**< its freezes that callers made: camxpt_freeze_dev, and sends of CCBs with qfreeze */
    uint32_t errors;        /**< its freezes by errors: one for each CCB that waits for a decision, without qfrzdis */
} camxpt_device_counts;

/** The kinds of events. In brackets: the members of camxpt_event that are read. */
enum {
    CAMXPT_SUBMIT = 1,      /**< (driver, device, priority, retries, qfreeze, qfrzdis) */
    CAMXPT_SEND = 2,        /**< (lane, ccb) */
    CAMXPT_DONE = 3,        /**< (ccb, status, scsi, sense_len, sense) */
    CAMXPT_REQUEUE = 4,     /**< (ccb) */
    CAMXPT_FINISH = 5,      /**< (ccb) */
    CAMXPT_FREEZE_DEV = 6,  /**< (device, count) */
    CAMXPT_RELEASE_DEV = 7, /**< (device, count) */
    CAMXPT_FREEZE_SIM = 8,  /**< (sim, count) */
    CAMXPT_RELEASE_SIM = 9, /**< (sim) */
    CAMXPT_ADJUST = 10,     /**< (device, openings) */
    CAMXPT_TICK = 11
};

/** An event. A flag is set by any byte but 0; of sense, the first sense_len bytes count, at most 18. */
typedef struct camxpt_event {
    uint32_t kind;
    uint32_t ccb, lane, device, sim, priority, retries, count, openings;
    uint8_t driver, qfreeze, qfrzdis, status, scsi, sense_len;
    uint8_t sense[18];
} camxpt_event;

/** The units of time. */
enum {
    CAMXPT_NANOSECONDS = 0,
    CAMXPT_MICROSECONDS = 1,
    CAMXPT_MILLISECONDS = 2,
    CAMXPT_SECONDS = 3
};

/** How long a round of a recording is: that many of a unit of time. If the count is 0, it isn't known. */
typedef struct camxpt_span {
    uint32_t count, unit;
} camxpt_span;

/** What a cap is for. */
enum {
    CAMXPT_CAP_DEVICE = 0,
    CAMXPT_CAP_ADAPTER = 1,
    CAMXPT_CAP_LINK = 2
};

/** A cap of a recording: in rounds first to last, the device, adapter or link of this number takes at most that many requests,
 *  0 to 65,535, in place of its openings. Caps stand by rising kind, then number, then rounds, and don't overlap. */
typedef struct camxpt_cap {
    uint32_t kind, number, first, last, most;
} camxpt_cap;

/** In place of a request's last round: the recording's last round. */
enum {
    CAMXPT_NO_LAST = 0
};

/** In place of the round of a request's completion: it isn't known. */
enum {
    CAMXPT_NO_DONE = 0
};

/** A request of a recording. One that was sent again is several: the last round of each but the last is the round before the
 *  next one arrives. */
typedef struct camxpt_request {
    uint32_t device;   /**< the number of its device */
    uint32_t priority; /**< 0 to 1279, the smaller number the more urgent */
    uint32_t arrival;  /**< the round in which it arrived, from 1 on */
    uint32_t last;     /**< the last round in which it could have been started, or CAMXPT_NO_LAST */
    uint32_t start;    /**< the round in which it was started */
    uint8_t driver;    /**< who asked for it */
    /** the round in which it was completed, or CAMXPT_NO_DONE: not before its start, but it may be after the last round */
    uint32_t done;
} camxpt_request;

/** A device of a recorder: its name, and how many requests it serves at once at most, or 0 if that isn't known. */
typedef struct camxpt_recorder_device {
    const char *name;
    uint32_t depth;
} camxpt_recorder_device;

/** A window of a recorder, and which bytes of its recording are given. Times are those that were noted. */
typedef struct camxpt_window {
    uint64_t number;   /**< from 1 on; windows in which nothing was started are counted, but not written */
    uint64_t from_ns;  /**< when its first round begins */
    uint64_t until_ns; /**< when its last round is over */
    uint64_t requests; /**< how many requests were started in it */
    uint64_t carried;  /**< what these waited before it, in weighted rounds */
    uint32_t rounds;   /**< how many rounds it has */
    size_t size;       /**< how many bytes its recording has */
    size_t offset;     /**< where in it the bytes begin that are given */
} camxpt_window;

/** Writes bytes of a window's recording: in order, in pieces of at most 64 kB, the first with offset 0, and the last with
 *  offset + size of its bytes == window->size. Answers 0 if they were written. A call with this
 *  recorder out of it is the caller's fault, and isn't noticed. */
typedef int (*camxpt_write)(void *user, const camxpt_window *window, const void *bytes, size_t size);

/** What a recorder records: how long a round is (with the count 0 it is as is usual for the first window), how long a window is,
 *  which is a whole number of rounds, at most 65,534; how many requests it keeps at most until a window is over (room), 1 to
 *  16,777,216; up to 32 devices and up to 256 drivers by their names, and who writes. */
typedef struct camxpt_recorder_options {
    camxpt_span round;
    uint64_t window_ns;
    uint32_t room;
    const camxpt_recorder_device *devices;
    size_t device_count;
    const char *const *drivers;
    size_t driver_count;
    camxpt_write write;
    void *user;
} camxpt_recorder_options;

/** A recorder. All members are the library's: self_ is its own address while it is open, which tells a copy. */
typedef struct camxpt_recorder {
    camxpt_raw raw_;
    const struct camxpt_recorder *self_;
    camxpt_write write_;
    void *user_;
    bool lost_, stuck_;
} camxpt_recorder;

/** A closed recorder. */
#define CAMXPT_RECORDER_INIT { { NULL, 0 }, NULL, NULL, NULL, false, false }

#if SIZE_MAX != UINT64_MAX
#error "camxpt.h: the library is for 64-bit targets"
#endif
CAMXPT_SIZE_(camxpt_raw, 16);
CAMXPT_AT_(camxpt_raw, at_, 0);
CAMXPT_AT_(camxpt_raw, state_, 8);
CAMXPT_SIZE_(camxpt_limits, 16);
CAMXPT_AT_(camxpt_limits, ccbs, 0);
CAMXPT_AT_(camxpt_limits, rounds, 4);
CAMXPT_AT_(camxpt_limits, stays, 8);
CAMXPT_AT_(camxpt_limits, events, 12);
CAMXPT_SIZE_(camxpt_device, 12);
CAMXPT_AT_(camxpt_device, bus, 0);
CAMXPT_AT_(camxpt_device, target, 2);
CAMXPT_AT_(camxpt_device, lun, 4);
CAMXPT_AT_(camxpt_device, openings, 8);
CAMXPT_SIZE_(camxpt_adapter, 8);
CAMXPT_AT_(camxpt_adapter, openings, 0);
CAMXPT_AT_(camxpt_adapter, link, 4);
CAMXPT_SIZE_(camxpt_weight, 8);
CAMXPT_AT_(camxpt_weight, last, 0);
CAMXPT_AT_(camxpt_weight, weight, 4);
CAMXPT_SIZE_(camxpt_command, 32);
CAMXPT_AT_(camxpt_command, ccb, 0);
CAMXPT_AT_(camxpt_command, attempt, 4);
CAMXPT_AT_(camxpt_command, device, 8);
CAMXPT_AT_(camxpt_command, priority, 12);
CAMXPT_AT_(camxpt_command, driver, 16);
CAMXPT_AT_(camxpt_command, user, 24);
CAMXPT_SIZE_(camxpt_completion, 16);
CAMXPT_AT_(camxpt_completion, class_, 0);
CAMXPT_AT_(camxpt_completion, value, 4);
CAMXPT_AT_(camxpt_completion, user, 8);
CAMXPT_SIZE_(camxpt_case, 16);
CAMXPT_AT_(camxpt_case, ccb, 0);
CAMXPT_AT_(camxpt_case, class_, 4);
CAMXPT_AT_(camxpt_case, user, 8);
CAMXPT_SIZE_(camxpt_counts, 40);
CAMXPT_AT_(camxpt_counts, length, 0);
CAMXPT_AT_(camxpt_counts, round, 4);
CAMXPT_AT_(camxpt_counts, in_flight, 8);
CAMXPT_AT_(camxpt_counts, cases, 12);
CAMXPT_AT_(camxpt_counts, waiting, 16);
CAMXPT_AT_(camxpt_counts, stays, 20);
CAMXPT_AT_(camxpt_counts, alive, 24);
CAMXPT_AT_(camxpt_counts, heads, 32);
CAMXPT_SIZE_(camxpt_device_counts, 28);
CAMXPT_AT_(camxpt_device_counts, queued, 0);
CAMXPT_AT_(camxpt_device_counts, requeued, 4);
CAMXPT_AT_(camxpt_device_counts, in_flight, 8);
CAMXPT_AT_(camxpt_device_counts, openings, 12);
CAMXPT_AT_(camxpt_device_counts, next_openings, 16);
CAMXPT_AT_(camxpt_device_counts, callers, 20);
CAMXPT_AT_(camxpt_device_counts, errors, 24);
CAMXPT_SIZE_(camxpt_event, 60);
CAMXPT_AT_(camxpt_event, kind, 0);
CAMXPT_AT_(camxpt_event, ccb, 4);
CAMXPT_AT_(camxpt_event, lane, 8);
CAMXPT_AT_(camxpt_event, device, 12);
CAMXPT_AT_(camxpt_event, sim, 16);
CAMXPT_AT_(camxpt_event, priority, 20);
CAMXPT_AT_(camxpt_event, retries, 24);
CAMXPT_AT_(camxpt_event, count, 28);
CAMXPT_AT_(camxpt_event, openings, 32);
CAMXPT_AT_(camxpt_event, driver, 36);
CAMXPT_AT_(camxpt_event, qfreeze, 37);
CAMXPT_AT_(camxpt_event, qfrzdis, 38);
CAMXPT_AT_(camxpt_event, status, 39);
CAMXPT_AT_(camxpt_event, scsi, 40);
CAMXPT_AT_(camxpt_event, sense_len, 41);
CAMXPT_AT_(camxpt_event, sense, 42);
CAMXPT_SIZE_(camxpt_span, 8);
CAMXPT_AT_(camxpt_span, count, 0);
CAMXPT_AT_(camxpt_span, unit, 4);
CAMXPT_SIZE_(camxpt_cap, 20);
CAMXPT_AT_(camxpt_cap, kind, 0);
CAMXPT_AT_(camxpt_cap, number, 4);
CAMXPT_AT_(camxpt_cap, first, 8);
CAMXPT_AT_(camxpt_cap, last, 12);
CAMXPT_AT_(camxpt_cap, most, 16);
CAMXPT_SIZE_(camxpt_request, 28);
CAMXPT_AT_(camxpt_request, device, 0);
CAMXPT_AT_(camxpt_request, priority, 4);
CAMXPT_AT_(camxpt_request, arrival, 8);
CAMXPT_AT_(camxpt_request, last, 12);
CAMXPT_AT_(camxpt_request, start, 16);
CAMXPT_AT_(camxpt_request, driver, 20);
CAMXPT_AT_(camxpt_request, done, 24);
CAMXPT_SIZE_(camxpt_window, 64);
CAMXPT_AT_(camxpt_window, number, 0);
CAMXPT_AT_(camxpt_window, from_ns, 8);
CAMXPT_AT_(camxpt_window, until_ns, 16);
CAMXPT_AT_(camxpt_window, requests, 24);
CAMXPT_AT_(camxpt_window, carried, 32);
CAMXPT_AT_(camxpt_window, rounds, 40);
CAMXPT_AT_(camxpt_window, size, 48);
CAMXPT_AT_(camxpt_window, offset, 56);

/* ---- calls -------------------------------------------------------------------------------------------------------------- */

/** Opens a closed handle, in round 1 and without events: adapters of these openings (1 to 8, of 1 to 255 openings each),
 *  devices (up to 32: no more are read, whatever their count is), and a lane on each of these adapters (up to 4 of each), with
 *  the standard table of weights. All memory that the transport will need is taken here.
 *  Answers CAMXPT_E_OPEN, CAMXPT_E_LIMIT, CAMXPT_E_MEMORY or a CAMXPT_FAULT_*; then the handle is as it was. */
CAMXPT_NODISCARD camxpt_code camxpt_open(camxpt *x, const uint32_t *adapters, size_t adapter_count,
                                         const camxpt_device *devices, size_t device_count, const uint32_t *lanes,
                                         size_t lane_count, const camxpt_limits *limits);

/** The same by a configuration, with its own table of weights, with links, and with adapters on them. */
CAMXPT_NODISCARD camxpt_code camxpt_open_with(camxpt *x, const camxpt_config *c, const camxpt_limits *limits);

/** Closes the handle and frees all memory of its transport. On a closed handle it does no harm. */
camxpt_code camxpt_close(camxpt *x);

/** Submits a CCB of the driver to the device, and sets *ccb to its number. A priority is 0 to 1279, retries are 0 to 7. With
 *  qfreeze each send of the CCB freezes its device by one; with qfrzdis its failures don't freeze it. `user` is any pointer of
 *  yours, also NULL: it comes back with each command, completion and case of the CCB, also after camxpt_carry, and what it
 *  points to is never looked at.
 *  Refused: HISTORY_FULL, NO_DEVICE, BAD_PRIORITY, BAD_RETRIES, CCB_FULL, STAYS_FULL. */
CAMXPT_NODISCARD camxpt_code camxpt_submit(camxpt *x, uint8_t driver, uint32_t device, uint32_t priority, uint32_t retries,
                                           bool qfreeze, bool qfrzdis, void *user, uint32_t *ccb);

/** Sends the next command of the lane's adapter, and sets *command to it; or the lane is idle (CAMXPT_IS_IDLE).
 *  Refused: HISTORY_FULL, NO_LANE. */
CAMXPT_NODISCARD camxpt_code camxpt_send_next(camxpt *x, uint32_t lane, camxpt_command *command);

/** The command that was sent as this CCB has completed, with this CAM status, SCSI status and sense data, of which the first 18
 *  bytes are kept. Sets *done to what that comes to.
 *  Refused: HISTORY_FULL, NO_CCB, BAD_STATUS, NOT_IN_FLIGHT. */
CAMXPT_NODISCARD camxpt_code camxpt_done(camxpt *x, uint32_t ccb, uint8_t status, uint8_t scsi, const uint8_t *sense,
                                         size_t sense_len, camxpt_completion *done);

/** Puts a CCB that failed back into its device's queue, from the next round on.
 *  Refused: HISTORY_FULL, NO_CCB, STAYS_FULL, NOT_RECOVERING, WRONG_DECISION (its class asks for camxpt_finish). */
CAMXPT_NODISCARD camxpt_code camxpt_requeue(camxpt *x, uint32_t ccb);

/** Gives a CCB that failed back to its driver, which ends it.
 *  Refused: HISTORY_FULL, NO_CCB, NOT_RECOVERING, WRONG_DECISION (its class asks for camxpt_requeue). */
CAMXPT_NODISCARD camxpt_code camxpt_finish(camxpt *x, uint32_t ccb);

/** Freezes the device's queue that many times, 1 to 65,535. Refused: HISTORY_FULL, NO_DEVICE, BAD_COUNT, FREEZE_OVERFLOW. */
CAMXPT_NODISCARD camxpt_code camxpt_freeze_dev(camxpt *x, uint32_t device, uint32_t count);

/** Takes that many freezes of the device away, 1 to 65,535, of those that callers made.
 *  Refused: HISTORY_FULL, NO_DEVICE, BAD_COUNT, RELEASE_TOO_MANY. */
CAMXPT_NODISCARD camxpt_code camxpt_release_dev(camxpt *x, uint32_t device, uint32_t count);

/** Freezes the adapter that many times, 1 to 65,535. Refused: HISTORY_FULL, NO_ADAPTER, BAD_COUNT, FREEZE_OVERFLOW. */
CAMXPT_NODISCARD camxpt_code camxpt_freeze_sim(camxpt *x, uint32_t sim, uint32_t count);

/** Takes one freeze of the adapter away. Refused: HISTORY_FULL, NO_ADAPTER, RELEASE_TOO_MANY. */
CAMXPT_NODISCARD camxpt_code camxpt_release_sim(camxpt *x, uint32_t sim);

/** Gives the device that many openings, 1 to 255, from the next round on. Refused: HISTORY_FULL, NO_DEVICE, BAD_OPENINGS. */
CAMXPT_NODISCARD camxpt_code camxpt_adjust(camxpt *x, uint32_t device, uint32_t openings);

/** Opens the next round, and sets *round to its number. Refused: HISTORY_FULL, IN_FLIGHT, ROUNDS_FULL. */
CAMXPT_NODISCARD camxpt_code camxpt_tick(camxpt *x, uint32_t *round);

/** Whether the lane's adapter has something to send: CAMXPT_OK, or CAMXPT_NONE, also for a lane that isn't there. */
CAMXPT_NODISCARD camxpt_code camxpt_has_head(camxpt *x, uint32_t lane);

/** Sets *found to the CCB that completed first of those that wait for a decision; CAMXPT_NONE if none waits. */
CAMXPT_NODISCARD camxpt_code camxpt_next_case(camxpt *x, camxpt_case *found);

/** The CCBs that wait for a decision are numbered from 0 in the order in which they completed. Sets *found to the one of this
 *  number; CAMXPT_NONE if there are no more. While nothing changes, the numbers 0, 1, 2 .. give each of them once; after a
 *  decision those behind move up by one. */
CAMXPT_NODISCARD camxpt_code camxpt_case_at(camxpt *x, size_t number, camxpt_case *found);

/** Sets *counts to what there is to see. Against the limits: length is at most the events, round the rounds, stays the stays, and
 *  alive the CCBs. */
CAMXPT_NODISCARD camxpt_code camxpt_look(camxpt *x, camxpt_counts *counts);

/** Sets *counts to what there is to see of the device. Answers NO_DEVICE if there is no such device. */
CAMXPT_NODISCARD camxpt_code camxpt_device_state(camxpt *x, uint32_t device, camxpt_device_counts *counts);

/** Takes an event of any kind, as the call of that kind does, and with its refusals. A send is refused with the first of
 *  HISTORY_FULL, NO_LANE, NO_CCB, NOT_QUEUED, WRONG_LANE, DEVICE_FROZEN, ADAPTER_FROZEN, NO_OPENING and NOT_HEAD. The pointer of
 *  a CCB that is submitted so is NULL. A submit sets *ccb to its number, and a completion sets *done to what it comes to; what
 *  another event leaves as it was. Either may be NULL. */
CAMXPT_NODISCARD camxpt_code camxpt_take(camxpt *x, const camxpt_event *event, uint32_t *ccb, camxpt_completion *done);

/** What camxpt_take would answer now. It takes nothing. */
CAMXPT_NODISCARD camxpt_code camxpt_refusal(camxpt *x, const camxpt_event *event);

/** Copies the events so far from number `first` on, numbered from 0, as many as there are and there is room for, and sets
 *  *copied to how many these are. */
CAMXPT_NODISCARD camxpt_code camxpt_events(camxpt *x, uint32_t first, camxpt_event *events, size_t room, size_t *copied);

/** Writes the trace of all events so far into the buffer, without a zero byte behind it, and sets *needed to its length. At
 *  CAMXPT_E_SPACE *needed is set too, so a call with (NULL, 0) asks for the length. `camxpt audit` takes such a trace. */
CAMXPT_NODISCARD camxpt_code camxpt_trace(camxpt *x, void *buffer, size_t room, size_t *needed);

/** Opens the closed handle `to` with what waits in `from`, which stays as it is: how to go on if a transport comes to its
 *  limits. It is called at the end of a round in place of camxpt_tick, when all results are in and all cases are decided.
 *
 *  `to` has the configuration of `from`, these limits, and an empty first round; it is in its second one, which stands for the
 *  next round of `from`. Its openings are those that the next round of `from` would have, and its freezes those that callers
 *  made. Each CCB that waits is submitted to it, with the retries that it has left and with its pointer, so that each queue has
 *  the same commands in the same order; its attempts begin at 0 again. Of devices whose next commands have one priority, the
 *  one of the lowest number has the first turn. numbers[k] is set to the number that CCB k of `to` has in `from`, and *count to
 *  how many these are.
 *
 *  Answers CAMXPT_E_OPEN if `to` is open, or is `from`; CAMXPT_E_LIMIT; CAMXPT_E_MEMORY; CAMXPT_IN_FLIGHT if a result is due;
 *  CAMXPT_UNDECIDED if a CCB waits for a decision; ROUNDS_FULL, CCB_FULL, STAYS_FULL or HISTORY_FULL if the limits have no room
 *  for a second round and what waits (CAMXPT_MOST always has); or CAMXPT_E_SPACE if there are more numbers than room for them:
 *  then *count is set. 1,024 are always enough. */
CAMXPT_NODISCARD camxpt_code camxpt_carry(camxpt *from, camxpt *to, const camxpt_limits *limits, uint32_t *numbers,
                                          size_t room, size_t *count);

/** Writes a recording into the buffer, without a zero byte behind it: what some scheduler did with these requests in rounds 1
 *  to `rounds`, which are at most 65,535. It needs no handle. `camxpt audit`, `explain` and `draw` take such a text. *needed is
 *  set to its length, at CAMXPT_E_SPACE too, so a call with (NULL, 0) asks for the length.
 *
 *  The configuration is as for camxpt_open_with, but its lanes aren't read: a recording has none. The unit says how long a
 *  round is; it may be null, and has to be a unit also where its count is 0. There may be at most 1,048,576 requests, in any
 *  order. If one of them says when it was completed, the text is of version 2, `camrecord2`, which says so of each that does.
 *
 *  Answers what is wrong first, in this order: CAMXPT_E_UNIT; CAMXPT_E_ROUNDS; CAMXPT_E_REQUESTS; a CAMXPT_FAULT_*;
 *  CAMXPT_E_CAP, if a cap's kind is none, if there is no such device, adapter or link, if the cap doesn't come after the caps
 *  before it, if it isn't so that 1 <= first <= last <= rounds, or if it is for more than 65,535; or, of a request, the first
 *  of CAMXPT_E_DONE (it was completed before it was started), CAMXPT_CAUSE_NO_DEVICE, _BAD_PRIORITY, _BAD_WINDOW (not
 *  1 <= arrival <= last <= rounds), _EARLY (it was started before it arrived), _LATE (after its last round), and _DEVICE_FULL,
 *  _ADAPTER_FULL and _LINK_FULL (beside the requests before it, more were started in its round than the cap). *wrong is set to
 *  the number of the first such cap or request, from 0 on, and isn't set otherwise. Or answers CAMXPT_E_MEMORY. */
CAMXPT_NODISCARD camxpt_code camxpt_recording(const camxpt_config *c, const camxpt_span *unit, uint32_t rounds,
                                              const camxpt_cap *caps, size_t cap_count, const camxpt_request *requests,
                                              size_t request_count, void *buffer, size_t room, size_t *needed, size_t *wrong);

/* ---- recorder: recordings of what any scheduler did, window by window --------------------------------------------------- */

/** Opens a closed recorder. A driver notes when each request arrives, is started and is done. Of what was started in a window a
 *  recording is made, which `camxpt audit` takes, and given to the write function: with the first note of a time a second after
 *  the window's end. All memory that notes take is taken here: 100 bytes for each request of the room. The names are copied.
 *
 *  What is said of handles above holds of recorders: closed if all bytes are zero, used by one thread at a time (a lock around
 *  each call will do), and closed before its memory goes.
 *  Answers CAMXPT_E_OPEN, CAMXPT_E_LIMIT (a window of 0 ns; no room, or too much; a device or driver too many), CAMXPT_E_UNIT or
 *  CAMXPT_E_MEMORY; then the recorder is as it was. */
CAMXPT_NODISCARD camxpt_code camxpt_recorder_open(camxpt_recorder *r, const camxpt_recorder_options *options);

/** Notes that a request arrives at this time, at the device and from the driver of these numbers, which are their places in the
 *  options. The id is any number that no open request has: a request is open until it is done or cancelled. Times are
 *  nanoseconds of one clock, and go back by a second at most. If there is no room for one more request, the window is cut off
 *  early.
 *  Not taken: NOTE_NO_DEVICE, _NO_DRIVER, _BAD_PRIORITY, _TIME_FALLS, _ALREADY_OPEN, _FULL.
 *
 *  Any note may end a window, which takes memory and time; any other takes none. Then the recordings of all windows that are
 *  over are written, one after the other, before the call returns. At CAMXPT_E_WRITE and CAMXPT_E_MEMORY the note was taken and
 *  nothing is lost: the window is kept, and its recording is written anew from its first byte with the next note that is taken,
 *  or with camxpt_recorder_close. At CAMXPT_E_WINDOW the note was taken, and a window can't be made: a device had more requests
 *  in flight than its depth, or there are too many requests. The window is lost. Where that stays so, no more are made, and each
 *  note that is taken answers so: close the recorder. */
CAMXPT_NODISCARD camxpt_code camxpt_note_arrival(camxpt_recorder *r, uint64_t id, uint32_t device, uint8_t driver,
                                                 uint32_t priority, uint64_t ns);

/** Notes that the open request is started at this time: from then on it is in flight. With CAMXPT_E_WRITE, _MEMORY and _WINDOW as
 *  above. Not taken: NOTE_TIME_FALLS, _NOT_OPEN, _ALREADY_STARTED, _BEFORE_ARRIVAL. */
CAMXPT_NODISCARD camxpt_code camxpt_note_start(camxpt_recorder *r, uint64_t id, uint64_t ns);

/** Notes that the open request is done at this time. A request in flight goes on for one window after the one in which it was
 *  started; after that it isn't open any more, and NOTE_NOT_OPEN is no error for it. With CAMXPT_E_WRITE, _MEMORY and _WINDOW as
 *  above. Not taken: NOTE_TIME_FALLS, _NOT_OPEN, _NOT_STARTED, _BEFORE_START. */
CAMXPT_NODISCARD camxpt_code camxpt_note_done(camxpt_recorder *r, uint64_t id, uint64_t ns);

/** Withdraws an open request that wasn't started. With CAMXPT_E_WRITE, _MEMORY and _WINDOW as above.
 *  Not taken: NOTE_NOT_OPEN, _ALREADY_STARTED. */
CAMXPT_NODISCARD camxpt_code camxpt_note_cancel(camxpt_recorder *r, uint64_t id);

/** Writes the recordings of all windows that are left, the last one up to the last start, and then frees all memory. At
 *  CAMXPT_E_WRITE and CAMXPT_E_MEMORY the recorder stays open, and the call can be made again. At CAMXPT_E_WINDOW it is closed,
 *  and a window is lost. */
CAMXPT_NODISCARD camxpt_code camxpt_recorder_close(camxpt_recorder *r);

/** Closes the recorder and frees all memory of it; what isn't written is lost. */
camxpt_code camxpt_recorder_abandon(camxpt_recorder *r);

#ifdef __cplusplus
}
#endif
#endif
