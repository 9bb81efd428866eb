/* The symbols of the library's proved part (crates/camxpt_c). No pointer that they are given may be null: camxpt.c tests that. */
#ifndef CAMXPT_RAW_H
#define CAMXPT_RAW_H

#include "camxpt.h"

#ifdef __cplusplus
extern "C" {
#endif

camxpt_code camxpt_raw_open(camxpt_raw *x, const uint32_t *adapters, size_t adapter_count, const camxpt_device *devices,
                            size_t device_count, const uint32_t *lanes, size_t lane_count, const camxpt_limits *limits);
camxpt_code camxpt_raw_open_with(camxpt_raw *x, const camxpt_weight *weights, size_t weight_count, const uint32_t *links,
                                 size_t link_count, const camxpt_adapter *adapters, size_t adapter_count,
                                 const camxpt_device *devices, size_t device_count, const uint32_t *lanes, size_t lane_count,
                                 const camxpt_limits *limits);
camxpt_code camxpt_raw_close(camxpt_raw *x);
camxpt_code camxpt_raw_submit(camxpt_raw *x, uint8_t driver, uint32_t device, uint32_t priority, uint32_t retries, bool qfreeze,
                              bool qfrzdis, uint64_t user, uint32_t *ccb);
camxpt_code camxpt_raw_send_next(camxpt_raw *x, uint32_t lane, camxpt_command *command);
camxpt_code camxpt_raw_done(camxpt_raw *x, uint32_t ccb, uint8_t status, uint8_t scsi, const uint8_t *sense, size_t sense_len,
                            camxpt_completion *done);
camxpt_code camxpt_raw_requeue(camxpt_raw *x, uint32_t ccb);
camxpt_code camxpt_raw_finish(camxpt_raw *x, uint32_t ccb);
camxpt_code camxpt_raw_freeze_dev(camxpt_raw *x, uint32_t device, uint32_t count);
camxpt_code camxpt_raw_release_dev(camxpt_raw *x, uint32_t device, uint32_t count);
camxpt_code camxpt_raw_freeze_sim(camxpt_raw *x, uint32_t sim, uint32_t count);
camxpt_code camxpt_raw_release_sim(camxpt_raw *x, uint32_t sim);
camxpt_code camxpt_raw_adjust(camxpt_raw *x, uint32_t device, uint32_t openings);
camxpt_code camxpt_raw_tick(camxpt_raw *x, uint32_t *round);
camxpt_code camxpt_raw_has_head(camxpt_raw *x, uint32_t lane);
camxpt_code camxpt_raw_case_at(camxpt_raw *x, size_t number, camxpt_case *found);
camxpt_code camxpt_raw_look(camxpt_raw *x, camxpt_counts *counts);
camxpt_code camxpt_raw_device_state(camxpt_raw *x, uint32_t device, camxpt_device_counts *counts);
camxpt_code camxpt_raw_take(camxpt_raw *x, const camxpt_event *event, uint32_t *ccb, camxpt_completion *done);
camxpt_code camxpt_raw_refusal(camxpt_raw *x, const camxpt_event *event);
camxpt_code camxpt_raw_events(camxpt_raw *x, uint32_t first, camxpt_event *events, size_t room, size_t *copied);
camxpt_code camxpt_raw_trace(camxpt_raw *x, uint8_t *buffer, size_t room, size_t *needed);
camxpt_code camxpt_raw_carry(camxpt_raw *from, camxpt_raw *to, const camxpt_limits *limits, uint32_t *numbers, size_t room,
                             size_t *count);
camxpt_code camxpt_raw_recording(const camxpt_weight *weights, size_t weight_count, const uint32_t *links, size_t link_count,
                                 const camxpt_adapter *adapters, size_t adapter_count, const camxpt_device *devices,
                                 size_t device_count, const camxpt_span *unit, uint32_t rounds, const camxpt_cap *caps,
                                 size_t cap_count, const camxpt_request *requests, size_t request_count, uint8_t *buffer,
                                 size_t room, size_t *needed, size_t *wrong);

camxpt_code camxpt_raw_recorder_open(camxpt_raw *r, const camxpt_span *round, uint64_t window_ns, uint32_t room);
camxpt_code camxpt_raw_recorder_close(camxpt_raw *r);
camxpt_code camxpt_raw_recorder_add_device(camxpt_raw *r, const uint8_t *name, size_t size, uint32_t depth);
camxpt_code camxpt_raw_recorder_add_driver(camxpt_raw *r, const uint8_t *name, size_t size);
camxpt_code camxpt_raw_note_arrival(camxpt_raw *r, uint64_t id, uint32_t device, uint8_t driver, uint32_t priority, uint64_t ns);
camxpt_code camxpt_raw_note_start(camxpt_raw *r, uint64_t id, uint64_t ns);
camxpt_code camxpt_raw_note_done(camxpt_raw *r, uint64_t id, uint64_t ns);
camxpt_code camxpt_raw_note_cancel(camxpt_raw *r, uint64_t id);
camxpt_code camxpt_raw_recorder_is_due(camxpt_raw *r);
camxpt_code camxpt_raw_recorder_make(camxpt_raw *r, uint32_t ending, camxpt_window *window);
camxpt_code camxpt_raw_recorder_read(camxpt_raw *r, size_t offset, uint8_t *buffer, size_t room, size_t *copied);
camxpt_code camxpt_raw_recorder_written(camxpt_raw *r);

#ifdef __cplusplus
}
#endif
#endif
