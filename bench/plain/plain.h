/* The entries of gm.h in plain C, from the product paper and the requests made after it alone: what the archive is timed beside. Arguments and refusals
   are those of gm.h. */
#ifndef PLAIN_H
#define PLAIN_H

#include <stddef.h>
#include <stdint.h>

enum { STATE_BYTES = 24, HEARTBEAT_BYTES = 10, DRIVE_BYTES = 252, VOTE_FRAME_BYTES = 36, VOTE_BYTES = 28, VOTES_BYTES = 1792, FRAMES_BYTES = 9216 };
enum { REGISTERS_BYTES = 64 };

uint32_t plain_begin(uint32_t n, uint32_t node, uint64_t founding, uint8_t *state, size_t state_len);
uint32_t plain_stop(uint32_t mode, uint8_t *state, size_t state_len);
uint32_t plain_start(uint32_t mode, uint8_t *state, size_t state_len);
uint32_t plain_state(uint32_t mode, const uint8_t *state, size_t state_len, uint32_t *kind, uint32_t *reason, uint32_t *node, uint32_t *n,
                     uint32_t *number, uint64_t *set, uint64_t *base);
uint32_t plain_write_heartbeat(uint32_t n, uint32_t mode, uint32_t node, uint32_t join, uint32_t request, uint32_t sync, uint32_t startup,
                               uint32_t cycle, uint32_t channel, const uint8_t *drive, size_t drive_len, uint8_t *frame, size_t frame_len);
uint32_t plain_send_heartbeat(uint32_t mode, const uint8_t *state, size_t state_len, uint32_t sync, uint32_t startup, uint32_t cycle,
                              uint32_t channel, const uint8_t *drive, size_t drive_len, uint8_t *frame, size_t frame_len, uint32_t *sent);
uint32_t plain_read_heartbeat(uint32_t n, uint32_t mode, uint32_t node, uint32_t cycle, uint32_t channel, const uint8_t *frame, size_t frame_len,
                              uint8_t *drive, size_t drive_len, uint32_t *join, uint32_t *request, uint32_t *drive_bytes);
uint32_t plain_receive_heartbeat(uint32_t n, uint32_t mode, uint32_t node, uint32_t cycle, const uint8_t *a, size_t a_len, const uint8_t *b,
                                 size_t b_len, uint8_t *drive, size_t drive_len, uint32_t *heard, uint32_t *drive_bytes);
uint32_t plain_view(uint32_t mode, const uint8_t *state, size_t state_len, uint64_t heard0, uint64_t heard1, uint64_t *view);
uint32_t plain_write_vote(uint32_t n, uint32_t node, uint32_t number, uint64_t set, uint64_t base, uint64_t view, uint32_t cycle, uint32_t channel,
                          uint8_t *frame, size_t frame_len);
uint32_t plain_send_vote(uint32_t mode, const uint8_t *state, size_t state_len, uint64_t heard0, uint64_t heard1, uint64_t requests, uint32_t cycle,
                         uint32_t channel, uint8_t *frame, size_t frame_len, uint32_t *sent);
uint32_t plain_read_vote(uint32_t n, uint32_t node, uint32_t cycle, uint32_t channel, const uint8_t *frame, size_t frame_len, uint8_t *vote,
                         size_t vote_len);
uint32_t plain_receive_vote(uint32_t n, uint32_t node, uint32_t cycle, const uint8_t *a, size_t a_len, const uint8_t *b, size_t b_len, uint8_t *votes,
                            size_t votes_len, uint64_t *arrived);
uint32_t plain_decide(uint32_t mode, uint8_t *state, size_t state_len, uint64_t heard0, uint64_t heard1, uint64_t requests, const uint8_t *votes,
                      size_t votes_len, uint64_t arrived);
uint32_t plain_cycle(uint32_t n, uint32_t mode, uint8_t *row, size_t row_len, const uint8_t *record, size_t record_len);
uint32_t plain_run(uint32_t mode, uint8_t *row, size_t row_len, const uint8_t *table, size_t table_len);
uint32_t plain_run_frames(uint32_t mode, uint8_t *row, size_t row_len, const uint8_t *table, size_t table_len, uint8_t *frames, size_t frames_len);
uint32_t plain_register_read(uint32_t mode, const uint8_t *block, size_t block_len, uint32_t address, uint32_t *value);
uint32_t plain_register_write(uint32_t mode, uint8_t *block, size_t block_len, uint32_t address, uint8_t value);
uint32_t plain_register_cycle(uint32_t mode, uint8_t *block, size_t block_len, uint64_t heard0, uint64_t heard1, uint64_t requests,
                              const uint8_t *votes, size_t votes_len, uint64_t arrived);
uint32_t plain_register_write_cycle(uint32_t mode, uint8_t *block, size_t block_len, uint32_t address, uint8_t value, uint64_t heard0,
                                    uint64_t heard1, uint64_t requests, const uint8_t *votes, size_t votes_len, uint64_t arrived);

/*
 * the kinds of a state, what is well formed in a mode, and whether a heartbeat with these drive bytes fits its frame: shared by the files of this folder.
 * A mode that these are given is ALWAYS or QUIET
 */
enum { OUT, JOINING, MEMBER };
enum { ALWAYS, QUIET };
int sound_vote(unsigned n, unsigned q, uint64_t set, uint64_t base, uint64_t view);
int sound_state(uint32_t mode, const uint8_t *state);
int right_lengths(size_t drive_len, size_t frame_len);

/* what becomes of a sound state in place: rule 1 as a stop and as a start, rules 5 and 6 on 1,792 bytes of votes */
void stop_node(uint8_t *state);
void start_node(uint8_t *state);
void decide_node(uint32_t mode, uint8_t *state, uint64_t heard0, uint64_t heard1, uint64_t requests, const uint8_t *votes, uint64_t arrived);

#endif
