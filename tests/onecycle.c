/*
 * The calls of one cycle on one node, and no others: for the size of a host that makes them (tests/archive.sh).
 */
#include "gm.h"

static uint8_t state[GM_STATE_BYTES], votes[GM_VOTES_BYTES], beat[GM_HEARTBEAT_BYTES], frame[GM_VOTE_FRAME_BYTES], drive[GM_DRIVE_BYTES];

int main(void)
{
    uint32_t sent, heard = GM_MISSED, drive_bytes;
    uint64_t heard0 = 0, arrived = 0;
    gm_begin(5, 3, 0x1F, state, sizeof state);
    gm_stop(GM_MODE_ALWAYS, state, sizeof state);
    gm_start(GM_MODE_ALWAYS, state, sizeof state);
    gm_send_heartbeat(GM_MODE_ALWAYS, state, sizeof state, 0, 0, 5, GM_CHANNEL_A, drive, 0, beat, sizeof beat, &sent);
    gm_receive_heartbeat(5, GM_MODE_ALWAYS, 1, 5, beat, sizeof beat, beat, sizeof beat, drive, sizeof drive, &heard, &drive_bytes);
    heard0 |= (uint64_t)heard << 1;
    gm_send_vote(GM_MODE_ALWAYS, state, sizeof state, heard0, 0, 0, 5, GM_CHANNEL_A, frame, sizeof frame, &sent);
    gm_receive_vote(5, 1, 5, frame, sizeof frame, frame, sizeof frame, votes, sizeof votes, &arrived);
    return (int)gm_decide(GM_MODE_ALWAYS, state, sizeof state, heard0, 0, 0, votes, sizeof votes, arrived);
}
