/*
 * gm.h: proved group membership for a FlexRay cluster of 2 to 64 nodes: the node end, the same as registers
 * for a drive card, and runs over a fault table. The archive libgm.a is for x86-64 Linux; this header is
 * C99 and C++.
 *
 * CALLS. Every entry answers GM_OK, or the number of its refusal (GM_REFUSED_..; gm_refusal.h has a
 * sentence for each). A refusal changes nothing: every buffer and every result is as it came in. Of several
 * refusals the lowest is given, but a table or a record in its order. Of a table (gm_run, gm_run_frames)
 * that is NUMBER for the mode, before a byte of the table is looked at, and then record by record, of one
 * record CUT if fewer than 3 bytes are left, KIND, CUT if it is not whole, COUNT, LENGTH of the row or of
 * the frames, LIMIT. gm_cycle gives COUNT, NUMBER, LENGTH (the row is not n states, or a record of 36 bytes
 * or more is longer than 36 + 9 times its byte 35, whatever its mark and kind), STATE, and then its
 * record's CUT, KIND, CUT, LIMIT. No entry allocates, blocks, keeps anything between calls, or reads or
 * writes outside the buffers that it is lent; any number and any bytes may be passed. What is promised of
 * each entry is proved for all inputs; CLAIMS.md says by which theorem.
 *
 * MODES. A press votes in every cycle, GM_MODE_ALWAYS, or it is quiet, GM_MODE_QUIET: votes then rest while
 * nothing happens, and the dynamic slots are free. Every entry that is lent a state, a row or a register
 * block, and every one that reads or writes a heartbeat, takes the mode; any other number is refused. All
 * units of a press have one mode from their beginning on. gm_begin takes none, since a founder begins alike
 * in both, nor do gm_write_vote, gm_read_vote and gm_receive_vote, since a vote has one form.
 * In a quiet press a member votes in a cycle exactly if its view is another than its set, or if a node of
 * its set that it heard, or it itself, requests votes by a bit of the heartbeat. It requests in the cycle
 * after one in which its view was another than its set, its set changed, or it became a member. A member
 * that did not vote halts, outvoted, if a quorum of equal votes with its own number, set and base arrived,
 * whatever their view; otherwise it keeps number and set, and its base becomes its set. A press that is
 * quiet and in which no unit was touched or started since its beginning sends no vote at all.
 *
 * BUFFERS. A buffer is a pointer and its length in bytes; it may stand at any address. A result is a
 * pointer to an object of its type, and every result is asked for, also those that the host does not need.
 * No pointer is null, also where the length is 0: there it may point to any object or behind its end, and
 * nothing is read. A null pointer is outside the promise even where it seems to work: for a copy that did
 * not come lend the other one's pointer with length 0. What an entry only reads (const) may coincide with
 * or overlap anything else that it only reads in that call, such as one frame lent as both copies. A buffer
 * or a result that it writes overlaps nothing else of the call, no other result either: drive bytes, too,
 * are lent from elsewhere than the frame that they go into. What happens where it does is outside the
 * promise. Nobody else writes a buffer, or reads one that is written (but see A REGISTER BLOCK), until the
 * call returns. Entries may be called from several threads at once on buffers of their own.
 *
 * NUMBERS. A set of nodes is a mask of 64 bits, bit q for node q; nodes are numbered from 0, and n is how
 * many there are. Arguments and results are numbers of the host. In states, votes, frames and tables every
 * number of several bytes stands highest byte first.
 *
 * A STATE is 24 bytes, which the host keeps from cycle to cycle and never changes itself. gm_state takes it
 * apart; GM_STATE_AT_.. are the places:
 *     byte 0: kind, GM_KIND_OUT, GM_KIND_JOINING or GM_KIND_MEMBER
 *     byte 1: reason of a node that is out, GM_REASON_..; of a member of a quiet press 1 if it will request
 *     votes in the next cycle; else 0
 *     byte 2: the node's number, below n
 *     byte 3: n, 2 to 64
 *     bytes 4-7: group number of a member, which grows by one with every change of its set, 0 following
 *     4294967295; else 0
 *     bytes 8-15: set of a member, the present group, the node in it; else 0
 *     bytes 16-23: base of a member, the present group and that of one cycle earlier together; else 0
 *
 * A REGISTER BLOCK is 64 bytes, as which a drive card sees one node. GM_REGISTER_.. are addresses, which
 * count its bytes from 0:
 *     bytes 0-23: a state (GM_STATE_AT_..); writes do nothing
 *     byte 24: flags, GM_FLAG_..; a one that is written clears its flag, a zero does nothing; bits 3-7 are
 *     always 0
 *     byte 25: enables, a bit for each flag; of what is written bits 0-2 are kept
 *     byte 26: pending, 1 exactly if an enabled flag is set, else 0; writes do nothing
 *     byte 27: command, GM_COMMAND_..; what gm_stop or gm_start does is done with the write, and raises no
 *     flag; other values do nothing, and it reads 0
 *     bytes 28-63: 0; writes do nothing
 * It begins as the 24 bytes of gm_begin, called on the block with length GM_STATE_BYTES, and 40 zero bytes
 * behind them. The entries of the node end take its first 24 bytes as the state, as in
 * gm_send_heartbeat(mode, block, GM_STATE_BYTES, ..); but gm_stop, gm_start and gm_decide called so raise
 * no flag. The cycle of a block, gm_register_cycle, decides as gm_decide does and raises at most one flag,
 * by the state right before the decision and the one after it:
 *   - GM_FLAG_CHANGED: a member before and after, and the set is another; a base or a number that changes
 *     alone raises nothing
 *   - GM_FLAG_HALTED: a member before, out after, with reason 1 or 2
 *   - GM_FLAG_ENTERED: joining before, a member after
 * A flag stays until it is cleared. gm_register_write_cycle is a write and a cycle in one step, the write
 * first: a flag that is cleared and raised in one step stays set.
 * A card polls byte 26 after each cycle. Where it is 1, the card reads byte 24 and writes back what it
 * read, before the next cycle or together with it. This clears the flags that it has seen and no other,
 * and what the next cycle raises stays set: no raising of an enabled flag is lost. Where a cycle may
 * come between reading and writing, the same flag may have been raised again: such a card reads bytes
 * 0-23 after it has written.
 * A stop or a start that shall count for a cycle is written to byte 27, by gm_register_write, before
 * gm_send_heartbeat of that cycle (step 1 of ONE CYCLE). One that is written later, or together with the
 * cycle, comes after frames of the cycle, and no theorem of AGREEMENT is about it: a unit that was out
 * and is started so sends its first heartbeat in the next cycle; one that is stopped so counts as one
 * that lost its state in mid-cycle (see DUTIES, "A unit that lost its state"), and a start after that is
 * written before the heartbeats of the next.
 * A block may be memory shared with the card only if during a call nobody writes it, and nobody reads it
 * who must not see half a step.
 *
 * A VOTE is 28 bytes (GM_VOTE_AT_..): bytes 0-3 group number, 4-11 set, 12-19 base, 20-27 view, the nodes
 * that its sender heard. The vote buffer has one for each of 64 nodes, that of node q at byte 28 q, and a
 * mask `arrived` beside it.
 *
 * FRAMES are as ISO 17458-2 lays them out: 5 header bytes, the payload, 3 check bytes, which differ
 * between the channels; the entries write and read them whole. The heartbeat of node q goes in slot q + 1
 * (GM_HEARTBEAT_SLOT) and has a payload of 1 to 127 words of two bytes. The first word is the library's:
 * bit 7 of its first byte is 1 for a node that is joining, bit 6 is 1 for a member of a quiet press that
 * requests votes, and all else in it is 0. The other words are the drive's: DRIVE BYTES, an even number of
 * them up to 252 (GM_DRIVE_BYTES), of any values, from byte 7 of the frame on. A heartbeat with k drive
 * bytes has 10 + k bytes. The vote of node q goes in slot q + 65 (GM_VOTE_SLOT) and has 36 bytes, the
 * payload a vote. Heartbeats are for static slots, all of which have one length, and votes for dynamic
 * slots, which may have another: the static segment has n to 64 slots. The slot is the frame number of the
 * header. The cycle count is that of the bus, 0 to 63. A host may set sync and startup in heartbeats
 * (startup only with sync); in votes both are 0. A controller that hands over payloads alone is not
 * provided for (SAFETY.md, "What is not covered").
 *
 * A TABLE is records, one behind the other, each beginning with GM_MARK_0, GM_MARK_1 and its kind:
 *   - GM_RECORD_START, first and only once, 12 bytes (GM_START_AT_..): byte 3 n, bytes 4-11 founding set
 *   - GM_RECORD_CYCLE, 36 bytes and its entries (GM_CYCLE_AT_..): bytes 3-10 stop, 11-18 start, 19-26
 *     heartbeats lost in sending, 27-34 votes lost in sending, byte 35 the count of entries, 0 to 128. An
 *     entry is 9 bytes (GM_ENTRY_..): bit 7 of the first is 0 for heartbeats and 1 for votes, bit 6 is 0,
 *     bits 0-5 are the receiver; then the senders that it misses, not empty and without the receiver. First
 *     bytes ascend, and no two are equal.
 *
 * ONE CYCLE of a node, heard0, heard1, requests and arrived being 0 before it:
 *   1. gm_stop, gm_start where the host wants it, or writes of these commands to a register block
 *   2. gm_send_heartbeat for each channel, with the same drive bytes; the host sends the frame if there is
 *      one
 *   3. gm_receive_heartbeat for every other node; the sender's bit is set in heard0 after GM_HEARD_MEMBER,
 *      in heard1 after GM_HEARD_JOINING, and both in heard0 and in `requests` after GM_HEARD_REQUEST, which
 *      only a quiet press has. After each of these the host takes the sender's drive bytes from the front
 *      of the buffer, as many as *drive_bytes says; the buffer may then be lent for the next node
 *   4. gm_send_vote for each channel, with these masks; the host sends the frame if there is one. In a
 *      quiet press a member that rests has none: *sent is 0
 *   5. gm_receive_vote for every other node, into the vote buffer, whatever stands in it, and `arrived`;
 *      also by a member that sent no vote
 *   6. gm_decide, with the same heard0, heard1 and requests; of a register block gm_register_cycle in its
 *      place, or gm_register_write_cycle with a write that is no command
 * A member sends its heartbeat, and its vote where it votes; a joining node its heartbeat alone, one that
 * is out none. In 3 and 5 the nodes may come in any order, and the call for a node of which nothing came
 * on either channel may be left out: its bit is then 0, which is why the masks are 0 before the cycle.
 * After 6 gm_state tells what the node holds. A node that halted is out, reason 1 or 2: it sends nothing
 * and stays so until gm_start, from which it is joining. A unit that is joining as the heartbeats go out,
 * and untouched in that cycle and the next, is a member after the second, if not after the first (in the
 * sense of AGREEMENT below, and under its premise); one that did not come in stays joining. Where no
 * member is left nobody comes in any more: all units have to begin anew together, and how they agree on
 * that is the host's to say.
 *
 * AGREEMENT. A node receives a frame if gm_receive_heartbeat or gm_receive_vote makes something of its
 * copies: not GM_MISSED, or the bit of `arrived` set. A node is touched in a cycle if it is stopped in it,
 * if one of its frames is lost in sending, that is, received by nobody, or if it does not receive a frame
 * that somebody else receives. (A vote that rests is no frame, and touches nobody. A unit that is out and
 * makes no calls may be counted as having received a frame or not. In a table a mark counts as the fault,
 * also where nothing was sent.) Nobody is touched before the first cycle. The group of record is the
 * founding set at first. The steady nodes of a cycle are those in the group of record at its beginning that
 * were touched neither in it nor in the cycle before; after the cycle the group of record is the one that
 * they hold. As long as in every cycle the steady nodes are more than half of the group of record at its
 * beginning and that of one cycle earlier together (in the first cycle both are the founding set), all
 * members that were untouched in a cycle hold after it the group of record: one set and number. A member
 * that was touched may hold another set for one cycle, ALSO UNDER THE SAME NUMBER, and halts or is stopped
 * in the next; it cannot tell. So compare sets and not numbers alone. From the first cycle in which the
 * steady nodes are half or fewer nothing more is promised, and no entry reports it: grouprun(1) and
 * quietrun(1) do, of a table of faults. Of a group of two, neither may be touched.
 *
 * DUTIES OF THE HOST. No call can see these, and agreement is promised only where they are kept (SAFETY.md
 * has them with their reasons):
 *   - All units begin with the same n and the same founding set, each with a number of its own, and n of a
 *     receiving entry is the n of the state. All calls of a press have the same mode: units with different
 *     modes are outside the promise, and no entry can see it.
 *   - Every call of a cycle is made, in the order above, and each answered GM_OK. If one is refused, the
 *     unit sends nothing more in that cycle and counts as having lost its state.
 *   - gm_send_vote, on both channels, and gm_decide, or the cycle of a block, get the same heard0, heard1
 *     and requests: the decision makes the node's own vote, or that it has none, from them again.
 *   - gm_send_heartbeat gets the same drive bytes on both channels of a cycle. Two good copies whose drive
 *     bytes differ are a missed frame for every unit that both reach.
 *   - The static slots of the press are configured for the heartbeats that are sent: 1 + k / 2 words for k
 *     drive bytes. No entry knows that length, and a good heartbeat of another one is heard too: the host
 *     looks at *drive_bytes before it takes the bytes for what they mean.
 *   - Drive bytes are protected by the frame check and by the comparison of two good copies, and by nothing
 *     else: nobody votes on them, where one copy is good nothing is compared, and a missed frame gives
 *     none. AGREEMENT holds whatever they are, and says nothing of them. What they mean, and what a drive
 *     does in a cycle without them, is the host's to say.
 *   - No cycle is skipped: a unit that slept through one and goes on with its old state holds a state that
 *     the rules do not give. Only a node that is out, and neither stopped nor started, may make no calls at
 *     all, and one that is stopped and not started none but gm_stop or the write of that command.
 *   - A unit that lost its state, or its power, before any copy of its heartbeat went out counts as
 *     stopped in that cycle; one that loses it later as one whose frames are lost from then on and which is
 *     stopped in the next. It comes back, in the cycle in which it counts as stopped or a later one, by
 *     gm_begin, gm_stop and gm_start in step 1, and never by gm_begin alone (gm_begin with a founding set
 *     that lacks the node leaves what gm_begin and gm_stop leave). A lost block likewise: it begins anew,
 *     and the two commands are written.
 *   - gm_begin belongs to the beginning of the press. A founder that restarts by gm_begin alone takes
 *     itself for a member of the founding group, number 0. Its vote counts with those of every unit that
 *     holds that group, restarted so too or left in it by a lost vote. Together they can go on as a second
 *     group beside the one that runs or in its place, also under its number, while members of the right one
 *     halt: units hold different groups. One such restart can be enough, and no entry reports it.
 *   - The cycle count that is passed is that of the bus cycle, and a frame is handed over in the cycle in
 *     which it came.
 *   - From call to call nobody else writes a state, a row or a block; a card changes its block by
 *     gm_register_write and gm_register_write_cycle alone.
 *
 * gm_cycle, gm_run and gm_run_frames work on a row: the states of all n nodes, one after the other, node q
 * at byte 24 q. They are for a test stand. AGREEMENT is promised of a row that held, before its first
 * gm_cycle, what gm_begin leaves for each node with one founding set, or what an accepted run left.
 */
#ifndef GM_H
#define GM_H

#include <stddef.h>
#include <stdint.h>

#ifdef __cplusplus
extern "C" {
#endif

/* the version of header and archive */
#define GM_VERSION_MAJOR 0U
#define GM_VERSION_MINOR 4U
#define GM_VERSION_PATCH 0U
#define GM_VERSION "0.4.0"

/* how many nodes, channels and cycle counts there can be */
#define GM_NODES_MIN 2U
#define GM_NODES_MAX 64U
#define GM_CHANNELS 2U
#define GM_CYCLE_COUNTS 64U

/* sizes of buffers, in bytes */
#define GM_SET_BYTES 8U
#define GM_STATE_BYTES 24U
#define GM_REGISTERS_BYTES 64U
#define GM_DRIVE_BYTES 252U     /* the most drive bytes of a heartbeat, and the buffer for those read */
#define GM_HEARTBEAT_BYTES 10U  /* a heartbeat without drive bytes; with k of them GM_HEARTBEAT_BYTES + k */
#define GM_HEARTBEAT_MOST_BYTES 262U
#define GM_VOTE_FRAME_BYTES 36U
#define GM_VOTE_BYTES 28U
#define GM_VOTES_BYTES 1792U
#define GM_FRAMES_BYTES 9216U

/* modes of a press */
#define GM_MODE_ALWAYS 0U /* votes in every cycle */
#define GM_MODE_QUIET 1U  /* votes where something happens */

/* where the numbers of a state stand, and the values of the first two */
#define GM_STATE_AT_KIND 0U
#define GM_STATE_AT_REASON 1U
#define GM_STATE_AT_NODE 2U
#define GM_STATE_AT_N 3U
#define GM_STATE_AT_NUMBER 4U
#define GM_STATE_AT_SET 8U
#define GM_STATE_AT_BASE 16U
#define GM_KIND_OUT 0U
#define GM_KIND_JOINING 1U
#define GM_KIND_MEMBER 2U
#define GM_REASON_STOPPED 0U   /* stopped or never started; also of who is not out and does not request */
#define GM_REASON_NO_QUORUM 1U /* halted: no view had a quorum */
#define GM_REASON_OUTVOTED 2U  /* halted: another view than its own had one, or any, and it did not vote */

/* addresses in a register block behind its state, then flags, which are the enables too, and commands */
#define GM_REGISTER_FLAGS 24U
#define GM_REGISTER_ENABLES 25U
#define GM_REGISTER_PENDING 26U
#define GM_REGISTER_COMMAND 27U
#define GM_FLAG_CHANGED 1U
#define GM_FLAG_HALTED 2U
#define GM_FLAG_ENTERED 4U
#define GM_COMMAND_STOP 1U
#define GM_COMMAND_START 2U

/* where the numbers of a vote stand */
#define GM_VOTE_AT_NUMBER 0U
#define GM_VOTE_AT_SET 4U
#define GM_VOTE_AT_BASE 12U
#define GM_VOTE_AT_VIEW 20U

/* slots on the bus: those of node 0, that of node q being q further */
#define GM_HEARTBEAT_SLOT 1U
#define GM_VOTE_SLOT 65U

/* channels */
#define GM_CHANNEL_A 0U
#define GM_CHANNEL_B 1U

/* what gm_receive_heartbeat hears */
#define GM_MISSED 0U
#define GM_HEARD_MEMBER 1U
#define GM_HEARD_JOINING 2U
#define GM_HEARD_REQUEST 3U /* a member that requests votes */

/* records of a table: mark and kind, then where the parts of each stand */
#define GM_RECORD_AT_MARK 0U
#define GM_MARK_0 0x47U
#define GM_MARK_1 0x4DU
#define GM_RECORD_AT_KIND 2U
#define GM_RECORD_START 1U
#define GM_RECORD_CYCLE 2U
#define GM_START_AT_N 3U
#define GM_START_AT_FOUNDING 4U
#define GM_START_BYTES 12U
#define GM_CYCLE_AT_STOP 3U
#define GM_CYCLE_AT_START 11U
#define GM_CYCLE_AT_HEARTBEAT_LOST 19U
#define GM_CYCLE_AT_VOTE_LOST 27U
#define GM_CYCLE_AT_COUNT 35U
#define GM_CYCLE_AT_ENTRIES 36U
#define GM_ENTRIES_MAX 128U
#define GM_ENTRY_BYTES 9U
#define GM_ENTRY_AT_RECEIVER 0U /* bits 0-5, with GM_ENTRY_VOTE added where votes are missed */
#define GM_ENTRY_VOTE 0x80U
#define GM_ENTRY_AT_MISSED 1U
#define GM_RECORD_BYTES_MAX 1188U

/*
 * the four parts of the frames that gm_run_frames hands out, each with a slot of GM_VOTE_FRAME_BYTES for
 * each of 64 nodes
 */
#define GM_FRAMES_AT_HEARTBEATS_A 0U
#define GM_FRAMES_AT_HEARTBEATS_B 2304U
#define GM_FRAMES_AT_VOTES_A 4608U
#define GM_FRAMES_AT_VOTES_B 6912U

/* the status of a call that was accepted */
#define GM_OK 0U
/* refusals, of the caller's numbers and buffers: n outside 2 to 64 */
#define GM_REFUSED_COUNT 1U
/*
 * a mode above 1, a node not below n, a cycle count above 63, a channel above 1; to be written: join,
 * request, sync or startup above 1, startup without sync
 */
#define GM_REFUSED_NUMBER 2U
/*
 * a buffer of another length than its entry names, or a row not of n states; drive bytes to be written that
 * are odd in number or above 252
 */
#define GM_REFUSED_LENGTH 3U
/*
 * a state that is not well formed, or in a row a state q that is not node q of n; a register block whose
 * state is not well formed, or whose other bytes cannot be so: flags or enables above 7, pending other than
 * these make it, a byte from 27 on that is not 0
 */
#define GM_REFUSED_STATE 4U
/* of a frame: fewer than 8 bytes, or not 8 plus twice the length field */
#define GM_REFUSED_FRAME_LENGTH 5U
#define GM_REFUSED_HEADER_CHECK 6U
#define GM_REFUSED_FRAME_CHECK 7U
#define GM_REFUSED_NULL_FRAME 8U
/*
 * another frame number, cycle count, payload length, indicator or reserved bit than due; of a heartbeat's
 * lengths only 0 is not due
 */
#define GM_REFUSED_NOT_DUE 9U
/*
 * bits of a heartbeat's first word that must be 0; read or to be written, a request together with join, or
 * where the press is not quiet; a vote whose set or view lacks the sender, whose base lacks part of the
 * set, or with a bit at n or above
 */
#define GM_REFUSED_CONTENT 10U
/* of a table or a record of it: it ends inside a record, or is empty */
#define GM_REFUSED_CUT 11U
/* a wrong mark or kind, a first record not of kind 1, a later one of kind 1 */
#define GM_REFUSED_KIND 12U
/*
 * a founding set that is empty or has a bit at n or above; in a record a bit or a receiver at n or above, a
 * count above 128, or an entry with bit 6 set, without senders, with its receiver among them, or whose
 * first byte is not above that of the entry before it; a cycle of a table above number 4294967295
 */
#define GM_REFUSED_LIMIT 13U
/* of a register block: an address above 63 */
#define GM_REFUSED_ADDRESS 14U

/*
 * The stack that an entry takes at most, on one node and on a row, in bytes below its caller's stack
 * pointer: 2536 and 33488 by a walk of the archive's code, and room to spare. Of memset and memcpy the walk
 * counts the return address: glibc's take no more. They must be bound before the first call, statically or
 * by -Wl,-z,now: where the dynamic linker binds one inside a call, that call takes some 3 KiB more.
 */
#define GM_STACK_BYTES 2688U
#define GM_ROW_STACK_BYTES 40960U

/*
 * Puts node `node` of `n` at the beginning, for the founding set `founding`: a member with group number 0
 * if it is in the set, else out.
 * state: GM_STATE_BYTES. Refusals: COUNT, NUMBER, LENGTH, LIMIT.
 */
uint32_t gm_begin(uint32_t n, uint32_t node, uint64_t founding, uint8_t *state, size_t state_len);

/*
 * Stops the node: out, reason 0.
 * state: GM_STATE_BYTES. Refusals: NUMBER, LENGTH, STATE.
 */
uint32_t gm_stop(uint32_t mode, uint8_t *state, size_t state_len);

/*
 * Starts the node: a node that is out becomes joining, others do not change.
 * state: GM_STATE_BYTES. Refusals: NUMBER, LENGTH, STATE.
 */
uint32_t gm_start(uint32_t mode, uint8_t *state, size_t state_len);

/*
 * Takes a state apart: *kind is GM_KIND_.., *reason GM_REASON_.. of a node that is out, 1 of a member of a
 * quiet press that will request votes, else 0, *node and *n the node's number and how many there are,
 * *number, *set and *base those of a member, else 0.
 * state: GM_STATE_BYTES. Refusals: NUMBER, LENGTH, STATE.
 */
uint32_t gm_state(uint32_t mode, const uint8_t *state, size_t state_len, uint32_t *kind, uint32_t *reason,
                  uint32_t *node, uint32_t *n, uint32_t *number, uint64_t *set, uint64_t *base);

/*
 * Writes the heartbeat of a node from numbers, with the drive bytes behind its first word. Where there are
 * none, `drive` is any pointer that is not null, and drive_len 0. A request goes without join, and in a
 * quiet press alone.
 * drive: an even number of bytes, at most GM_DRIVE_BYTES; frame: GM_HEARTBEAT_BYTES + drive_len. Refusals:
 * COUNT, NUMBER, LENGTH, CONTENT.
 */
uint32_t gm_write_heartbeat(uint32_t n, uint32_t mode, uint32_t node, uint32_t join, uint32_t request,
                            uint32_t sync, uint32_t startup, uint32_t cycle, uint32_t channel,
                            const uint8_t *drive, size_t drive_len, uint8_t *frame, size_t frame_len);

/*
 * Writes the heartbeat that a node sends in its state, with the drive bytes behind its first word: *sent is
 * 1, or 0 if it sends none, and frame is then as it came in. Join and request are those of the state. The
 * lengths are looked at also of a node that sends none. Where there are no drive bytes, `drive` is any
 * pointer that is not null, and drive_len 0.
 * state: GM_STATE_BYTES; drive: an even number of bytes, at most GM_DRIVE_BYTES; frame: GM_HEARTBEAT_BYTES
 * + drive_len. Refusals: NUMBER, LENGTH, STATE.
 */
uint32_t gm_send_heartbeat(uint32_t mode, const uint8_t *state, size_t state_len, uint32_t sync,
                           uint32_t startup, uint32_t cycle, uint32_t channel, const uint8_t *drive,
                           size_t drive_len, uint8_t *frame, size_t frame_len, uint32_t *sent);

/*
 * Reads one copy of the heartbeat of `node`, due in cycle count `cycle` on `channel`: *join and *request
 * are 0 or 1, at most one of them 1, and *request only in a quiet press; *drive_bytes is the number of its
 * drive bytes, even and at most GM_DRIVE_BYTES, and these stand at the front of `drive`. From that number
 * on `drive` is as it came in.
 * frame: of any length, drive: GM_DRIVE_BYTES, however many come. Refusals: COUNT, NUMBER, LENGTH,
 * FRAME_LENGTH, HEADER_CHECK, FRAME_CHECK, NULL_FRAME, NOT_DUE, CONTENT.
 */
uint32_t gm_read_heartbeat(uint32_t n, uint32_t mode, uint32_t node, uint32_t cycle, uint32_t channel,
                           const uint8_t *frame, size_t frame_len, uint8_t *drive, size_t drive_len,
                           uint32_t *join, uint32_t *request, uint32_t *drive_bytes);

/*
 * Receives the heartbeat of `node` from its copies on channels A and B (length 0 where none came): *heard
 * is GM_MISSED, GM_HEARD_MEMBER, GM_HEARD_JOINING or, in a quiet press, GM_HEARD_REQUEST. One good copy
 * counts; two count if their payloads are equal, first word and drive bytes, else the heartbeat is missed;
 * sync and startup are not compared. Of a copy that counts *drive_bytes and `drive` are as
 * gm_read_heartbeat gives them. A missed heartbeat is no refusal: *drive_bytes is 0, and all of `drive` is
 * as it came in.
 * a, b: of any length, drive: GM_DRIVE_BYTES, however many come. Refusals: COUNT, NUMBER, LENGTH.
 */
uint32_t gm_receive_heartbeat(uint32_t n, uint32_t mode, uint32_t node, uint32_t cycle, const uint8_t *a,
                              size_t a_len, const uint8_t *b, size_t b_len, uint8_t *drive,
                              size_t drive_len, uint32_t *heard, uint32_t *drive_bytes);

/*
 * The view of a member from what it heard: the members of its set in heard0, the nodes outside its set in
 * heard1, and itself; no other bit is looked at, so that a member of the set that restarts, and is joining,
 * is not heard. *view is 0 if the node is no member.
 * state: GM_STATE_BYTES. Refusals: NUMBER, LENGTH, STATE.
 */
uint32_t gm_view(uint32_t mode, const uint8_t *state, size_t state_len, uint64_t heard0, uint64_t heard1,
                 uint64_t *view);

/*
 * Writes the vote of a node from numbers.
 * frame: GM_VOTE_FRAME_BYTES. Refusals: COUNT, NUMBER, LENGTH, CONTENT.
 */
uint32_t gm_write_vote(uint32_t n, uint32_t node, uint32_t number, uint64_t set, uint64_t base,
                       uint64_t view, uint32_t cycle, uint32_t channel, uint8_t *frame, size_t frame_len);

/*
 * Writes the vote that a node sends in its state, from what it heard: *sent is 1, or 0 if it sends none,
 * and frame is then as it came in. heard0 and heard1 are looked at as for gm_view. In a quiet press a
 * member that rests sends none; of `requests` the bits of other nodes of its set are looked at that are in
 * heard0 too, and no other bit. Where votes are sent in every cycle `requests` is not looked at.
 * state: GM_STATE_BYTES, frame: GM_VOTE_FRAME_BYTES. Refusals: NUMBER, LENGTH, STATE.
 */
uint32_t gm_send_vote(uint32_t mode, const uint8_t *state, size_t state_len, uint64_t heard0,
                      uint64_t heard1, uint64_t requests, uint32_t cycle, uint32_t channel, uint8_t *frame,
                      size_t frame_len, uint32_t *sent);

/*
 * Reads one copy of the vote of `node`, due in cycle count `cycle` on `channel`, to its payload: number (4
 * bytes), set, base and view (8 each).
 * frame: of any length, vote: GM_VOTE_BYTES. Refusals: COUNT, NUMBER, LENGTH, FRAME_LENGTH, HEADER_CHECK,
 * FRAME_CHECK, NULL_FRAME, NOT_DUE, CONTENT.
 */
uint32_t gm_read_vote(uint32_t n, uint32_t node, uint32_t cycle, uint32_t channel, const uint8_t *frame,
                      size_t frame_len, uint8_t *vote, size_t vote_len);

/*
 * Receives the vote of `node` from its copies on channels A and B (length 0 where none came): into its slot
 * of the vote buffer, its bit of *arrived set; or it is missed, the buffer is as it came in and the bit
 * cleared. One good copy counts; two count if their payloads are equal, else the vote is missed.
 * a, b: of any length, votes: GM_VOTES_BYTES. Refusals: COUNT, NUMBER, LENGTH.
 */
uint32_t gm_receive_vote(uint32_t n, uint32_t node, uint32_t cycle, const uint8_t *a, size_t a_len,
                         const uint8_t *b, size_t b_len, uint8_t *votes, size_t votes_len,
                         uint64_t *arrived);

/*
 * Decides: the node's next state, from what it heard and the votes that arrived. heard0, heard1 and
 * requests are looked at as for gm_send_vote: whether the node voted is worked out from them again. A slot
 * whose vote gm_read_vote would refuse for its content counts as not arrived, and so does a bit at n or
 * above; the node's own bit is not looked at.
 * state: GM_STATE_BYTES, votes: GM_VOTES_BYTES. Refusals: NUMBER, LENGTH, STATE.
 */
uint32_t gm_decide(uint32_t mode, uint8_t *state, size_t state_len, uint64_t heard0, uint64_t heard1,
                   uint64_t requests, const uint8_t *votes, size_t votes_len, uint64_t arrived);

/*
 * Reads a register: *value is the byte at `address`, 0 to 255.
 * block: GM_REGISTERS_BYTES. Refusals: NUMBER, LENGTH, STATE, ADDRESS.
 */
uint32_t gm_register_read(uint32_t mode, const uint8_t *block, size_t block_len, uint32_t address,
                          uint32_t *value);

/*
 * Writes a register: what a write to `address` does stands at A REGISTER BLOCK above.
 * block: GM_REGISTERS_BYTES. Refusals: NUMBER, LENGTH, STATE, ADDRESS.
 */
uint32_t gm_register_write(uint32_t mode, uint8_t *block, size_t block_len, uint32_t address,
                           uint8_t value);

/*
 * The cycle of a register block: decides as gm_decide does of the same arguments, and raises the flag of
 * what became of the node.
 * block: GM_REGISTERS_BYTES, votes: GM_VOTES_BYTES. Refusals: NUMBER, LENGTH, STATE.
 */
uint32_t gm_register_cycle(uint32_t mode, uint8_t *block, size_t block_len, uint64_t heard0,
                           uint64_t heard1, uint64_t requests, const uint8_t *votes, size_t votes_len,
                           uint64_t arrived);

/*
 * What gm_register_write does and then gm_register_cycle, in one step; refused, neither is done.
 * block: GM_REGISTERS_BYTES, votes: GM_VOTES_BYTES. Refusals: NUMBER, LENGTH, STATE, ADDRESS.
 */
uint32_t gm_register_write_cycle(uint32_t mode, uint8_t *block, size_t block_len, uint32_t address,
                                 uint8_t value, uint64_t heard0, uint64_t heard1, uint64_t requests,
                                 const uint8_t *votes, size_t votes_len, uint64_t arrived);

/*
 * One cycle of all n nodes under the faults of one record of kind 2, on the row as it is lent.
 * row: n times GM_STATE_BYTES, record: exactly one record. Refusals: COUNT, NUMBER, LENGTH, STATE, CUT,
 * KIND, LIMIT.
 */
uint32_t gm_cycle(uint32_t n, uint32_t mode, uint8_t *row, size_t row_len, const uint8_t *record,
                  size_t record_len);

/*
 * A table's run: sets the row to the beginning of the table and runs its cycles. The whole table is looked
 * at before the row changes.
 * row: as many times GM_STATE_BYTES as the table has nodes, in any state, but written once, since they are
 * read; table: of any length. Refusals: NUMBER, then CUT, KIND, COUNT, LENGTH, LIMIT, record by record.
 */
uint32_t gm_run(uint32_t mode, uint8_t *row, size_t row_len, const uint8_t *table, size_t table_len);

/*
 * The same run through frames: in every cycle each node writes what it sends for both channels, and reads
 * what the others sent. It leaves what gm_run leaves, and in `frames` what an analyser at the senders would
 * show of the last cycle: heartbeats on A, heartbeats on B, votes on A, votes on B, each of these four
 * parts 64 slots of GM_VOTE_FRAME_BYTES. The frame that node q sent stands at the front of slot q, whether
 * or not it reached anybody; zeros stand behind it, and where nothing was sent. Cycle k of the run has
 * cycle count k - 1 modulo 64, and its heartbeats have sync and startup 0 and no drive bytes. A table
 * without cycles leaves `frames` as it came in.
 * row, table: as for gm_run; frames: GM_FRAMES_BYTES, another length being refused where the row's is.
 * Refusals: those of gm_run.
 */
uint32_t gm_run_frames(uint32_t mode, uint8_t *row, size_t row_len, const uint8_t *table, size_t table_len,
                       uint8_t *frames, size_t frames_len);

#ifdef __cplusplus
}
#endif

#endif
