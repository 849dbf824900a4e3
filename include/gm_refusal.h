/*
 * gm_refusal.h: what a status of gm.h says, one sentence for each, for a host that shows it to somebody. It
 * needs nothing of the archive.
 */
#ifndef GM_REFUSAL_H
#define GM_REFUSAL_H

#include "gm.h"

/* The sentence of a status. A number that no entry answers has one too, so that the result is never null. */
static inline const char *gm_refusal_text(uint32_t status)
{
    const char *text;
    switch (status) {
    case GM_OK: text = "The call was accepted."; break;
    case GM_REFUSED_COUNT: text = "The number of nodes is not 2 to 64."; break;
    case GM_REFUSED_NUMBER:
        text = "The mode is not 0 or 1, a node is not below the number of nodes, a cycle count is above 63, a channel is not A or B, "
               "or an indicator to be written is wrong.";
        break;
    case GM_REFUSED_LENGTH:
        text = "A buffer has another length than its entry names, drive bytes to be written are odd in number or more than 252, "
               "or a row has not one state for each node.";
        break;
    case GM_REFUSED_STATE: text = "A state or a register block is not well formed, or a state stands in a row at the place of another node."; break;
    case GM_REFUSED_FRAME_LENGTH: text = "The frame has fewer than 8 bytes, or not as many as its length field says."; break;
    case GM_REFUSED_HEADER_CHECK: text = "The header check of the frame is wrong."; break;
    case GM_REFUSED_FRAME_CHECK: text = "The frame check is wrong: the frame is damaged, or of the other channel."; break;
    case GM_REFUSED_NULL_FRAME: text = "The frame is a null frame."; break;
    case GM_REFUSED_NOT_DUE:
        text = "The frame is not the one that is due: of another node, cycle count or length, "
               "or with an indicator or reserved bit that it may not have.";
        break;
    case GM_REFUSED_CONTENT:
        text = "The content is not allowed: bits of a heartbeat's first word that must be 0, a request with join or in a press that is not quiet, "
               "or a vote whose set, base and view do not fit its sender and each other.";
        break;
    case GM_REFUSED_CUT: text = "The table is empty, or it or the record ends before the record is whole."; break;
    case GM_REFUSED_KIND: text = "A record has a wrong mark or kind, or stands where its kind may not."; break;
    case GM_REFUSED_LIMIT: text = "The founding set is empty, or a node, count, entry or cycle is not allowed."; break;
    case GM_REFUSED_ADDRESS: text = "The address is above 63, the last register of a block."; break;
    default: text = "No entry answers this number."; break;
    }
    return text;
}

#endif
