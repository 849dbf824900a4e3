/* A node's state, flags and enables as the 64 registers that a drive card reads and writes. */
#include "plain.h"
#include "bits.h"

enum { FLAGS = STATE_BYTES, ENABLES, PENDING, COMMAND };
enum { CHANGED = 1, HALTED = 2, ENTERED = 4, EVERY_FLAG = 7 };
enum { STOP = 1, START = 2 };

static uint8_t pending(const uint8_t *b)
{
    return (b[FLAGS] & b[ENABLES]) != 0;
}

static int sound_registers(const uint8_t *b)
{
    if (b[FLAGS] > EVERY_FLAG || b[ENABLES] > EVERY_FLAG || b[PENDING] != pending(b))
        return 0;
    for (unsigned i = COMMAND; i < REGISTERS_BYTES; i++)
        if (b[i] != 0)
            return 0;
    return 1;
}

static uint32_t refused_block(uint32_t mode, const uint8_t *b, size_t len)
{
    if (mode > QUIET)
        return 2;
    if (len != REGISTERS_BYTES)
        return 3;
    return sound_state(mode, b) && sound_registers(b) ? 0 : 4;
}

static uint32_t refused_register(uint32_t mode, const uint8_t *b, size_t len, uint32_t address)
{
    uint32_t refused = refused_block(mode, b, len);
    if (refused != 0)
        return refused;
    return address < REGISTERS_BYTES ? 0 : 14;
}

/* every register that is not named here ignores what is written */
static void put_register(uint8_t *b, uint32_t address, uint8_t value)
{
    if (address == FLAGS)
        b[FLAGS] &= (uint8_t)~value;
    else if (address == ENABLES)
        b[ENABLES] = value & EVERY_FLAG;
    else if (address == COMMAND && value == STOP)
        stop_node(b);
    else if (address == COMMAND && value == START)
        start_node(b);
    b[PENDING] = pending(b);
}

static void cycle_registers(uint32_t mode, uint8_t *b, uint64_t heard0, uint64_t heard1, uint64_t requests, const uint8_t *votes, uint64_t arrived)
{
    unsigned kind = b[0];
    uint64_t set = mask_at(b + 8);
    decide_node(mode, b, heard0, heard1, requests, votes, arrived);
    if (kind == JOINING && b[0] == MEMBER)
        b[FLAGS] |= ENTERED;
    else if (kind == MEMBER && b[0] == OUT)
        b[FLAGS] |= HALTED;
    else if (kind == MEMBER && mask_at(b + 8) != set)
        b[FLAGS] |= CHANGED;
    b[PENDING] = pending(b);
}

uint32_t plain_register_read(uint32_t mode, const uint8_t *block, size_t block_len, uint32_t address, uint32_t *value)
{
    uint32_t refused = refused_register(mode, block, block_len, address);
    if (refused == 0)
        *value = block[address];
    return refused;
}

uint32_t plain_register_write(uint32_t mode, uint8_t *block, size_t block_len, uint32_t address, uint8_t value)
{
    uint32_t refused = refused_register(mode, block, block_len, address);
    if (refused == 0)
        put_register(block, address, value);
    return refused;
}

/* votes of another length are looked at with that of the block, after the mode */
static size_t with_votes(size_t block_len, size_t votes_len)
{
    return votes_len == VOTES_BYTES ? block_len : 0;
}

uint32_t plain_register_cycle(uint32_t mode, uint8_t *block, size_t block_len, uint64_t heard0, uint64_t heard1, uint64_t requests,
                              const uint8_t *votes, size_t votes_len, uint64_t arrived)
{
    uint32_t refused = refused_block(mode, block, with_votes(block_len, votes_len));
    if (refused == 0)
        cycle_registers(mode, block, heard0, heard1, requests, votes, arrived);
    return refused;
}

uint32_t plain_register_write_cycle(uint32_t mode, uint8_t *block, size_t block_len, uint32_t address, uint8_t value, uint64_t heard0,
                                    uint64_t heard1, uint64_t requests, const uint8_t *votes, size_t votes_len, uint64_t arrived)
{
    uint32_t refused = refused_register(mode, block, with_votes(block_len, votes_len), address);
    if (refused == 0) {
        put_register(block, address, value);
        cycle_registers(mode, block, heard0, heard1, requests, votes, arrived);
    }
    return refused;
}
