/* The register for C: the calls of libregister.a, and document 01's numbers and sizes under their names.
 *
 * The loop of a daemon: what comes from a client or a node goes through register_step_relay; what that sends to a node
 * goes through register_step_node, with the table of this node; and what that makes comes back from the node.
 * examples/daemon.c shows it, with the controller's steps.
 *
 * Every call takes any input and ends. It returns REGISTER_DONE (0), or a refusal: the lowest of document 01's numbers
 * whose condition holds, and then nothing that was lent to it has changed. register_words tells a refusal in words.
 *
 * Node ids are 1 to 65,535, and 0 stands for none. A table, a packet and an outlet are bytes of the caller, lent for
 * the time of one call: a pointer, and a length in elements. A pointer with length 0 may be NULL.
 *
 * What the caller must see to, because no code can check it:
 * - A length is true: that many elements may be read, and written where the pointer is not to const.
 * - What a call may write overlaps nothing else that is lent to the same call; the outlet is not the packet.
 * - A pointer without a length (a struct, the key of register_enter_key) is not NULL and has all its elements.
 * - No other thread touches what is lent until the call returns.
 * - What demand 3 asks of a run: each table and the record are kept whole from one call to the next and changed by
 *   these calls alone; a halted node takes no step; only a halted node is removed; a client's packet has sender 0.
 */
#ifndef REGISTER_H
#define REGISTER_H

#include <stddef.h>
#include <stdint.h>

#ifdef __cplusplus
extern "C" {
#endif

/* ---- Numbers and sizes ---- */

/* The numbers returned. */
enum {
    REGISTER_DONE = 0,
    REGISTER_BROKEN = 1,
    REGISTER_SMALL_OUTLET = 2,
    REGISTER_MALFORMED = 3,
    REGISTER_MISADDRESSED = 4,
    REGISTER_STRANGER = 5,
    REGISTER_STOPPED = 6,
    REGISTER_BELOW_FENCE = 7,
    REGISTER_SESSIONLESS = 8,
    REGISTER_KEY_MISSING = 9,
    REGISTER_SESSION_OVER = 10,
    REGISTER_NO_NUMBER_LEFT = 11,
    REGISTER_NOT_NEWER = 12,
    REGISTER_CHANGE_OPEN = 13,
    REGISTER_OUT_OF_TURN = 14,
    REGISTER_NOT_MEANT = 15,
    REGISTER_ID_USED = 16,
    REGISTER_CHAIN_FULL = 17,
    REGISTER_ONLY_NODE = 18,
    REGISTER_OTHER_COUNT = 19,
    REGISTER_KEY_THERE = 20,
    REGISTER_NO_FREE_SLOT = 21,
    REGISTER_FENCE_ABOVE = 22
};

/* What a packet asks. */
enum { REGISTER_READ = 1, REGISTER_WRITE = 2, REGISTER_DELETE = 3 };

/* What a packet answers; a query answers nothing yet. */
enum {
    REGISTER_QUERY = 0,
    REGISTER_ANSWER_VALUE = 1,
    REGISTER_ANSWER_NO_VALUE = 2,
    REGISTER_ANSWER_NO_KEY = 3,
    REGISTER_ANSWER_WRITTEN = 4
};

/* The state of a slot. */
enum { REGISTER_FREE = 0, REGISTER_ENTERED = 1, REGISTER_VALUED = 2, REGISTER_DELETED = 3 };

/* The state of change: none open, or the new node comes before or after the named one. */
enum { REGISTER_NO_CHANGE = 0, REGISTER_BEFORE = 1, REGISTER_AFTER = 2 };

/* Sizes in bytes, and the most of what is counted. */
enum {
    REGISTER_KEY_SIZE = 16,
    REGISTER_VALUE_SIZE = 128,
    REGISTER_FRONT_SIZE = 40, /* a packet without its value */
    REGISTER_OUTLET_SIZE = 168,
    REGISTER_HEAD_SIZE = 8, /* a table without its slots */
    REGISTER_SLOT_SIZE = 152,
    REGISTER_MOST_SLOTS = 256,
    REGISTER_MOST_NODES = 8
};

/* A table of `count` slots has exactly this many bytes. */
#define REGISTER_TABLE_SIZE(count) ((size_t)REGISTER_HEAD_SIZE + (size_t)REGISTER_SLOT_SIZE * (size_t)(count))

/* Where things stand in a packet, in a table's head and in a slot; all numbers in them are big-endian. */
enum {
    REGISTER_OP_AT = 0,
    REGISTER_ANSWER_AT = 1,
    REGISTER_FROM_AT = 2,
    REGISTER_TO_AT = 4,
    REGISTER_CLIENT_AT = 6,
    REGISTER_REQUEST_AT = 8,
    REGISTER_STAMP_AT = 12,
    REGISTER_SESSION_AT = 16,
    REGISTER_LENGTH_AT = 18,
    REGISTER_ZERO_AT = 19,
    REGISTER_SEQUENCE_AT = 20,
    REGISTER_KEY_AT = 24,
    REGISTER_VALUE_AT = 40
};
enum { REGISTER_FENCE_AT = 0, REGISTER_ID_AT = 4, REGISTER_COUNT_AT = 6 };
enum {
    REGISTER_SLOT_KEY_AT = 0,
    REGISTER_SLOT_STATE_AT = 16,
    REGISTER_SLOT_LENGTH_AT = 17,
    REGISTER_SLOT_SESSION_AT = 18,
    REGISTER_SLOT_SEQUENCE_AT = 20,
    REGISTER_SLOT_VALUE_AT = 24
};

/* What register_find_key gives where no used slot has the key. */
enum { REGISTER_NO_SLOT = 65536 };

/* Document 01's words for a number returned. */
static inline const char *register_words(int refusal)
{
    switch (refusal) {
    case REGISTER_DONE: return "done";
    case REGISTER_BROKEN: return "table or record breaks the rules";
    case REGISTER_SMALL_OUTLET: return "outlet under 168 bytes (node, relay, packet writing)";
    case REGISTER_MALFORMED: return "packet not well-formed";
    case REGISTER_MISADDRESSED:
        return "at a node: \"to\" not its id, \"from\" not 0, or an answer; at the relay: from 0 and to, stamp, answer "
               "or version not 0, or from a node and \"to\" not 0, a read query, or an unnumbered query";
    case REGISTER_STRANGER: return "sender not in the chain";
    case REGISTER_STOPPED: return "stopped";
    case REGISTER_BELOW_FENCE: return "stamp below the fence";
    case REGISTER_SESSIONLESS: return "write or delete at a node with session 0";
    case REGISTER_KEY_MISSING: return "numbered, key missing";
    case REGISTER_SESSION_OVER: return "unnumbered, stored session higher";
    case REGISTER_NO_NUMBER_LEFT:
        return "no number left: sequence or wiring 4,294,967,295, or session 65,535, must grow";
    case REGISTER_NOT_NEWER: return "numbered, not newer";
    case REGISTER_CHANGE_OPEN: return "change open (open, remove, enter)";
    case REGISTER_OUT_OF_TURN:
        return "fence, copy, activate, cancel with no change; copy unfenced or i not next (or none left); activate "
               "before all slots";
    case REGISTER_NOT_MEANT:
        return "named, removed or entered-at id not in chain; \"after\" and not last; a table's id is not the one "
               "meant";
    case REGISTER_ID_USED: return "new id not above highest";
    case REGISTER_CHAIN_FULL: return "open on 8 nodes";
    case REGISTER_ONLY_NODE: return "remove the only node";
    case REGISTER_OTHER_COUNT: return "a table's slot count differs from the record's (fence, copy, enter)";
    case REGISTER_KEY_THERE: return "key already there";
    case REGISTER_NO_FREE_SLOT: return "no free slot";
    case REGISTER_FENCE_ABOVE: return "the named node's fence is above the wiring number (fence)";
    default: return "no number of the register";
    }
}

/* ---- The chain record and the fields of a packet ---- */

/* Each struct is a list of its members, and crosses the boundary as that many numbers in that order: ONE for a member,
 * EIGHT for the places of the chain. The struct, the count of its numbers and both ways between struct and numbers are
 * made of the list, so that a later member is one line. */
#define REGISTER_MEMBER(type, name) type name;
#define REGISTER_MEMBERS(type, name) type name[REGISTER_MOST_NODES];
#define REGISTER_NUMBER(type, name) +1
#define REGISTER_NUMBERS(type, name) +REGISTER_MOST_NODES
#define REGISTER_SPREAD(type, name) *numbers++ = from->name;
#define REGISTER_SPREADS(type, name) \
    for (size_t place = 0; place < REGISTER_MOST_NODES; place++) *numbers++ = from->name[place];
#define REGISTER_TAKE(type, name) to->name = (type)*numbers++;
#define REGISTER_TAKES(type, name) \
    for (size_t place = 0; place < REGISTER_MOST_NODES; place++) to->name[place] = (type)*numbers++;

/* The chain record. With no change open the last four are ignored coming in and 0 going out. */
#define REGISTER_RECORD(ONE, EIGHT)                                     \
    ONE(uint8_t, length)   /* of the chain */                           \
    EIGHT(uint16_t, ids)   /* in chain order, the unused places 0 */    \
    ONE(uint32_t, wiring)                                               \
    ONE(uint16_t, session)                                              \
    ONE(uint16_t, highest) /* id ever used */                           \
    ONE(uint16_t, count)   /* of the slots in each table */             \
    ONE(uint8_t, kind)     /* of the change: none, before or after */   \
    ONE(uint16_t, named)   /* the node whose slots are copied */        \
    ONE(uint16_t, fresh)   /* the new node's id */                      \
    ONE(uint8_t, fenced)   /* 0 or 1 */                                 \
    ONE(uint16_t, next)    /* slot to copy */

/* All of a packet but its key and its value, which are bytes of the packet. */
#define REGISTER_FIELDS(ONE, EIGHT)         \
    ONE(uint8_t, op)                        \
    ONE(uint8_t, answer)                    \
    ONE(uint16_t, from)                     \
    ONE(uint16_t, to)                       \
    ONE(uint16_t, client)                   \
    ONE(uint32_t, request)                  \
    ONE(uint32_t, stamp)                    \
    ONE(uint16_t, session)                  \
    ONE(uint32_t, sequence)                 \
    ONE(uint8_t, length) /* of the value */

struct register_record { REGISTER_RECORD(REGISTER_MEMBER, REGISTER_MEMBERS) };
struct register_fields { REGISTER_FIELDS(REGISTER_MEMBER, REGISTER_MEMBERS) };

enum {
    REGISTER_RECORD_NUMBERS = 0 REGISTER_RECORD(REGISTER_NUMBER, REGISTER_NUMBERS),
    REGISTER_FIELD_NUMBERS = 0 REGISTER_FIELDS(REGISTER_NUMBER, REGISTER_NUMBERS)
};

static inline void register_record_spread(const struct register_record *from, uint32_t *numbers)
{
    REGISTER_RECORD(REGISTER_SPREAD, REGISTER_SPREADS)
}

static inline void register_fields_spread(const struct register_fields *from, uint32_t *numbers)
{
    REGISTER_FIELDS(REGISTER_SPREAD, REGISTER_SPREADS)
}

/* Takes the numbers back into the record, if the call that had them was done; returns what the call returned. */
static inline int register_record_take(int refusal, struct register_record *to, const uint32_t *numbers)
{
    if (refusal == REGISTER_DONE) {
        REGISTER_RECORD(REGISTER_TAKE, REGISTER_TAKES)
    }
    return refusal;
}

/* The same for the fields of a packet. */
static inline int register_fields_take(int refusal, struct register_fields *to, const uint32_t *numbers)
{
    if (refusal == REGISTER_DONE) {
        REGISTER_FIELDS(REGISTER_TAKE, REGISTER_TAKES)
    }
    return refusal;
}

/* ---- A packet's bytes ---- */

/* The size of the packet at the start of an outlet that a call has just filled. */
static inline size_t register_packet_size(const uint8_t *outlet)
{
    return (size_t)REGISTER_FRONT_SIZE + outlet[REGISTER_LENGTH_AT];
}

/* The key of a well-formed packet, a stretch of its bytes. */
static inline const uint8_t *register_packet_key(const uint8_t *packet)
{
    return packet + REGISTER_KEY_AT;
}

/* The value of a well-formed packet, a stretch of its bytes as long as its length says. */
static inline const uint8_t *register_packet_value(const uint8_t *packet)
{
    return packet + REGISTER_VALUE_AT;
}

/* ---- What the archive exports: the wrappers below call these, other code calls the wrappers ---- */

/* What register_relay_step returns for a packet to the client; to a node it is this and the node's id. */
enum { REGISTER_SENT = 65536 };

uint8_t register_node_step(uint8_t *table, size_t table_length, const uint8_t *packet, size_t packet_length,
                           uint8_t *outlet, size_t outlet_length);
uint32_t register_relay_step(const uint32_t *record, size_t record_length, const uint8_t *packet, size_t packet_length,
                             uint8_t *outlet, size_t outlet_length);
uint8_t register_open(uint32_t *record, size_t record_length, uint8_t kind, uint16_t named, uint16_t fresh);
uint8_t register_fence(uint32_t *record, size_t record_length, uint8_t *table, size_t table_length);
uint8_t register_copy(uint32_t *record, size_t record_length, uint16_t slot, const uint8_t *named, size_t named_length,
                      uint8_t *fresh, size_t fresh_length);
uint8_t register_activate(uint32_t *record, size_t record_length);
uint8_t register_cancel(uint32_t *record, size_t record_length);
uint8_t register_remove(uint32_t *record, size_t record_length, uint16_t id);
uint8_t register_enter(const uint32_t *record, size_t record_length, uint8_t *table, size_t table_length, uint16_t id,
                       const uint8_t *key);
uint8_t register_start(uint32_t *record, size_t record_length, const uint16_t *ids, size_t ids_length, uint16_t count);
uint8_t register_blank(uint8_t *table, size_t table_length, uint16_t id, uint16_t count);
uint8_t register_packet_read(const uint8_t *packet, size_t packet_length, uint32_t *fields, size_t fields_length);
uint8_t register_packet_write(uint8_t *outlet, size_t outlet_length, const uint32_t *fields, size_t fields_length,
                              const uint8_t *key, size_t key_length, const uint8_t *value, size_t value_length);
uint8_t register_table_good(const uint8_t *table, size_t table_length);
uint32_t register_find(const uint8_t *table, size_t table_length, const uint8_t *key, size_t key_length);

/* ---- Packets ---- */

/* Gives the fields of a packet; its key and value are where register_packet_key and register_packet_value point.
 * Refused: 3. */
static inline int register_read_packet(const uint8_t *packet, size_t packet_length, struct register_fields *fields)
{
    uint32_t numbers[REGISTER_FIELD_NUMBERS];
    return register_fields_take(register_packet_read(packet, packet_length, numbers, REGISTER_FIELD_NUMBERS), fields,
                                numbers);
}

/* Writes the packet of these fields, key and value at the start of the outlet; the bytes behind it stay.
 * Refused: 2; 3 also where the key has not 16 bytes, or the value not as many as the fields say. */
static inline int register_write_packet(uint8_t *outlet, size_t outlet_length, const struct register_fields *fields,
                                        const uint8_t *key, size_t key_length, const uint8_t *value,
                                        size_t value_length)
{
    uint32_t numbers[REGISTER_FIELD_NUMBERS];
    register_fields_spread(fields, numbers);
    return register_packet_write(outlet, outlet_length, numbers, REGISTER_FIELD_NUMBERS, key, key_length, value,
                                 value_length);
}

/* ---- Tables ---- */

/* Makes the table a blank one of this node with this many slots: fence 0, all slots free.
 * Refused: 1, where no table of this id, count and length keeps the rules. */
static inline int register_blank_table(uint8_t *table, size_t table_length, uint16_t id, uint16_t count)
{
    return register_blank(table, table_length, id, count);
}

/* Says whether the bytes are a table that keeps the rules, which every call that takes a table asks by itself.
 * Refused: 1, if they are not. */
static inline int register_check_table(const uint8_t *table, size_t table_length)
{
    return register_table_good(table, table_length);
}

/* Gives the number of the lowest used slot that has the key, or REGISTER_NO_SLOT.
 * It does not ask whether the table keeps the rules, and looks at the whole slots that its length has room for. */
static inline uint32_t register_find_key(const uint8_t *table, size_t table_length, const uint8_t *key,
                                         size_t key_length)
{
    return register_find(table, table_length, key, key_length);
}

/* ---- The node and the relay ---- */

/* A node takes a packet that the relay sent it: a read is answered, a write or delete is stored in the one slot of its
 * key, and the packet that goes back to the relay stands at the outlet's start, the bytes behind it as they were.
 * Refused, and nothing is sent: 1 to 4, 7 to 12. */
static inline int register_step_node(uint8_t *table, size_t table_length, const uint8_t *packet, size_t packet_length,
                                     uint8_t *outlet, size_t outlet_length)
{
    return register_node_step(table, table_length, packet, packet_length, outlet, outlet_length);
}

/* Where the relay sends a packet: nowhere under a refusal, else to a node, or to the client where that is 0. */
struct register_hop {
    uint8_t refusal;
    uint16_t node;
};

/* The relay takes a packet of a client or a node and puts what it sends on at the outlet's start, the bytes behind it
 * as they were; the answer says to whom. Refused, and nothing is sent: 1 to 6. */
static inline struct register_hop register_step_relay(const struct register_record *record, const uint8_t *packet,
                                                      size_t packet_length, uint8_t *outlet, size_t outlet_length)
{
    struct register_hop hop;
    uint32_t outcome;
    uint32_t numbers[REGISTER_RECORD_NUMBERS];
    register_record_spread(record, numbers);
    outcome = register_relay_step(numbers, REGISTER_RECORD_NUMBERS, packet, packet_length, outlet, outlet_length);
    hop.refusal = (uint8_t)(outcome < REGISTER_SENT ? outcome : 0);
    hop.node = (uint16_t)(outcome < REGISTER_SENT ? 0 : outcome - REGISTER_SENT);
    return hop;
}

/* ---- The controller ---- */

/* Makes the record of a chain that starts, of these ids in chain order (1 to 8) and this many slots a table: wiring and
 * session 1, no change open. Refused: 1, where the record would break the rules. */
static inline int register_start_record(struct register_record *record, const uint16_t *ids, size_t ids_length,
                                        uint16_t count)
{
    uint32_t numbers[REGISTER_RECORD_NUMBERS];
    return register_record_take(register_start(numbers, REGISTER_RECORD_NUMBERS, ids, ids_length, count), record,
                                numbers);
}

/* Opens a change: the new node is to come REGISTER_BEFORE the named one, or REGISTER_AFTER it, if it is the last; from
 * now on the relay stops what is addressed to the named node. Refused: 1 (another kind too), 11, 13, 15, 16, 17. */
static inline int register_open_change(struct register_record *record, uint8_t kind, uint16_t named, uint16_t fresh)
{
    uint32_t numbers[REGISTER_RECORD_NUMBERS];
    register_record_spread(record, numbers);
    return register_record_take(register_open(numbers, REGISTER_RECORD_NUMBERS, kind, named, fresh), record, numbers);
}

/* Sets the fence in the named node's table to the wiring number, so that it drops what was sent to it before the change
 * was opened, and marks the change fenced. Refused: 1, 14, 15, 19, 22. */
static inline int register_fence_table(struct register_record *record, uint8_t *table, size_t table_length)
{
    uint32_t numbers[REGISTER_RECORD_NUMBERS];
    register_record_spread(record, numbers);
    return register_record_take(register_fence(numbers, REGISTER_RECORD_NUMBERS, table, table_length), record, numbers);
}

/* Copies one slot, which must be the next, from the named node's table as it is now to the new node's.
 * Refused: 1, 14, 15, 19. */
static inline int register_copy_slot(struct register_record *record, uint16_t slot, const uint8_t *named,
                                     size_t named_length, uint8_t *fresh, size_t fresh_length)
{
    uint32_t numbers[REGISTER_RECORD_NUMBERS];
    register_record_spread(record, numbers);
    return register_record_take(
        register_copy(numbers, REGISTER_RECORD_NUMBERS, slot, named, named_length, fresh, fresh_length), record,
        numbers);
}

/* Puts the new node into the chain once all slots are copied, and closes the change; a new first node begins a session.
 * Refused: 1, 11, 14. */
static inline int register_activate_change(struct register_record *record)
{
    uint32_t numbers[REGISTER_RECORD_NUMBERS];
    register_record_spread(record, numbers);
    return register_record_take(register_activate(numbers, REGISTER_RECORD_NUMBERS), record, numbers);
}

/* Closes the change without its new node, whose id is spent. Refused: 1, 14. */
static inline int register_cancel_change(struct register_record *record)
{
    uint32_t numbers[REGISTER_RECORD_NUMBERS];
    register_record_spread(record, numbers);
    return register_record_take(register_cancel(numbers, REGISTER_RECORD_NUMBERS), record, numbers);
}

/* Takes a node, which must have halted, out of the chain; if it was the first, a session begins.
 * Refused: 1, 11, 13, 15, 18. */
static inline int register_remove_node(struct register_record *record, uint16_t id)
{
    uint32_t numbers[REGISTER_RECORD_NUMBERS];
    register_record_spread(record, numbers);
    return register_record_take(register_remove(numbers, REGISTER_RECORD_NUMBERS, id), record, numbers);
}

/* Enters a key of 16 bytes at one chain node, whose table this is, in its lowest free slot, never written.
 * Refused: 1, 13, 15, 19, 20, 21. */
static inline int register_enter_key(const struct register_record *record, uint8_t *table, size_t table_length,
                                     uint16_t id, const uint8_t *key)
{
    uint32_t numbers[REGISTER_RECORD_NUMBERS];
    register_record_spread(record, numbers);
    return register_enter(numbers, REGISTER_RECORD_NUMBERS, table, table_length, id, key);
}

#ifdef __cplusplus
}
#endif

#endif
