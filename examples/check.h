/* Demand 3's four statements, for the example to check at every step of a run. It looks at the tables and at what is
 * sent, and at nothing of how the register works; the first statement that fails ends the program. */
#ifndef CHECK_H
#define CHECK_H

#include "register.h"

#include <stdio.h>
#include <stdlib.h>
#include <string.h>

enum { KEYS = 4, SLOTS = 8, NODES = 64, LOG = 1 << 16, CAUGHT = 3 };

/* The keys of the run, and the tables of all nodes by id, in the chain or not. */
static const uint8_t keys[KEYS][REGISTER_KEY_SIZE] = {"CELL0001", "CELL0002", "CELL0003", "LIGHTS01"};
static uint8_t tables[NODES][REGISTER_TABLE_SIZE(SLOTS)];

static long step; /* of the run */

static void violated(const char *statement, size_t key, unsigned node)
{
    printf("step %ld: %s, at key %.8s, node %u\n", step, statement, (const char *)keys[key], node);
    exit(CAUGHT);
}

/* ---- Versions and contents ---- */

struct version {
    uint16_t session;
    uint32_t sequence;
};

static int is_less(struct version a, struct version b)
{
    return a.session < b.session || (a.session == b.session && a.sequence < b.sequence);
}

static struct version later(struct version a, struct version b)
{
    return is_less(a, b) ? b : a;
}

/* What a version stands for: a value that was written, or a delete. */
struct content {
    uint8_t is_deleted, length;
    const uint8_t *value;
};

static uint32_t number(const uint8_t *bytes, size_t length)
{
    uint32_t made = 0;
    while (length-- > 0)
        made = made << 8 | *bytes++;
    return made;
}

/* A key's slot at a node, or NULL. */
static const uint8_t *slot_of(unsigned node, size_t key)
{
    uint32_t slot = register_find_key(tables[node], sizeof tables[node], keys[key], REGISTER_KEY_SIZE);
    return slot == REGISTER_NO_SLOT ? NULL : tables[node] + REGISTER_TABLE_SIZE(slot);
}

/* The version of a key at a node: 0.0 where it was never written or is not there. */
static struct version version_at(unsigned node, size_t key)
{
    struct version made = {0, 0};
    const uint8_t *slot = slot_of(node, key);
    if (slot != NULL) {
        made.session = (uint16_t)number(slot + REGISTER_SLOT_SESSION_AT, sizeof made.session);
        made.sequence = number(slot + REGISTER_SLOT_SEQUENCE_AT, sizeof made.sequence);
    }
    return made;
}

/* ---- One version never stands for two contents ---- */

/* Every version that was seen, with its content, in a hash table. */
static struct {
    int used;
    size_t key;
    struct version version;
    uint8_t is_deleted, length, value[REGISTER_VALUE_SIZE];
} seen[LOG];

static void check_content(unsigned node, size_t key, struct version version, struct content content)
{
    size_t at = (version.sequence * 0x9E3779B9u ^ version.session * 0x85EBCA6Bu ^ (uint32_t)key << 13) % LOG;
    while (seen[at].used && (seen[at].key != key || seen[at].version.session != version.session
                             || seen[at].version.sequence != version.sequence))
        at = (at + 1) % LOG;
    if (!seen[at].used) {
        seen[at].used = 1;
        seen[at].key = key;
        seen[at].version = version;
        seen[at].is_deleted = content.is_deleted;
        seen[at].length = content.length;
        memcpy(seen[at].value, content.value, content.length);
    }
    if (seen[at].is_deleted != content.is_deleted || seen[at].length != content.length
        || memcmp(seen[at].value, content.value, content.length) != 0)
        violated("one version stands for two contents", key, node);
}

static void check_slot(unsigned node, size_t key)
{
    const uint8_t *slot = slot_of(node, key);
    struct content content;
    if (slot == NULL || slot[REGISTER_SLOT_STATE_AT] == REGISTER_ENTERED)
        return;
    content.is_deleted = slot[REGISTER_SLOT_STATE_AT] == REGISTER_DELETED;
    content.length = slot[REGISTER_SLOT_LENGTH_AT];
    content.value = slot + REGISTER_SLOT_VALUE_AT;
    check_content(node, key, version_at(node, key), content);
}

/* ---- What was acknowledged, and what reads have shown ---- */

static struct version acknowledged[KEYS], shown[KEYS];

static size_t key_of(const uint8_t *packet)
{
    size_t key = 0;
    while (key + 1 < KEYS && memcmp(register_packet_key(packet), keys[key], REGISTER_KEY_SIZE) != 0)
        key++;
    return key;
}

/* No read goes back behind an earlier read or acknowledgement. */
static void check_read(unsigned node, size_t key, struct version version)
{
    if (is_less(version, shown[key]))
        violated("a read goes back", key, node);
    shown[key] = version;
}

/* A packet that a node or the relay has made: what it says of a version, and whether it is an answer that counts. A
 * read counts where a node answers it, an acknowledgement where the relay makes it. */
static void check_packet(unsigned node, const uint8_t *packet)
{
    struct register_fields fields;
    struct version version;
    struct content content;
    size_t key = key_of(packet);
    if (register_read_packet(packet, register_packet_size(packet), &fields) != REGISTER_DONE)
        violated("a packet is not well-formed", key, node);
    version.session = fields.session;
    version.sequence = fields.sequence;
    content.is_deleted = fields.op == REGISTER_DELETE || fields.answer == REGISTER_ANSWER_NO_VALUE;
    content.length = fields.length;
    content.value = register_packet_value(packet);
    if (fields.sequence > 0 && fields.answer != REGISTER_ANSWER_WRITTEN)
        check_content(node, key, version, content);
    if (node != 0 && fields.op == REGISTER_READ)
        check_read(node, key, version);
    if (fields.answer == REGISTER_ANSWER_WRITTEN) {
        acknowledged[key] = later(acknowledged[key], version);
        shown[key] = later(shown[key], version);
    }
}

/* ---- All nodes, after every step ---- */

/* For each key no chain node is behind a later one. */
static void check_order(const struct register_record *record, size_t key)
{
    size_t place;
    for (place = 1; place < record->length; place++)
        if (is_less(version_at(record->ids[place - 1], key), version_at(record->ids[place], key)))
            violated("a chain node is behind a later one", key, record->ids[place - 1]);
}

/* An acknowledged write is held by every chain node from then on. */
static void check_held(const struct register_record *record, size_t key)
{
    size_t place;
    for (place = 0; place < record->length; place++)
        if (is_less(version_at(record->ids[place], key), acknowledged[key]))
            violated("an acknowledged write is not held by every chain node", key, record->ids[place]);
}

static void check_all(const struct register_record *record)
{
    size_t key;
    unsigned node;
    for (key = 0; key < KEYS; key++) {
        for (node = 1; node < NODES; node++)
            check_slot(node, key);
        check_order(record, key);
        check_held(record, key);
    }
}

#endif
