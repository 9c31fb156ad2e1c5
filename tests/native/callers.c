/* Bad callers: missing, short and over-long slices, and each rule of table, record and packet broken once. Every call
 * must refuse with document 01's number and write nothing; what lies behind a slice may not even be touched. */
#define _DEFAULT_SOURCE
#include "register.h"

#include <stdio.h>
#include <stdlib.h>
#include <string.h>
#include <sys/mman.h>

enum { PAGE = 4096, ROOM = 16 * PAGE, SLOTS = 4, LONG = 700, MOST_PRINTED = 20 };

static long tried, failed;

/* ---- What is lent ---- */

/* Bytes at the end of memory of their own, and what they were when they were lent. */
struct slice {
    uint8_t *room, *at;
    size_t length;
    uint8_t before[ROOM];
};

static struct slice table, fresh, packet, outlet;
static struct register_record record, record_before;
static struct register_fields fields, fields_before;

static void make_room(struct slice *slice)
{
    slice->room = mmap(NULL, ROOM + PAGE, PROT_READ | PROT_WRITE, MAP_PRIVATE | MAP_ANONYMOUS, -1, 0);
    if (slice->room == MAP_FAILED || mprotect(slice->room + ROOM, PAGE, PROT_NONE) != 0) {
        puts("no memory");
        exit(2);
    }
}

/* Lends `length` bytes: those of `bytes`, as many as there are, and then zeros. NULL lends NULL. */
static void lend(struct slice *slice, const uint8_t *bytes, size_t there, size_t length)
{
    slice->length = length;
    slice->at = NULL;
    if (bytes == NULL)
        return;
    slice->at = slice->room + ROOM - length;
    memset(slice->before, 0, length);
    memcpy(slice->before, bytes, there < length ? there : length);
    memcpy(slice->at, slice->before, length);
}

static int same(const struct slice *slice)
{
    return slice->length == 0 || memcmp(slice->at, slice->before, slice->length) == 0;
}

static int all_same(void)
{
    return same(&table) && same(&fresh) && same(&packet) && same(&outlet)
        && memcmp(&record, &record_before, sizeof record) == 0 && memcmp(&fields, &fields_before, sizeof fields) == 0;
}

static void fail(const char *call, const char *what, const char *why)
{
    if (failed++ < MOST_PRINTED)
        printf("%s, %s: %s\n", call, what, why);
}

/* Judges one call: the number it gave, and, if it refused, that all that was lent is as before. */
static void expect(const char *call, const char *what, int wanted, int given)
{
    tried++;
    if (given != wanted)
        fail(call, what, register_words(given));
    else if (wanted != REGISTER_DONE && !all_same())
        fail(call, what, "something was written");
}

/* Judges something that a call left behind. */
static void hold(const char *call, const char *what, int holds)
{
    if (!holds)
        fail(call, what, "does not hold");
}

/* ---- A scene in which every call is done: chain 1 2 3, and node 4 on its way in before node 2 ---- */

enum { FIRST = 1, NAMED, LAST, NEW, NEXT_NEW };
enum { ENTERED, VALUED, DELETED, FREE };
enum { STAMP = 2, VALUE_LENGTH = 5 }; /* the stamp is not below the fence that the change sets */

static const uint16_t chain[] = {FIRST, NAMED, LAST};
static const uint8_t keys[SLOTS][REGISTER_KEY_SIZE] = {"entered", "valued", "deleted", "absent"};
static const uint8_t wide_value[REGISTER_VALUE_SIZE] = {1, 2, 3};
static uint8_t sound_table[REGISTER_TABLE_SIZE(SLOTS)], sound_fresh[REGISTER_TABLE_SIZE(SLOTS)];
static uint8_t sound_read[REGISTER_OUTLET_SIZE], sound_write[REGISTER_OUTLET_SIZE], asked_write[REGISTER_OUTLET_SIZE];
static struct register_record settled, changing, copied;

#define COUNT(array) (sizeof(array) / sizeof *(array))

static void must(int refusal)
{
    if (refusal != REGISTER_DONE) {
        printf("the scene cannot be made: %d (%s)\n", refusal, register_words(refusal));
        exit(1);
    }
}

/* A query as a client asks it. */
static struct register_fields asked(uint8_t op, uint8_t length)
{
    struct register_fields made = {0};
    made.op = op;
    made.length = length;
    return made;
}

/* A query as the relay sends it to the named node. */
static struct register_fields query(uint8_t op, uint8_t length)
{
    struct register_fields made = asked(op, length);
    made.to = NAMED;
    made.stamp = STAMP;
    made.session = op == REGISTER_READ ? 0 : settled.session;
    return made;
}

/* Writes a query about a key into the bytes of an outlet. */
static void put_query(uint8_t *bytes, struct register_fields fields_of, const uint8_t *key)
{
    must(register_write_packet(bytes, REGISTER_OUTLET_SIZE, &fields_of, key, REGISTER_KEY_SIZE, wide_value,
                               fields_of.length));
}

/* The named node takes a query about a key. */
static void take(struct register_fields fields_of, const uint8_t *key)
{
    uint8_t bytes[REGISTER_OUTLET_SIZE], out[REGISTER_OUTLET_SIZE];
    put_query(bytes, fields_of, key);
    must(register_step_node(sound_table, sizeof sound_table, bytes, register_packet_size(bytes), out, sizeof out));
}

static void make_records(void)
{
    uint8_t taken[sizeof sound_fresh];
    uint16_t slot;
    memcpy(&changing, &settled, sizeof changing);
    must(register_open_change(&changing, REGISTER_BEFORE, NAMED, NEW));
    must(register_fence_table(&changing, sound_table, sizeof sound_table));
    memcpy(&copied, &changing, sizeof copied);
    memcpy(taken, sound_fresh, sizeof taken);
    for (slot = 0; slot < SLOTS; slot++)
        must(register_copy_slot(&copied, slot, sound_table, sizeof sound_table, taken, sizeof taken));
}

static void make_scene(void)
{
    size_t slot;
    memset(&settled, 0, sizeof settled);
    must(register_start_record(&settled, chain, COUNT(chain), SLOTS));
    must(register_blank_table(sound_table, sizeof sound_table, NAMED, SLOTS));
    must(register_blank_table(sound_fresh, sizeof sound_fresh, NEW, SLOTS));
    for (slot = ENTERED; slot <= DELETED; slot++)
        must(register_enter_key(&settled, sound_table, sizeof sound_table, NAMED, keys[slot]));
    take(query(REGISTER_WRITE, VALUE_LENGTH), keys[VALUED]);
    take(query(REGISTER_DELETE, 0), keys[DELETED]);
    make_records();
    put_query(sound_read, query(REGISTER_READ, 0), keys[VALUED]);
    put_query(sound_write, query(REGISTER_WRITE, VALUE_LENGTH), keys[VALUED]);
    put_query(asked_write, asked(REGISTER_WRITE, REGISTER_VALUE_SIZE), keys[VALUED]);
}

/* ---- The calls on what is lent ---- */

static int node(void)
{
    return register_step_node(table.at, table.length, packet.at, packet.length, outlet.at, outlet.length);
}

static int relay(void)
{
    return register_step_relay(&record, packet.at, packet.length, outlet.at, outlet.length).refusal;
}

static int open_change(void)
{
    return register_open_change(&record, REGISTER_BEFORE, NAMED, NEXT_NEW);
}

static int fence(void)
{
    return register_fence_table(&record, table.at, table.length);
}

static int copy(void)
{
    return register_copy_slot(&record, 0, table.at, table.length, fresh.at, fresh.length);
}

static int activate(void)
{
    return register_activate_change(&record);
}

static int cancel(void)
{
    return register_cancel_change(&record);
}

static int remove_node(void)
{
    return register_remove_node(&record, NAMED);
}

static int enter(void)
{
    return register_enter_key(&record, table.at, table.length, NAMED, keys[FREE]);
}

static int check(void)
{
    return register_check_table(table.at, table.length);
}

static int read_packet(void)
{
    return register_read_packet(packet.at, packet.length, &fields);
}

static int write_packet(void)
{
    struct register_fields fields_of = query(REGISTER_WRITE, REGISTER_VALUE_SIZE);
    return register_write_packet(outlet.at, outlet.length, &fields_of, keys[VALUED], REGISTER_KEY_SIZE, wide_value,
                                 REGISTER_VALUE_SIZE);
}

/* A call by its name, with the record and the packet under which it is done. */
struct call {
    const char *name;
    int (*make)(void);
    const struct register_record *record;
    const uint8_t *packet;
};

static const struct call on_table[] = {{"node step", node, &settled, sound_read},
                                       {"fence", fence, &changing, sound_read},
                                       {"copy", copy, &changing, sound_read},
                                       {"enter", enter, &settled, sound_read},
                                       {"table check", check, &settled, sound_read}};
static const struct call on_fresh[] = {{"copy to it", copy, &changing, sound_read}};
static const struct call on_record[] = {{"relay step", relay, &settled, asked_write},
                                        {"open", open_change, &settled, sound_read},
                                        {"fence", fence, &changing, sound_read},
                                        {"copy", copy, &changing, sound_read},
                                        {"activate", activate, &copied, sound_read},
                                        {"cancel", cancel, &changing, sound_read},
                                        {"remove", remove_node, &settled, sound_read},
                                        {"enter", enter, &settled, sound_read}};
static const struct call on_packet[] = {{"node step", node, &settled, sound_read},
                                        {"relay step", relay, &settled, asked_write},
                                        {"packet reading", read_packet, &settled, sound_read}};
static const struct call on_outlet[] = {{"node step", node, &settled, sound_read},
                                        {"relay step", relay, &settled, asked_write},
                                        {"packet writing", write_packet, &settled, sound_read}};

static void set_record(const struct register_record *to)
{
    memcpy(&record, to, sizeof record);
    memcpy(&record_before, to, sizeof record);
}

/* Lends the scene of a call. */
static void set_scene(const struct call *call)
{
    uint8_t filled[REGISTER_OUTLET_SIZE];
    memset(filled, 0xEE, sizeof filled);
    set_record(call->record);
    memset(&fields, 0, sizeof fields);
    memset(&fields_before, 0, sizeof fields);
    lend(&table, sound_table, sizeof sound_table, sizeof sound_table);
    lend(&fresh, sound_fresh, sizeof sound_fresh, sizeof sound_fresh);
    lend(&packet, call->packet, REGISTER_OUTLET_SIZE, register_packet_size(call->packet));
    lend(&outlet, filled, sizeof filled, sizeof filled);
}

/* What a scene lends is in order, so that a refusal later has but one cause. */
static void try_sound(const struct call *calls, size_t count)
{
    size_t i;
    for (i = 0; i < count; i++) {
        set_scene(&calls[i]);
        expect(calls[i].name, "all in order", REGISTER_DONE, calls[i].make());
    }
}

/* Each of these calls refuses with this number where the slice is these bytes. */
static void refuse(int wanted, const struct call *calls, size_t count, struct slice *slice, const char *what,
                   const uint8_t *bytes, size_t there, size_t length)
{
    size_t i;
    for (i = 0; i < count; i++) {
        set_scene(&calls[i]);
        lend(slice, bytes, there, length);
        expect(calls[i].name, what, wanted, calls[i].make());
    }
}

/* ---- Tables ---- */

static void refuse_table(const char *what, const uint8_t *bytes, size_t there, size_t length)
{
    refuse(REGISTER_BROKEN, on_table, COUNT(on_table), &table, what, bytes, there, length);
    refuse(REGISTER_BROKEN, on_fresh, COUNT(on_fresh), &fresh, what, bytes, there, length);
}

/* One byte of a table or packet put in place of another. */
struct patch {
    const char *what;
    size_t at;
    uint8_t byte;
};

#define IN_SLOT(slot, at) (REGISTER_TABLE_SIZE(slot) + (size_t)(at))

static const struct patch table_patches[] = {
    {"node id 0", REGISTER_ID_AT + 1, 0},
    {"slot count 0", REGISTER_COUNT_AT + 1, 0},
    {"slot count under its length", REGISTER_COUNT_AT + 1, SLOTS - 1},
    {"slot count over its length", REGISTER_COUNT_AT + 1, SLOTS + 1},
    {"256 slots more", REGISTER_COUNT_AT, 1},
    {"free slot with a key", IN_SLOT(FREE, REGISTER_SLOT_KEY_AT), 1},
    {"free slot with a key's last byte", IN_SLOT(FREE, REGISTER_KEY_SIZE - 1), 1},
    {"free slot with a length", IN_SLOT(FREE, REGISTER_SLOT_LENGTH_AT), 1},
    {"free slot with a session", IN_SLOT(FREE, REGISTER_SLOT_SESSION_AT), 1},
    {"free slot with a sequence", IN_SLOT(FREE, REGISTER_SLOT_SEQUENCE_AT), 1},
    {"free slot with a value byte", IN_SLOT(FREE, REGISTER_SLOT_VALUE_AT), 1},
    {"free slot with its last byte", IN_SLOT(FREE, REGISTER_SLOT_SIZE - 1), 1},
    {"used slot called free", IN_SLOT(ENTERED, REGISTER_SLOT_STATE_AT), REGISTER_FREE},
    {"entered slot with a length", IN_SLOT(ENTERED, REGISTER_SLOT_LENGTH_AT), 1},
    {"entered slot with a session", IN_SLOT(ENTERED, REGISTER_SLOT_SESSION_AT + 1), 1},
    {"entered slot with a sequence", IN_SLOT(ENTERED, REGISTER_SLOT_SEQUENCE_AT + 3), 1},
    {"entered slot with a value byte", IN_SLOT(ENTERED, REGISTER_SLOT_VALUE_AT), 1},
    {"entered slot called valued", IN_SLOT(ENTERED, REGISTER_SLOT_STATE_AT), REGISTER_VALUED},
    {"entered slot called deleted", IN_SLOT(ENTERED, REGISTER_SLOT_STATE_AT), REGISTER_DELETED},
    {"valued slot without session", IN_SLOT(VALUED, REGISTER_SLOT_SESSION_AT + 1), 0},
    {"valued slot without sequence", IN_SLOT(VALUED, REGISTER_SLOT_SEQUENCE_AT + 3), 0},
    {"valued slot called entered", IN_SLOT(VALUED, REGISTER_SLOT_STATE_AT), REGISTER_ENTERED},
    {"valued slot called deleted", IN_SLOT(VALUED, REGISTER_SLOT_STATE_AT), REGISTER_DELETED},
    {"valued slot with a length under its value", IN_SLOT(VALUED, REGISTER_SLOT_LENGTH_AT), 2},
    {"valued slot with length 129", IN_SLOT(VALUED, REGISTER_SLOT_LENGTH_AT), REGISTER_VALUE_SIZE + 1},
    {"valued slot with length 255", IN_SLOT(VALUED, REGISTER_SLOT_LENGTH_AT), UINT8_MAX},
    {"byte behind a value", IN_SLOT(VALUED, REGISTER_SLOT_VALUE_AT + VALUE_LENGTH), 1},
    {"last byte behind a value", IN_SLOT(VALUED, REGISTER_SLOT_SIZE - 1), 1},
    {"deleted slot without session", IN_SLOT(DELETED, REGISTER_SLOT_SESSION_AT + 1), 0},
    {"deleted slot without sequence", IN_SLOT(DELETED, REGISTER_SLOT_SEQUENCE_AT + 3), 0},
    {"deleted slot with a length", IN_SLOT(DELETED, REGISTER_SLOT_LENGTH_AT), 1},
    {"deleted slot with a value byte", IN_SLOT(DELETED, REGISTER_SLOT_VALUE_AT), 1},
    {"deleted slot called entered", IN_SLOT(DELETED, REGISTER_SLOT_STATE_AT), REGISTER_ENTERED},
    {"state 4", IN_SLOT(VALUED, REGISTER_SLOT_STATE_AT), REGISTER_DELETED + 1},
    {"state 255", IN_SLOT(VALUED, REGISTER_SLOT_STATE_AT), UINT8_MAX},
};

static void try_table_rules(void)
{
    uint8_t bytes[sizeof sound_table];
    size_t i;
    for (i = 0; i < COUNT(table_patches); i++) {
        memcpy(bytes, sound_table, sizeof bytes);
        bytes[table_patches[i].at] = table_patches[i].byte;
        refuse_table(table_patches[i].what, bytes, sizeof bytes, sizeof bytes);
    }
}

static void try_table_lengths(void)
{
    static uint8_t most[REGISTER_TABLE_SIZE(REGISTER_MOST_SLOTS + 1)];
    static const uint16_t over = REGISTER_MOST_SLOTS + 1;
    size_t length;
    for (length = 0; length <= LONG; length++)
        if (length != sizeof sound_table)
            refuse_table("another length", sound_table, sizeof sound_table, length);
    must(register_blank_table(most, REGISTER_TABLE_SIZE(REGISTER_MOST_SLOTS), NAMED, REGISTER_MOST_SLOTS));
    refuse_table("256 slots, one byte less", most, sizeof most, REGISTER_TABLE_SIZE(REGISTER_MOST_SLOTS) - 1);
    refuse_table("256 slots, one byte more", most, sizeof most, REGISTER_TABLE_SIZE(REGISTER_MOST_SLOTS) + 1);
    most[REGISTER_COUNT_AT] = (uint8_t)(over >> 8);
    most[REGISTER_COUNT_AT + 1] = (uint8_t)over;
    refuse_table("257 slots", most, sizeof most, sizeof most);
}

static void refuse_blank(const char *what, size_t length, uint16_t id, uint16_t count)
{
    set_scene(&on_table[0]);
    lend(&table, wide_value, sizeof wide_value, length);
    expect("blank table", what, REGISTER_BROKEN, register_blank_table(table.at, table.length, id, count));
}

static void try_blank(void)
{
    refuse_blank("id 0", REGISTER_TABLE_SIZE(SLOTS), 0, SLOTS);
    refuse_blank("no slots", REGISTER_TABLE_SIZE(0), NEW, 0);
    refuse_blank("257 slots", REGISTER_TABLE_SIZE(REGISTER_MOST_SLOTS + 1), NEW, REGISTER_MOST_SLOTS + 1);
    refuse_blank("one byte less", REGISTER_TABLE_SIZE(SLOTS) - 1, NEW, SLOTS);
    refuse_blank("one byte more", REGISTER_TABLE_SIZE(SLOTS) + 1, NEW, SLOTS);
    refuse_blank("one slot less", REGISTER_TABLE_SIZE(SLOTS - 1), NEW, SLOTS);
}

/* ---- Records ---- */

static void refuse_record(const char *what, const struct register_record *broken)
{
    size_t i;
    for (i = 0; i < COUNT(on_record); i++) {
        set_scene(&on_record[i]);
        set_record(broken);
        expect(on_record[i].name, what, REGISTER_BROKEN, on_record[i].make());
    }
}

/* Breaks one rule of a record by an assignment to `it`. */
#define BROKEN(what, base, assignment)           \
    do {                                         \
        struct register_record it;               \
        memcpy(&it, &(base), sizeof it);         \
        assignment;                              \
        refuse_record(what, &it);                \
    } while (0)

static void try_record_rules(void)
{
    static const uint16_t eight[REGISTER_MOST_NODES] = {FIRST, NAMED, LAST, 5, 6, 7, 8, 9};
    BROKEN("length 0", settled, it.length = 0);
    BROKEN("length 9", settled, it.length = REGISTER_MOST_NODES + 1);
    BROKEN("length under its ids", settled, it.length = COUNT(chain) - 1);
    BROKEN("length over its ids", settled, it.length = COUNT(chain) + 1);
    BROKEN("id 0 in the chain", settled, it.ids[1] = 0);
    BROKEN("an id twice", settled, it.ids[2] = FIRST);
    BROKEN("an unused place", settled, (it.ids[REGISTER_MOST_NODES - 1] = NEW, it.highest = NEW));
    BROKEN("session 0", settled, it.session = 0);
    BROKEN("an id above the highest", settled, it.highest = LAST - 1);
    BROKEN("slot count 0", settled, it.count = 0);
    BROKEN("slot count 257", settled, it.count = REGISTER_MOST_SLOTS + 1);
    BROKEN("kind 3", changing, it.kind = REGISTER_AFTER + 1);
    BROKEN("kind 255", settled, it.kind = UINT8_MAX);
    BROKEN("a named node not in the chain", changing, it.named = NEW);
    BROKEN("after a node that is not the last", changing, it.kind = REGISTER_AFTER);
    BROKEN("a new id in the chain", changing, (it.fresh = LAST, it.highest = LAST));
    BROKEN("a new id that is not the highest", changing, it.highest = NEW + 1);
    BROKEN("a change on 8 nodes", changing,
           (it.length = REGISTER_MOST_NODES, it.fresh = 10, it.highest = 10, memcpy(it.ids, eight, sizeof eight)));
    BROKEN("a mark of 2", changing, it.fenced = 2);
    BROKEN("a next slot over the count", changing, it.next = SLOTS + 1);
    BROKEN("a next slot while unfenced", changing, (it.fenced = 0, it.next = 1));
}

/* With no change open the members of a change are ignored coming in, and 0 going out. */
static void try_ignored_members(void)
{
    set_scene(&on_record[0]);
    record.named = record.fresh = record.next = UINT16_MAX;
    record.fenced = UINT8_MAX;
    expect("remove", "no change, and members of one", REGISTER_DONE, remove_node());
    hold("remove", "0 for the members of a change",
         record.named == 0 && record.fresh == 0 && record.next == 0 && record.fenced == 0);
}

static void refuse_start(const char *what, const uint16_t *ids, size_t length, uint16_t count)
{
    set_scene(&on_record[0]);
    expect("start", what, REGISTER_BROKEN, register_start_record(&record, ids, length, count));
}

static void try_start(void)
{
    static const uint16_t nine[REGISTER_MOST_NODES + 1] = {1, 2, 3, 4, 5, 6, 7, 8, 9}, twice[] = {LAST, LAST};
    static const uint16_t with_none[] = {LAST, 0};
    refuse_start("NULL", NULL, 0, SLOTS);
    refuse_start("9 ids", nine, COUNT(nine), SLOTS);
    refuse_start("an id twice", twice, COUNT(twice), SLOTS);
    refuse_start("id 0", with_none, COUNT(with_none), SLOTS);
    refuse_start("slot count 0", chain, COUNT(chain), 0);
    refuse_start("slot count 257", chain, COUNT(chain), REGISTER_MOST_SLOTS + 1);
}

static void try_kinds(void)
{
    static const uint8_t kinds[] = {REGISTER_NO_CHANGE, REGISTER_AFTER + 1, UINT8_MAX};
    size_t i;
    for (i = 0; i < COUNT(kinds); i++) {
        set_scene(&on_record[0]);
        expect("open", "another kind", REGISTER_BROKEN, register_open_change(&record, kinds[i], NAMED, NEXT_NEW));
    }
}

/* ---- Packets ---- */

static void refuse_packet(const char *what, const uint8_t *bytes, size_t there, size_t length)
{
    refuse(REGISTER_MALFORMED, on_packet, COUNT(on_packet), &packet, what, bytes, there, length);
}

/* Of the read; a number's last byte is its lowest. */
static const struct patch read_patches[] = {
    {"op 0", REGISTER_OP_AT, 0},
    {"op 4", REGISTER_OP_AT, REGISTER_DELETE + 1},
    {"answer 5", REGISTER_ANSWER_AT, REGISTER_ANSWER_WRITTEN + 1},
    {"a read with a session", REGISTER_SESSION_AT + 1, 1},
    {"a length without value", REGISTER_LENGTH_AT, 1},
    {"byte 19", REGISTER_ZERO_AT, 1},
    {"sequence without session", REGISTER_SEQUENCE_AT + 3, 1},
    {"a value without version", REGISTER_ANSWER_AT, REGISTER_ANSWER_VALUE},
    {"a written answer to a read", REGISTER_ANSWER_AT, REGISTER_ANSWER_WRITTEN},
};

/* Of the unnumbered write, which has a value. */
static const struct patch write_patches[] = {
    {"a read with a value", REGISTER_OP_AT, REGISTER_READ},
    {"a delete with a value", REGISTER_OP_AT, REGISTER_DELETE},
    {"a value answer to a write", REGISTER_ANSWER_AT, REGISTER_ANSWER_VALUE},
    {"no value, with a value", REGISTER_ANSWER_AT, REGISTER_ANSWER_NO_VALUE},
    {"no such key, with a value", REGISTER_ANSWER_AT, REGISTER_ANSWER_NO_KEY},
    {"a written answer with a value", REGISTER_ANSWER_AT, REGISTER_ANSWER_WRITTEN},
};

static void try_patches(const struct patch *patches, size_t count, const uint8_t *sound)
{
    uint8_t bytes[REGISTER_OUTLET_SIZE];
    size_t i;
    for (i = 0; i < count; i++) {
        memcpy(bytes, sound, sizeof bytes);
        bytes[patches[i].at] = patches[i].byte;
        refuse_packet(patches[i].what, bytes, sizeof bytes, register_packet_size(sound));
    }
}

static void try_packet_lengths(void)
{
    uint8_t bytes[REGISTER_OUTLET_SIZE];
    size_t length;
    for (length = 0; length <= LONG; length++)
        if (length != register_packet_size(sound_write))
            refuse_packet("another length", sound_write, sizeof sound_write, length);
    memcpy(bytes, sound_write, sizeof bytes);
    bytes[REGISTER_LENGTH_AT] = REGISTER_VALUE_SIZE + 1;
    refuse_packet("a value of 129 bytes", bytes, sizeof bytes, REGISTER_OUTLET_SIZE + 1);
}

static void write_one(const char *what, int wanted, uint8_t length, size_t key_length, const uint8_t *value,
                      size_t value_length)
{
    struct register_fields fields_of = query(REGISTER_WRITE, length);
    uint8_t key[REGISTER_KEY_SIZE + 1] = {0};
    set_scene(&on_outlet[0]);
    expect("packet writing", what, wanted,
           register_write_packet(outlet.at, outlet.length, &fields_of, key_length == 0 ? NULL : key, key_length, value,
                                 value_length));
}

static void try_packet_writing(void)
{
    const uint8_t *value = wide_value;
    write_one("all in order", REGISTER_DONE, VALUE_LENGTH, REGISTER_KEY_SIZE, value, VALUE_LENGTH);
    write_one("no value, NULL", REGISTER_DONE, 0, REGISTER_KEY_SIZE, NULL, 0);
    write_one("value under the length", REGISTER_MALFORMED, VALUE_LENGTH, REGISTER_KEY_SIZE, value, VALUE_LENGTH - 1);
    write_one("value over the length", REGISTER_MALFORMED, VALUE_LENGTH, REGISTER_KEY_SIZE, value, VALUE_LENGTH + 1);
    write_one("NULL for a value", REGISTER_MALFORMED, VALUE_LENGTH, REGISTER_KEY_SIZE, NULL, 0);
    write_one("NULL for a key", REGISTER_MALFORMED, VALUE_LENGTH, 0, value, VALUE_LENGTH);
    write_one("a key of 15 bytes", REGISTER_MALFORMED, VALUE_LENGTH, REGISTER_KEY_SIZE - 1, value, VALUE_LENGTH);
    write_one("a key of 17 bytes", REGISTER_MALFORMED, VALUE_LENGTH, REGISTER_KEY_SIZE + 1, value, VALUE_LENGTH);
}

/* ---- Outlets ---- */

/* Under 168 bytes every call refuses; from there on it is done, and the bytes behind its packet stay. */
static void try_outlet(size_t length)
{
    uint8_t filled[LONG];
    size_t i, size;
    memset(filled, 0xEE, sizeof filled);
    if (length < REGISTER_OUTLET_SIZE) {
        refuse(REGISTER_SMALL_OUTLET, on_outlet, COUNT(on_outlet), &outlet, "its outlet", filled, LONG, length);
        return;
    }
    for (i = 0; i < COUNT(on_outlet); i++) {
        set_scene(&on_outlet[i]);
        lend(&outlet, filled, LONG, length);
        expect(on_outlet[i].name, "its outlet", REGISTER_DONE, on_outlet[i].make());
        size = register_packet_size(outlet.at);
        hold(on_outlet[i].name, "the bytes behind the packet stay",
             memcmp(outlet.at + size, filled, length - size) == 0);
    }
}

static void try_outlets(void)
{
    size_t length;
    for (length = 0; length <= REGISTER_OUTLET_SIZE + 1; length++)
        try_outlet(length);
    try_outlet(LONG);
}

/* ---- NULL with length 0 ---- */

static void try_null(void)
{
    refuse_table("NULL for a table", NULL, 0, 0);
    refuse_packet("NULL for a packet", NULL, 0, 0);
    refuse(REGISTER_SMALL_OUTLET, on_outlet, COUNT(on_outlet), &outlet, "NULL for an outlet", NULL, 0, 0);
    expect("blank table", "NULL", REGISTER_BROKEN, register_blank_table(NULL, 0, NEW, SLOTS));
}

static void try_find(void)
{
    set_scene(&on_table[0]);
    hold("find", "no slot for NULL", register_find_key(NULL, 0, keys[VALUED], REGISTER_KEY_SIZE) == REGISTER_NO_SLOT);
    hold("find", "no slot for no key", register_find_key(table.at, table.length, NULL, 0) == REGISTER_NO_SLOT);
    hold("find", "the slot of a key",
         register_find_key(table.at, table.length, keys[VALUED], REGISTER_KEY_SIZE) == VALUED);
}

/* Each number of the table has words of its own, and so has what is no number. */
static void try_words(void)
{
    int one, other;
    for (one = REGISTER_DONE; one <= REGISTER_FENCE_ABOVE + 1; one++)
        for (other = REGISTER_DONE; other < one; other++)
            hold("words", "two numbers, two texts", strcmp(register_words(one), register_words(other)) != 0);
}

int main(void)
{
    make_room(&table);
    make_room(&fresh);
    make_room(&packet);
    make_room(&outlet);
    make_scene();
    try_sound(on_table, COUNT(on_table));
    try_sound(on_record, COUNT(on_record));
    try_sound(on_packet, COUNT(on_packet));
    try_sound(on_outlet, COUNT(on_outlet));
    try_sound(on_fresh, COUNT(on_fresh));
    try_table_rules();
    try_table_lengths();
    try_blank();
    try_record_rules();
    try_ignored_members();
    try_start();
    try_kinds();
    try_patches(read_patches, COUNT(read_patches), sound_read);
    try_patches(write_patches, COUNT(write_patches), sound_write);
    try_packet_lengths();
    try_packet_writing();
    try_outlets();
    try_null();
    try_find();
    try_words();
    printf("bad callers: %ld calls, %ld wrong\n", tried, failed);
    return failed != 0;
}
