/* A small relay daemon, in memory and without sockets: a chain of three nodes, clients, and a network that loses,
 * repeats and reorders. Nodes halt and are replaced: before the head, in the middle, after the tail. Every step is
 * checked against demand 3 (check.h).
 *
 * daemon SEED STEPS [quiet]: prints what it did; ends with 0 if all held, with 3 at the first statement that
 * fails.
 *
 * Built with -DSHORTCUT=NAME it takes one of the shortcuts below, which its checks must catch. */
#include "check.h"

#include <stdarg.h>

enum shortcut {
    NONE,
    NO_FENCE,           /* marks the change fenced, and does not fence */
    FENCE_UNDONE,       /* puts the old fence back into the table */
    COPY_BEFORE_FENCE,  /* copies from the table as it was before the fence */
    OLD_TABLE,          /* starts a halted node again, with a table saved earlier */
    REMOVED_RUNNING,    /* removes a node that has not halted */
    OLD_SESSION,        /* lets a new head number on in the old session */
    REMOVED_ID_AGAIN,   /* gives a removed id out again */
    READS_AT_OLD_TAIL   /* lets reads go on at the old tail while a node comes after it */
};

#ifndef SHORTCUT
#define SHORTCUT NONE
#endif

static const enum shortcut shortcut = SHORTCUT;

enum { CHAIN = 3, LONGEST = 5, QUEUE = 200, CLIENTS = 3, RELAY = 0 };

static struct register_record record;
static int halted[NODES];
static uint8_t saved[NODES][REGISTER_TABLE_SIZE(SLOTS)]; /* tables of earlier, for the shortcuts */

static int is_quiet;

static struct {
    long sent, lost, repeated, at_nodes, at_relay, reads, written, refused[REGISTER_FENCE_ABOVE + 1];
    long to_head, to_middle, to_tail, cancelled, removed;
} count;

/* ---- Chance, and what is printed ---- */

static uint64_t dice;

static unsigned below(unsigned bound)
{
    uint64_t mixed = dice += 0x9E3779B97F4A7C15u;
    mixed = (mixed ^ mixed >> 30) * 0xBF58476D1CE4E5B9u;
    mixed = (mixed ^ mixed >> 27) * 0x94D049BB133111EBu;
    return (unsigned)((mixed ^ mixed >> 31) % bound);
}

static int percent(unsigned chance)
{
    return below(100) < chance;
}

static void say(const char *text, ...)
{
    va_list rest;
    size_t place;
    if (is_quiet)
        return;
    printf("step %5ld: ", step);
    va_start(rest, text);
    vprintf(text, rest);
    va_end(rest);
    printf("; chain");
    for (place = 0; place < record.length; place++)
        printf(" %u%s", record.ids[place], halted[record.ids[place]] ? " (halted)" : "");
    printf(", wiring %lu, session %u\n", (unsigned long)record.wiring, record.session);
}

/* A step of the controller that nothing stands against. */
static void must(const char *what, int refusal)
{
    if (refusal == REGISTER_DONE)
        return;
    printf("step %ld: %s was refused: %d, %s\n", step, what, refusal, register_words(refusal));
    exit(1);
}

/* ---- The network: packets under way, to a node or to the relay ---- */

struct parcel {
    uint16_t to;
    uint8_t bytes[REGISTER_OUTLET_SIZE];
};

static struct parcel queue[QUEUE];
static unsigned under_way;

/* A packet sets out; if too many are under way, one of them is lost. */
static void post(uint16_t to, const uint8_t *packet)
{
    unsigned at = under_way;
    if (under_way < QUEUE) {
        under_way++;
    } else {
        at = below(QUEUE);
        count.lost++;
    }
    queue[at].to = to;
    memcpy(queue[at].bytes, packet, register_packet_size(packet));
}

/* ---- Clients ---- */

static void send_query(uint8_t op, size_t key)
{
    uint8_t packet[REGISTER_OUTLET_SIZE];
    char value[32] = "";
    struct register_fields fields = {0};
    fields.op = op;
    fields.client = (uint16_t)(1 + below(CLIENTS));
    fields.request = (uint32_t)++count.sent;
    if (op == REGISTER_WRITE && percent(90))
        fields.length = (uint8_t)sprintf(value, "value %ld", count.sent);
    must("a client's packet", register_write_packet(packet, sizeof packet, &fields, keys[key], REGISTER_KEY_SIZE,
                                                    (const uint8_t *)value, fields.length));
    post(RELAY, packet);
}

static void client_moves(void)
{
    static const uint8_t ops[] = {REGISTER_READ, REGISTER_READ, REGISTER_WRITE, REGISTER_WRITE, REGISTER_DELETE};
    size_t key = below(KEYS);
    send_query(ops[below(sizeof ops)], key);
}

/* ---- Nodes and the relay take packets ---- */

static void node_takes(uint16_t node, const uint8_t *packet, size_t length)
{
    uint8_t outlet[REGISTER_OUTLET_SIZE];
    int refusal;
    if (halted[node])
        return;
    refusal = register_step_node(tables[node], sizeof tables[node], packet, length, outlet, sizeof outlet);
    count.refused[refusal]++;
    if (refusal != REGISTER_DONE)
        return;
    count.at_nodes++;
    count.reads += outlet[REGISTER_OP_AT] == REGISTER_READ;
    check_packet(node, outlet);
    post(RELAY, outlet);
}

/* The record by which the relay sends a packet. */
static struct register_record record_for(const uint8_t *packet)
{
    struct register_record made = record;
    if (shortcut == READS_AT_OLD_TAIL && packet[REGISTER_OP_AT] == REGISTER_READ)
        made.kind = REGISTER_NO_CHANGE;
    return made;
}

static void relay_takes(const uint8_t *packet, size_t length)
{
    uint8_t outlet[REGISTER_OUTLET_SIZE];
    struct register_record now = record_for(packet);
    struct register_hop hop = register_step_relay(&now, packet, length, outlet, sizeof outlet);
    count.refused[hop.refusal]++;
    if (hop.refusal != REGISTER_DONE)
        return;
    count.at_relay++;
    check_packet(RELAY, outlet);
    if (hop.node != 0)
        post(hop.node, outlet);
    else
        count.written += outlet[REGISTER_ANSWER_AT] == REGISTER_ANSWER_WRITTEN;
}

static void deliver(uint16_t to, const uint8_t *packet)
{
    if (to == RELAY)
        relay_takes(packet, register_packet_size(packet));
    else
        node_takes(to, packet, register_packet_size(packet));
}

/* Any packet under way is next. Some are lost, some come again later, some reach another node. */
static void network_moves(void)
{
    struct parcel parcel;
    unsigned at;
    if (under_way == 0)
        return;
    at = below(under_way);
    parcel = queue[at];
    if (percent(25))
        count.repeated++;
    else
        queue[at] = queue[--under_way];
    if (percent(4))
        count.lost++;
    else
        deliver(percent(2) ? record.ids[0] : parcel.to, parcel.bytes);
}

/* ---- The controller ---- */

static uint16_t chain_node(void)
{
    return record.ids[below(record.length)];
}

static unsigned running(void)
{
    size_t place;
    unsigned found = 0;
    for (place = 0; place < record.length; place++)
        found += !halted[record.ids[place]];
    return found;
}

static uint16_t new_id(void)
{
    size_t place;
    if (shortcut == REMOVED_ID_AGAIN)
        for (record.highest = 0, place = 0; place < record.length; place++)
            record.highest = record.ids[place] > record.highest ? record.ids[place] : record.highest;
    return (uint16_t)(record.highest + 1);
}

static void make_table(uint16_t node)
{
    must("a blank table", register_blank_table(tables[node], sizeof tables[node], node, SLOTS));
    halted[node] = 0;
}

static void open_change(void)
{
    uint8_t kind = percent(30) ? REGISTER_AFTER : REGISTER_BEFORE;
    uint16_t named = kind == REGISTER_AFTER ? record.ids[record.length - 1] : chain_node();
    uint16_t fresh = new_id();
    if (halted[named] || fresh == NODES)
        return;
    must("opening", register_open_change(&record, kind, named, fresh));
    make_table(fresh);
    memcpy(saved, tables, sizeof saved);
    say("node %u is to come %s %u", fresh, kind == REGISTER_AFTER ? "after" : "before", named);
}

static void fence_named(void)
{
    uint8_t *table = tables[record.named];
    if (shortcut == NO_FENCE) {
        record.fenced = 1;
        return;
    }
    must("fencing", register_fence_table(&record, table, sizeof tables[record.named]));
    if (shortcut == FENCE_UNDONE)
        memset(table + REGISTER_FENCE_AT, 0, REGISTER_ID_AT - REGISTER_FENCE_AT);
}

static void copy_next(void)
{
    const uint8_t *from = shortcut == COPY_BEFORE_FENCE ? saved[record.named] : tables[record.named];
    must("copying", register_copy_slot(&record, record.next, from, sizeof tables[record.named], tables[record.fresh],
                                       sizeof tables[record.fresh]));
}

static void activate(void)
{
    struct register_record before = record;
    must("activating", register_activate_change(&record));
    if (before.kind == REGISTER_AFTER)
        count.to_tail++;
    else if (record.ids[0] == before.fresh)
        count.to_head++;
    else
        count.to_middle++;
    if (shortcut == OLD_SESSION)
        record.session = before.session;
    say("node %u has come in", before.fresh);
}

static void cancel(void)
{
    must("cancelling", register_cancel_change(&record));
    count.cancelled++;
    say("the change is given up");
}

/* The next step of the change that is open; it is given up where a halted node holds it up, and sometimes at will. */
static void go_on_with_change(void)
{
    if (halted[record.named] || halted[record.fresh] || percent(2))
        cancel();
    else if (!record.fenced)
        fence_named();
    else if (record.next < record.count)
        copy_next();
    else
        activate();
}

static void halt(uint16_t node)
{
    if (running() < 2)
        return;
    halted[node] = 1;
    say("node %u halts", node);
}

static void remove_node(uint16_t node)
{
    uint16_t session = record.session;
    must("removing", register_remove_node(&record, node));
    count.removed++;
    if (shortcut == OLD_SESSION)
        record.session = session;
    say("node %u is removed", node);
}

static void start_again(uint16_t node)
{
    memcpy(tables[node], saved[node], sizeof tables[node]);
    halted[node] = 0;
    say("node %u starts again", node);
}

/* With no change open: halted nodes are removed, the chain is brought to its length, and sometimes a node halts. */
static void look_after_chain(void)
{
    uint16_t node = chain_node();
    if (shortcut == OLD_TABLE && halted[node])
        start_again(node);
    else if (halted[node] || (shortcut == REMOVED_RUNNING && running() > 1 && percent(2)))
        remove_node(node);
    else if (record.length < CHAIN || (record.length < LONGEST && percent(3)))
        open_change();
    else if (percent(4))
        halt(node);
}

/* Enters a key at a chain node, which may have it already. */
static void enter_key(uint16_t node, size_t key)
{
    int refusal;
    if (halted[node])
        return;
    refusal = register_enter_key(&record, tables[node], sizeof tables[node], node, keys[key]);
    if (refusal != REGISTER_KEY_THERE)
        must("entering", refusal);
}

static void controller_moves(void)
{
    if (record.kind != REGISTER_NO_CHANGE) {
        if (percent(1))
            halt(record.named);
        go_on_with_change();
    } else if (percent(20)) {
        size_t key = below(KEYS);
        enter_key(chain_node(), key);
    } else {
        look_after_chain();
    }
}

/* ---- The run ---- */

static void start(void)
{
    static const uint16_t ids[CHAIN] = {1, 2, 3};
    size_t place, key;
    must("starting", register_start_record(&record, ids, CHAIN, SLOTS));
    for (place = 0; place < CHAIN; place++)
        make_table(ids[place]);
    for (place = 0; place < CHAIN; place++)
        for (key = 0; key + 1 < KEYS; key++)
            enter_key(ids[place], key);
    memcpy(saved, tables, sizeof saved);
}

static void one_step(void)
{
    unsigned what = below(100);
    step++;
    if (what < 10)
        client_moves();
    else if (what < 88)
        network_moves();
    else
        controller_moves();
    check_all(&record);
}

/* In a calm time one write is acknowledged after a step of each chain node, and one more of the relay. */
static void calm_write(size_t key)
{
    long at_nodes = count.at_nodes, at_relay = count.at_relay, written = count.written;
    send_query(REGISTER_WRITE, key);
    while (under_way > 0) {
        struct parcel parcel = queue[--under_way];
        deliver(parcel.to, parcel.bytes);
        check_all(&record);
    }
    if (count.written != written + 1 || count.at_nodes != at_nodes + record.length
        || count.at_relay != at_relay + record.length + 1) {
        printf("step %ld: a write in a calm time was not acknowledged after as many steps as it takes\n", step);
        exit(CAUGHT);
    }
}

/* Ends the change, removes what halted, forgets what is under way, and writes each key once. */
static void calm_down(void)
{
    size_t key;
    if (record.kind != REGISTER_NO_CHANGE)
        cancel();
    while (running() < record.length) {
        uint16_t node = chain_node();
        if (halted[node])
            remove_node(node);
    }
    under_way = 0;
    for (key = 0; key + 1 < KEYS; key++)
        calm_write(key);
    say("all is calm: each write is acknowledged after %u node steps and %u relay steps", record.length,
        record.length + 1u);
}

static void print_counts(unsigned long seed)
{
    size_t number;
    printf("seed %lu, %ld steps: %ld sent, %ld lost, %ld repeated; %ld node steps and %ld relay steps done; refused",
           seed, step, count.sent, count.lost, count.repeated, count.at_nodes, count.at_relay);
    for (number = 1; number <= REGISTER_FENCE_ABOVE; number++)
        if (count.refused[number] > 0)
            printf(" [%u] %ld", (unsigned)number, count.refused[number]);
    printf("; %ld reads answered, %ld writes acknowledged; nodes put in: %ld before the head, %ld in the middle, "
           "%ld after the tail; %ld changes given up, %ld nodes removed; all four statements held at every step\n",
           count.reads, count.written, count.to_head, count.to_middle, count.to_tail, count.cancelled, count.removed);
}

int main(int words, char **word)
{
    unsigned long seed = words > 1 ? strtoul(word[1], NULL, 10) : 1;
    long steps = words > 2 ? strtol(word[2], NULL, 10) : 2000;
    is_quiet = words > 3;
    dice = seed;
    start();
    while (step < steps)
        one_step();
    calm_down();
    print_counts(seed);
    if (count.to_head == 0 || count.to_middle == 0 || count.to_tail == 0) {
        puts("too few steps: not every place of the chain got a new node");
        return 2;
    }
    return 0;
}
