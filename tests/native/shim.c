/* The header's wrappers as functions that the differential test, which is not C, can link. */
#include "register.h"

size_t shim_record_size(void)
{
    return sizeof(struct register_record);
}

size_t shim_fields_size(void)
{
    return sizeof(struct register_fields);
}

int shim_step_node(uint8_t *table, size_t table_length, const uint8_t *packet, size_t packet_length, uint8_t *outlet,
                   size_t outlet_length)
{
    return register_step_node(table, table_length, packet, packet_length, outlet, outlet_length);
}

struct register_hop shim_step_relay(const struct register_record *record, const uint8_t *packet, size_t packet_length,
                                    uint8_t *outlet, size_t outlet_length)
{
    return register_step_relay(record, packet, packet_length, outlet, outlet_length);
}

int shim_open_change(struct register_record *record, uint8_t kind, uint16_t named, uint16_t fresh)
{
    return register_open_change(record, kind, named, fresh);
}

int shim_fence_table(struct register_record *record, uint8_t *table, size_t table_length)
{
    return register_fence_table(record, table, table_length);
}

int shim_copy_slot(struct register_record *record, uint16_t slot, const uint8_t *named, size_t named_length,
                   uint8_t *fresh, size_t fresh_length)
{
    return register_copy_slot(record, slot, named, named_length, fresh, fresh_length);
}

int shim_activate_change(struct register_record *record)
{
    return register_activate_change(record);
}

int shim_cancel_change(struct register_record *record)
{
    return register_cancel_change(record);
}

int shim_remove_node(struct register_record *record, uint16_t id)
{
    return register_remove_node(record, id);
}

int shim_enter_key(const struct register_record *record, uint8_t *table, size_t table_length, uint16_t id,
                   const uint8_t *key)
{
    return register_enter_key(record, table, table_length, id, key);
}

int shim_start_record(struct register_record *record, const uint16_t *ids, size_t ids_length, uint16_t count)
{
    return register_start_record(record, ids, ids_length, count);
}

int shim_blank_table(uint8_t *table, size_t table_length, uint16_t id, uint16_t count)
{
    return register_blank_table(table, table_length, id, count);
}

int shim_read_packet(const uint8_t *packet, size_t packet_length, struct register_fields *fields)
{
    return register_read_packet(packet, packet_length, fields);
}

int shim_write_packet(uint8_t *outlet, size_t outlet_length, const struct register_fields *fields, const uint8_t *key,
                      size_t key_length, const uint8_t *value, size_t value_length)
{
    return register_write_packet(outlet, outlet_length, fields, key, key_length, value, value_length);
}

int shim_check_table(const uint8_t *table, size_t table_length)
{
    return register_check_table(table, table_length);
}

uint32_t shim_find_key(const uint8_t *table, size_t table_length, const uint8_t *key, size_t key_length)
{
    return register_find_key(table, table_length, key, key_length);
}
