/* The calls that take records by value, with pointers to the records: so one Rust program calls them alike on every machine (see native-on-arm). */
#include "chickadoor.h"

uint32_t bench_insert(uint64_t *table, size_t words, const struct chickadoor_entry *entry, uint64_t output, struct chickadoor_inserted *out) {
    return chickadoor_insert(table, words, *entry, output, out);
}

uint32_t bench_look_up(const uint64_t *table, size_t words, const struct chickadoor_state *state, uint64_t regime, uint16_t asid, uint64_t address,
                       struct chickadoor_found *out) {
    return chickadoor_look_up(table, words, *state, regime, asid, address, out);
}

uint32_t bench_execute(uint64_t *table, size_t words, const struct chickadoor_state *state, uint64_t word, uint64_t xt, uint64_t xt2,
                       struct chickadoor_executed *out) {
    return chickadoor_execute(table, words, *state, word, xt, xt2, out);
}

uint32_t bench_run(uint64_t *table, size_t words, const struct chickadoor_state *state, const uint64_t *list, size_t list_words,
                   struct chickadoor_ran *out) {
    return chickadoor_run(table, words, *state, list, list_words, out);
}

uint32_t bench_judge(const struct chickadoor_state *state, const struct chickadoor_target *target, const uint64_t *list, size_t list_words,
                     struct chickadoor_judged *out) {
    return chickadoor_judge(*state, *target, list, list_words, out);
}

uint32_t bench_build(const struct chickadoor_operation *operation, struct chickadoor_built *out) {
    return chickadoor_build(*operation, out);
}

uint32_t bench_read_operand(const struct chickadoor_told *told, uint64_t xt, uint64_t xt2, struct chickadoor_fields *out) {
    return chickadoor_read_operand(*told, xt, xt2, out);
}

uint32_t bench_write_operand(const struct chickadoor_told *told, const struct chickadoor_fields *fields, struct chickadoor_words *out) {
    return chickadoor_write_operand(*told, *fields, out);
}
