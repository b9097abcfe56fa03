/* Every function of the header, called from C, and every answer that it names. */
#include <chickadoor.h>
#include <stdio.h>
#include <stdlib.h>
#include <string.h>

#define RVAAE1IS 0xd5088260u
#define TWO_PAGES 0x0000400000040000u /* 0x40000000 to 0x40001fff, 4K, any level */

static void check(const char *what, uint64_t answer, uint64_t expected) {
    if (answer == expected)
        return;
    printf("%s: %llu, not %llu\n", what, (unsigned long long)answer, (unsigned long long)expected);
    exit(1);
}

static struct chickadoor_state el1(void) {
    struct chickadoor_state state = {0};
    state.el = 1;
    state.features.tlbirange = 1;
    state.board.count = 1;
    return state;
}

static struct chickadoor_entry page(uint64_t base) {
    struct chickadoor_entry entry = {0};
    entry.company.regime = CHICKADOOR_EL10;
    entry.company.security = CHICKADOOR_NON_SECURE;
    entry.granule = CHICKADOOR_4K;
    entry.level = 3;
    entry.leaf = 1;
    entry.base = base;
    return entry;
}

static struct chickadoor_target four_pages(void) {
    struct chickadoor_target target = {0};
    target.company.regime = CHICKADOOR_EL10;
    target.company.security = CHICKADOOR_NON_SECURE;
    target.granule = CHICKADOOR_4K;
    target.processors = 1;
    target.first = 0x40000000;
    target.last = 0x40003fff;
    return target;
}

static void tables(void) {
    uint64_t table[6] = {0};
    struct chickadoor_inserted inserted;
    struct chickadoor_found found;
    struct chickadoor_slot slot;
    struct chickadoor_entry first = page(0x40000000), second = page(0x40002000);
    second.xs = 1;
    check("insert", chickadoor_insert(table, 6, first, 70, &inserted), CHICKADOOR_DONE);
    check("the first slot", inserted.slot, 0);
    check("insert", chickadoor_insert(table, 6, second, 71, &inserted), CHICKADOOR_DONE);
    check("the second slot", inserted.slot, 1);
    check("a full table", chickadoor_insert(table, 6, first, 72, &inserted), CHICKADOOR_FULL);
    check("a bad shape", chickadoor_insert(table, 5, first, 72, &inserted), CHICKADOOR_BAD_SHAPE);
    first.level = 0;
    check("a leaf of level 0", chickadoor_insert(table, 6, first, 72, &inserted), CHICKADOOR_BREAKS_RULE);
    check("look up", chickadoor_look_up(table, 6, el1(), CHICKADOOR_EL10, 0, 0x40002fff, &found), CHICKADOOR_DONE);
    check("the slot found", found.slot, 1);
    check("its output word", found.output, 71);
    check("slots examined", found.examined, 2);
    check("look up", chickadoor_look_up(table, 6, el1(), CHICKADOOR_EL20, 0, 0x40002fff, &found), CHICKADOOR_NOT_FOUND);
    check("slots examined", found.examined, 2);
    check("a regime that is none", chickadoor_look_up(table, 6, el1(), 4, 0, 0, &found), CHICKADOOR_BREAKS_RULE);
    check("read a slot", chickadoor_read_slot(table, 6, 1, &slot), CHICKADOOR_DONE);
    check("its entry", (uint64_t)memcmp(&slot.entry, &second, sizeof second), 0);
    check("its output word", slot.output, 71);
    check("no such slot", chickadoor_read_slot(table, 6, 2, &slot), CHICKADOOR_BREAKS_RULE);
    memset(table, 0, sizeof table);
    check("an empty slot", chickadoor_read_slot(table, 6, 1, &slot), CHICKADOOR_NOT_FOUND);
}

static uint32_t executed(struct chickadoor_state state, uint64_t word, uint64_t xt, struct chickadoor_executed *out) {
    uint64_t table[3] = {0};
    return chickadoor_execute(table, 3, state, word, xt, 0, out);
}

static void executions(void) {
    struct chickadoor_executed out;
    struct chickadoor_state state = el1();
    check("done", executed(state, RVAAE1IS, TWO_PAGES, &out), CHICKADOOR_DONE);
    check("none of the operations", executed(state, 0xd503201f, TWO_PAGES, &out), CHICKADOOR_UNKNOWN);
    check("no granule", executed(state, RVAAE1IS, 0x40000, &out), CHICKADOOR_NO_GRANULE);
    check("a range off its hint", executed(state, RVAAE1IS, 0x0000404000040001, &out), CHICKADOOR_UNPREDICTABLE);
    state.features.tlbirange = 0;
    check("without TLBIRANGE", executed(state, RVAAE1IS, TWO_PAGES, &out), CHICKADOOR_UNDEFINED);
    state = el1();
    state.present.el2 = 1;
    state.hcr.ttlb = 1;
    check("under TTLB", executed(state, RVAAE1IS, TWO_PAGES, &out), CHICKADOOR_TRAPPED);
    check("the exception class", out.trap, 0x18);
    state.el = 2;
    state.present.el2 = 0;
    check("at EL2 without it", executed(state, RVAAE1IS, TWO_PAGES, &out), CHICKADOOR_BAD_STATE);
    state.el = 3;
    state.present.el3 = 1;
    check("RIPAS2E1 while EL2 is disabled", executed(state, 0xd50c8440, TWO_PAGES, &out), CHICKADOOR_NO_EFFECT);
}

static void lists(void) {
    uint64_t table[3] = {0}, list[6] = {RVAAE1IS, TWO_PAGES, 0, RVAAE1IS, TWO_PAGES + 2, 0};
    struct chickadoor_inserted inserted;
    struct chickadoor_ran ran;
    struct chickadoor_judged judged;
    struct chickadoor_target target = four_pages();
    check("insert", chickadoor_insert(table, 3, page(0x40002000), 0, &inserted), CHICKADOOR_DONE);
    check("run", chickadoor_run(table, 3, el1(), list, 6, &ran), CHICKADOOR_DONE);
    check("entries dropped", ran.dropped, 1);
    check("judge", chickadoor_judge(el1(), target, list, 6, &judged), CHICKADOOR_DONE);
    check("a gap", chickadoor_judge(el1(), target, list, 3, &judged), CHICKADOOR_GAP);
    check("the survivor's base", judged.survivor.base, 0x40002000);
    check("the survivor's level", (uint64_t)judged.survivor.level, 3);
    target.company.vmid = 7;
    check("somebody else", chickadoor_judge(el1(), target, list, 6, &judged), CHICKADOOR_STEP_OUTSIDE);
    target.first = 1;
    target.last = 0;
    check("a bad target", chickadoor_judge(el1(), target, list, 6, &judged), CHICKADOOR_BREAKS_RULE);
    list[4] = 0;
    check("a step refused", chickadoor_run(table, 3, el1(), list, 6, &ran), CHICKADOOR_STEP_REFUSED);
    check("which step", ran.step, 1);
    check("a bad shape", chickadoor_run(table, 3, el1(), list, 5, &ran), CHICKADOOR_BAD_SHAPE);
}

/* SYS words without IS or OS, register 0, by name. */
static const uint32_t local_words[] = {
    [CHICKADOOR_RVAE1] = 0xd5088620,    [CHICKADOOR_RVAAE1] = 0xd5088660,   [CHICKADOOR_RVALE1] = 0xd50886a0, [CHICKADOOR_RVAALE1] = 0xd50886e0,
    [CHICKADOOR_RVAE2] = 0xd50c8620,    [CHICKADOOR_RVALE2] = 0xd50c86a0,   [CHICKADOOR_RVAE3] = 0xd50e8620,  [CHICKADOOR_RVALE3] = 0xd50e86a0,
    [CHICKADOOR_RIPAS2E1] = 0xd50c8440, [CHICKADOOR_RIPAS2LE1] = 0xd50c84c0};

static void instructions(void) {
    struct chickadoor_operation operation, read;
    struct chickadoor_built built;
    uint64_t name;
    for (name = CHICKADOOR_RVAE1; name <= CHICKADOOR_RIPAS2LE1; name++) {
        operation.name = name;
        operation.share = CHICKADOOR_LOCAL;
        operation.nxs = 0;
        operation.tlbip = 0;
        operation.rt = 0;
        check("build", chickadoor_build(operation, &built), CHICKADOOR_DONE);
        check("the word", built.word, local_words[name]);
        operation.share = CHICKADOOR_OS;
        operation.nxs = 1;
        operation.tlbip = 1;
        operation.rt = 30;
        check("build", chickadoor_build(operation, &built), CHICKADOOR_DONE);
        check("decode", chickadoor_decode(built.word, &read), CHICKADOOR_DONE);
        check("the operation", (uint64_t)memcmp(&operation, &read, sizeof read), 0);
    }
    operation.name = CHICKADOOR_RIPAS2LE1 + 1;
    check("no such name", chickadoor_build(operation, &built), CHICKADOOR_BREAKS_RULE);
    check("none of the operations", chickadoor_decode(0xd503201f, &read), CHICKADOOR_UNKNOWN);
}

static void operands(void) {
    struct chickadoor_told told = {0, CHICKADOOR_TWO_RANGES_ASID, 0, 0};
    struct chickadoor_fields fields, read;
    struct chickadoor_words words;
    check("read an operand", chickadoor_read_operand(told, 0xabcd000000000000u | TWO_PAGES, 0, &fields), CHICKADOOR_DONE);
    check("its ASID", fields.asid, 0xabcd);
    check("its granule", fields.tg, CHICKADOOR_4K);
    check("its base", fields.base, 0x40000000);
    check("write it", chickadoor_write_operand(told, fields, &words), CHICKADOOR_DONE);
    check("its word", words.xt, 0xabcd000000000000u | TWO_PAGES);
    check("no granule", chickadoor_read_operand(told, 0x40000, 0, &read), CHICKADOOR_NO_GRANULE);
    told.form = CHICKADOOR_STAGE2;
    check("a form without an ASID", chickadoor_write_operand(told, fields, &words), CHICKADOOR_BREAKS_RULE);
    told.form = CHICKADOOR_STAGE2 + 1;
    check("no such form", chickadoor_read_operand(told, TWO_PAGES, 0, &read), CHICKADOOR_BREAKS_RULE);
}

static void listing(void) {
    const uint8_t code[] = {0x60, 0x82, 0x08, 0xd5, 0x1f, 0x20, 0x03, 0xd5, 0x3e, 0x86, 0x4c, 0xd5, 0x60};
    const char *lines = "0 TLBI RVAAE1IS, X0\n8 TLBIP RVAE2, X30, XZR\n", *last = "tail 1\n";
    uint8_t text[64];
    struct chickadoor_listed listed;
    struct chickadoor_tailed tailed;
    check("list", chickadoor_list(code, sizeof code, 0, text, sizeof text, &listed), CHICKADOOR_DONE);
    check("bytes used", listed.used, 12);
    check("bytes written", listed.written, strlen(lines));
    check("the lines", (uint64_t)memcmp(text, lines, strlen(lines)), 0);
    check("tail", chickadoor_tail(sizeof code - 12, text, sizeof text, &tailed), CHICKADOOR_DONE);
    check("bytes written", tailed.written, strlen(last));
    check("the line", (uint64_t)memcmp(text, last, strlen(last)), 0);
}

int main(void) {
    tables();
    executions();
    lists();
    instructions();
    operands();
    listing();
    puts("every function answers as the header says");
    return 0;
}
