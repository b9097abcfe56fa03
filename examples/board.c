/* One translation cache for two guests: their entries are inserted and looked up, one guest invalidates, and a list of steps is judged. */
#include <chickadoor.h>
#include <inttypes.h>
#include <stdio.h>
#include <stdlib.h>

#define SLOTS 64
#define RVAAE1IS 0xd5088260u             /* TLBI RVAAE1IS, X0 */
#define TWO_PAGES 0x0000400000040000u    /* its operand: 4K, two pages from 0x40000000 on */
#define FOUR_PAGES 0x0000408000040000u   /* the same with four */

/* An answer that this story does not expect ends it. */
static void expect(uint32_t answer, uint32_t expected) {
    if (answer != expected) {
        printf("answer %" PRIu32 ", and not %" PRIu32 "\n", answer, expected);
        exit(1);
    }
}

/* EL1 of a board with EL2 and one processor, while this guest runs. */
static struct chickadoor_state running(uint16_t guest) {
    struct chickadoor_state state = {0};
    state.el = 1;
    state.present.el2 = 1;
    state.features.tlbirange = 1;
    state.board.count = 1;
    state.vmid = guest;
    return state;
}

static struct chickadoor_company company(uint16_t guest) {
    struct chickadoor_company company = {0};
    company.regime = CHICKADOOR_EL10;
    company.security = CHICKADOOR_NON_SECURE;
    company.vmid = guest;
    return company;
}

static void insert(uint64_t *table, uint16_t guest, uint64_t base, uint64_t output) {
    struct chickadoor_inserted inserted;
    struct chickadoor_entry page = {0};
    page.company = company(guest);
    page.granule = CHICKADOOR_4K;
    page.level = 3;
    page.leaf = 1;
    page.base = base;
    expect(chickadoor_insert(table, 3 * SLOTS, page, output, &inserted), CHICKADOOR_DONE);
    printf("The page of guest %u at 0x%" PRIx64 " is in slot %" PRIu64 ".\n", guest, base, inserted.slot);
}

static void look_up(const uint64_t *table, uint16_t guest, uint64_t address, uint32_t expected) {
    struct chickadoor_found found;
    expect(chickadoor_look_up(table, 3 * SLOTS, running(guest), CHICKADOOR_EL10, 0, address, &found), expected);
    if (expected == CHICKADOOR_DONE)
        printf("Guest %u finds 0x%" PRIx64 " in slot %" PRIu64 ": output word 0x%" PRIx64 ".\n", guest, address, found.slot, found.output);
    else
        printf("Guest %u does not find 0x%" PRIx64 " in %" PRIu64 " slots.\n", guest, address, found.examined);
}

static void invalidate(uint64_t *table, uint16_t guest) {
    struct chickadoor_executed executed;
    expect(chickadoor_execute(table, 3 * SLOTS, running(guest), RVAAE1IS, TWO_PAGES, 0, &executed), CHICKADOOR_DONE);
    printf("Guest %u runs TLBI RVAAE1IS over two pages: entries that went: %" PRIu64 ".\n", guest, executed.dropped);
}

static void judge(uint16_t guest, uint64_t operand, uint32_t expected) {
    const uint64_t list[] = {RVAAE1IS, operand, 0};
    struct chickadoor_judged judged;
    struct chickadoor_target target = {0};
    target.company = company(guest);
    target.granule = CHICKADOOR_4K;
    target.processors = 1;
    target.first = 0x40000000;
    target.last = 0x40003fff;
    expect(chickadoor_judge(running(guest), target, list, 3, &judged), expected);
    printf("For four pages of guest %u, a list of TLBI RVAAE1IS with 0x%016" PRIx64 " ", guest, operand);
    if (expected == CHICKADOOR_GAP)
        printf("has a gap: a level %" PRId64 " %s at 0x%" PRIx64 " would survive.\n", judged.survivor.level, judged.survivor.leaf ? "leaf" : "table entry",
               judged.survivor.base);
    else
        printf("is accepted.\n");
}

int main(void) {
    static uint64_t table[3 * SLOTS]; /* all zeros: empty */
    insert(table, 1, 0x40000000, 0x80000000);
    insert(table, 2, 0x40000000, 0x90000000);
    look_up(table, 1, 0x40000123, CHICKADOOR_DONE);
    look_up(table, 2, 0x40000123, CHICKADOOR_DONE);
    invalidate(table, 1);
    look_up(table, 1, 0x40000123, CHICKADOOR_NOT_FOUND);
    look_up(table, 2, 0x40000123, CHICKADOOR_DONE);
    judge(1, TWO_PAGES, CHICKADOOR_GAP);
    judge(1, FOUR_PAGES, CHICKADOOR_DONE);
    return 0;
}
