/* Chickadoor: Arm's TLB range invalidation for emulated boards.
 *
 * The library keeps nothing between calls, allocates nothing and calls nothing of the system. Whatever values its arguments have, each function ends,
 * answers, and touches no memory but the table, the text and the record that it is lent. Calls on different memory may run at the same time.
 *
 * Pointers must point to what they say: `table` to `words` 64-bit words, `list` to `list_words`, `code` and `text` to their bytes, `out` to its record. None may be NULL, not even
 * with a count of 0, and `table`, `list`, `text`, `code` and `out` must not overlap.
 *
 * Link with the archive that `./archive` writes: target/staticlib/libboard.a (x86-64).
 */
#ifndef CHICKADOOR_H
#define CHICKADOOR_H

#include <stddef.h>
#include <stdint.h>

#ifdef __cplusplus
extern "C" {
#endif

/* Answers. Each function says which of them it gives, in the order in which it looks: the first that holds is given. Further values are written to the
 * record behind `out`; what an answer does not name is 0 there. Every answer but CHICKADOOR_DONE leaves the table as it was. */
enum chickadoor_answer {
    CHICKADOOR_DONE = 0,
    CHICKADOOR_UNKNOWN = 1,        /* the instruction word is none of the operations (2^32 and more is none) */
    CHICKADOOR_BAD_STATE = 2,      /* the processor state cannot be: see struct chickadoor_state */
    CHICKADOOR_UNDEFINED = 3,      /* the instruction is UNDEFINED in this state */
    CHICKADOOR_TRAPPED = 4,        /* it traps to EL2; the exception class is told: 0x18 for TLBI, 0x14 for TLBIP */
    CHICKADOOR_NO_EFFECT = 5,      /* it ends without effect */
    CHICKADOOR_NO_GRANULE = 6,     /* the operand's TG is 00: reserved, and not "any granule" */
    CHICKADOOR_UNPREDICTABLE = 7,  /* the range is UNPREDICTABLE: the base is not aligned as its TTL asks */
    CHICKADOOR_BREAKS_RULE = 8,    /* an entry, a field or a target breaks a rule */
    CHICKADOOR_FULL = 9,           /* no slot of the table is free */
    CHICKADOOR_STEP_REFUSED = 10,  /* a step of the list would not be done; the first such step is told */
    CHICKADOOR_STEP_OUTSIDE = 11,  /* a step of the list touches somebody else; the first such step is told */
    CHICKADOOR_GAP = 12,           /* the list leaves an entry of the target; such an entry is told */
    CHICKADOOR_BAD_SHAPE = 13,     /* the table or the list has a number of words that none can have */
    CHICKADOOR_NOT_FOUND = 14      /* no slot matches; how many were examined is told */
};

/* Translation regimes. */
enum chickadoor_regime {
    CHICKADOOR_EL10 = 0,  /* EL1&0 */
    CHICKADOOR_EL20 = 1,  /* EL2&0 */
    CHICKADOOR_EL2 = 2,
    CHICKADOOR_EL3 = 3
};

/* Security states. */
enum chickadoor_security {
    CHICKADOOR_SECURE = 0,
    CHICKADOOR_NON_SECURE = 1,
    CHICKADOOR_REALM = 2,
    CHICKADOOR_ROOT = 3
};

/* Granules, as TG has them. */
enum chickadoor_granule {
    CHICKADOOR_4K = 1,
    CHICKADOOR_16K = 2,
    CHICKADOOR_64K = 3
};

/* Operations, without shareability and nXS. */
enum chickadoor_name {
    CHICKADOOR_RVAE1 = 0,
    CHICKADOOR_RVAAE1 = 1,
    CHICKADOOR_RVALE1 = 2,
    CHICKADOOR_RVAALE1 = 3,
    CHICKADOOR_RVAE2 = 4,
    CHICKADOOR_RVALE2 = 5,
    CHICKADOOR_RVAE3 = 6,
    CHICKADOOR_RVALE3 = 7,
    CHICKADOOR_RIPAS2E1 = 8,
    CHICKADOOR_RIPAS2LE1 = 9
};

/* Shareability. */
enum chickadoor_share {
    CHICKADOOR_LOCAL = 0,
    CHICKADOOR_IS = 1,
    CHICKADOOR_OS = 2
};

/* What an operand holds, by the operation and its regime. */
enum chickadoor_form {
    CHICKADOOR_TWO_RANGES_ASID = 0,  /* stage 1 of EL1&0 and EL2&0, with an ASID: RVAE1, RVALE1, and E2 names under EL2&0 */
    CHICKADOOR_TWO_RANGES = 1,       /* the same without one: RVAAE1, RVAALE1 */
    CHICKADOOR_ONE_RANGE = 2,        /* EL2 and EL3 */
    CHICKADOOR_STAGE2_NS = 3,        /* RIPAS2 in the Secure state, with NS */
    CHICKADOOR_STAGE2 = 4            /* RIPAS2 otherwise */
};

/* Registers and features of a processor. Every field is a flag: 0 or 1. */
struct chickadoor_present {
    uint8_t el2, el3;  /* EL2 and EL3 are there */
};
struct chickadoor_features {
    uint8_t tlbirange, tlbios, d128, xs, lpa2, rme, sel2, fgt, hcx;  /* FEAT_* */
};
struct chickadoor_scr {
    uint8_t ns, nse, eel2, fgten, hxen;  /* SCR_EL3; not read without EL3 */
};
struct chickadoor_hcr {
    uint8_t e2h, tge, ttlb, ttlbis, ttlbos, nv;  /* HCR_EL2; they count as 0 while EL2 is disabled */
};
struct chickadoor_hcrx {
    uint8_t fnxs, fgtnxs;  /* HCRX_EL2 */
};
struct chickadoor_flags {
    uint8_t local, inner, outer;  /* by shareability: none, IS, OS */
};
struct chickadoor_traps {
    struct chickadoor_flags rvae1, rvaae1, rvale1, rvaale1;  /* fine-grained traps, HFGITR_EL2 */
};
struct chickadoor_ds {
    uint8_t el1, el2, el3, stage2;  /* DS of TCR_EL1, TCR_EL2, TCR_EL3 and VTCR_EL2 */
};

/* The processors of a board. */
struct chickadoor_board {
    uint8_t own;       /* number of the processor that runs the instruction, below the count */
    uint8_t count;     /* how many processors there are, 1 to 8 */
    uint8_t inner[8];  /* inner shareable domain of each, any number; those at or above the count are not read */
    uint8_t outer[8];  /* outer shareable domain of each */
};

/* The processor that runs an instruction, and its board. All zeros but board.count = 1 is EL0 of one processor with nothing present.
 *
 * A state is bad if a flag is neither 0 nor 1; el is over 3; el is 2 and EL2 absent or disabled; el is 3 and EL3 absent; RME is there without EL3; RME is
 * there and scr.nse, scr.ns are 1, 0; board.count is not 1 to 8; board.own is not below it; or two processors below the count share an inner and not the
 * outer domain. EL2 is enabled if it is present and either the security state is not Secure or features.sel2 and scr.eel2 are both 1. The security state is
 * Non-secure without EL3; else scr.ns, and with RME scr.nse and scr.ns, give it (0, 0 Secure; 0, 1 Non-secure; 1, 1 Realm). */
struct chickadoor_state {
    struct chickadoor_present present;
    struct chickadoor_features features;
    struct chickadoor_scr scr;
    struct chickadoor_hcr hcr;
    struct chickadoor_hcrx hcrx;
    struct chickadoor_traps traps;
    struct chickadoor_ds ds;
    uint8_t el;  /* current exception level, 0 to 3 */
    uint16_t vmid;  /* VTTBR_EL2.VMID; it counts as 0 while EL2 is disabled */
    struct chickadoor_board board;
};

/* Whose an entry is. Rules: stage 2 is EL1&0's; EL3 is Root or Secure, other regimes never Root; a VMID only in EL1&0; ns only in Secure stage 2. */
struct chickadoor_company {
    uint64_t regime;    /* enum chickadoor_regime */
    uint64_t security;  /* enum chickadoor_security */
    uint64_t vmid;      /* 0 to 0xffff; 0 outside EL1&0 */
    uint64_t stage2;    /* flag */
    uint64_t ns;        /* flag: the IPA space, as NS */
};

/* An entry of the translation cache. Any other value in a field, or a broken rule, is answered CHICKADOOR_BREAKS_RULE.
 *
 * Rules: those of the company; an ASID and global only in stage 1 of EL1&0 and EL2&0; a non-leaf is at level -1 to 2 and not global, a leaf at level 1 to 3;
 * the level has a span (below); the base is a multiple of it, with bits 63:55 equal (stage 1 of EL1&0 and EL2&0) or below 2^56 (all else). Spans, as
 * exponents of two, level -1 to 3:
 *
 *              4K               16K                64K
 *    64-bit    48 39 30 21 12   -- 47 36 25 14     -- -- 42 29 16
 *   128-bit    44 36 28 20 12   54 44 34 24 14     -- 52 40 28 16
 */
struct chickadoor_entry {
    uint64_t processor;  /* whose cache it is in, 0 to 7 */
    struct chickadoor_company company;
    uint64_t asid;       /* 0 to 0xffff; 0 where there are none */
    uint64_t global;     /* flag */
    uint64_t wide;       /* flag: 128-bit descriptors */
    uint64_t granule;    /* enum chickadoor_granule */
    int64_t level;       /* -1 to 3 */
    uint64_t leaf;       /* flag */
    uint64_t xs;         /* flag */
    uint64_t base;       /* first address of the span */
};

/* The entries that a list is to clear. Any other value in a field, or a broken rule, is answered CHICKADOOR_BREAKS_RULE.
 *
 * Rules: the company is one that an entry can have; one is 0 in EL2, EL3 and stage 2; processors names at least one processor, and none at or above the
 * state's count; first is not above last; both have bits 63:55 all 0 or both all 1 (stage 1 of EL1&0 and EL2&0), or both are below 2^56 (all else). */
struct chickadoor_target {
    struct chickadoor_company company;
    uint64_t wide;        /* flag: entries of 128-bit descriptors, else of 64-bit */
    uint64_t granule;     /* enum chickadoor_granule */
    uint64_t one;         /* flag: entries of one ASID, and global leaves; else of all */
    uint64_t asid;        /* that ASID, 0 to 0xffff; it decides nothing if one is 0 */
    uint64_t leaves;      /* flag: leaves only */
    uint64_t processors;  /* a bit for each processor, number 0 lowest */
    uint64_t first;       /* first address */
    uint64_t last;        /* last address */
};

/* An operation. */
struct chickadoor_operation {
    uint64_t name;   /* enum chickadoor_name */
    uint64_t share;  /* enum chickadoor_share */
    uint64_t nxs;    /* flag */
    uint64_t tlbip;  /* flag: TLBIP, else TLBI */
    uint64_t rt;     /* register, 0 to 31 */
};

/* What the reader and the writer of an operand are told. */
struct chickadoor_told {
    uint64_t tlbip;    /* flag: TLBIP, else TLBI */
    uint64_t form;     /* enum chickadoor_form */
    uint64_t lpa2;     /* flag: LPA2 is there */
    uint64_t unit64k;  /* flag: a TLBI base is in units of 64 KiB (LPA2 and the regime's DS); it decides nothing for TLBIP */
};

/* An operand by its fields. */
struct chickadoor_fields {
    uint64_t asid;   /* 0 to 0xffff; 0 where the form has none */
    uint64_t ns;     /* 0 or 1; 0 where the form has none */
    uint64_t tg;     /* enum chickadoor_granule */
    uint64_t scale;  /* 0 to 3 */
    uint64_t num;    /* 0 to 31: (num + 1) * 2^(5 * scale + 1) granules */
    uint64_t ttl;    /* 0 any level, 1 to 3 that level; 1 with 16K and no LPA2 is read as 0 and not written */
    uint64_t base;   /* first address */
};

/* Records for further values. */
struct chickadoor_inserted {
    uint64_t slot;      /* counted from 0 */
};
struct chickadoor_found {
    uint64_t slot;      /* counted from 0 */
    uint64_t output;    /* the output word of the slot */
    uint64_t examined;  /* how many slots were examined: the slot plus one, or all */
};
struct chickadoor_slot {
    struct chickadoor_entry entry;
    uint64_t output;
};
struct chickadoor_executed {
    uint64_t dropped;   /* how many entries went */
    uint64_t trap;      /* exception class: 0x18 or 0x14 */
};
struct chickadoor_ran {
    uint64_t dropped;   /* how many entries went, by all steps together */
    uint64_t step;      /* counted from 0 */
};
struct chickadoor_judged {
    struct chickadoor_entry survivor;
    uint64_t step;      /* counted from 0 */
};
struct chickadoor_words {
    uint64_t xt;
    uint64_t xt2;       /* 0 for TLBI */
};
struct chickadoor_built {
    uint64_t word;
};
struct chickadoor_listed {
    uint64_t used;      /* bytes of code */
    uint64_t written;   /* bytes of text */
};
struct chickadoor_tailed {
    uint64_t written;   /* bytes of text */
};

/* A table has 0 to 2,048 slots of three words: base, tag, output word. All zeros is an empty table. A slot that insert could not have written is an empty
 * slot and hinders nobody. `words` is three times the number of slots. */

/* Puts an entry and the caller's output word into the lowest free slot, and tells it.
 * Answers: BAD_SHAPE, BREAKS_RULE, FULL, DONE (slot). */
uint32_t chickadoor_insert(uint64_t *table, size_t words, struct chickadoor_entry entry, uint64_t output, struct chickadoor_inserted *out);

/* Finds the lowest slot with a leaf of stage 1, of this processor and the regime, in the state's security state and VMID, whose span holds the address
 * and whose ASID agrees, or which is global, or whose regime has no ASIDs.
 * Answers: BAD_SHAPE, BAD_STATE, BREAKS_RULE (a regime that is none), NOT_FOUND (examined), DONE (slot, output, examined). */
uint32_t chickadoor_look_up(const uint64_t *table, size_t words, struct chickadoor_state state, uint64_t regime, uint16_t asid, uint64_t address,
                            struct chickadoor_found *out);

/* Reads a slot back.
 * Answers: BAD_SHAPE, BREAKS_RULE (there is no such slot), NOT_FOUND (it is empty), DONE (entry, output). */
uint32_t chickadoor_read_slot(const uint64_t *table, size_t words, size_t slot, struct chickadoor_slot *out);

/* Carries out one instruction word with its registers: drops the entries that Arm's pages require to go, and no other. xt2 is read for TLBIP only; with
 * register 31 both count as zero, and with register 30 xt2 does.
 * Answers: BAD_SHAPE, BAD_STATE, UNKNOWN, UNDEFINED, TRAPPED (trap), NO_EFFECT, NO_GRANULE, UNPREDICTABLE, DONE (dropped). */
uint32_t chickadoor_execute(uint64_t *table, size_t words, struct chickadoor_state state, uint64_t word, uint64_t xt, uint64_t xt2,
                            struct chickadoor_executed *out);

/* A list has 0 to 16 steps of three words: instruction word, xt, xt2. `list_words` is three times the number of steps. Steps count from 0. */

/* Carries out every step in order, or nothing.
 * Answers: BAD_SHAPE, BAD_STATE, STEP_REFUSED (step), DONE (dropped: by all steps together). */
uint32_t chickadoor_run(uint64_t *table, size_t words, struct chickadoor_state state, const uint64_t *list, size_t list_words,
                        struct chickadoor_ran *out);

/* Holds a list against a target. It is accepted exactly if, from any table whatever, running it leaves no entry of the target, and every entry of another
 * company as it was.
 * Answers: BAD_SHAPE, BAD_STATE, BREAKS_RULE, STEP_REFUSED (step), STEP_OUTSIDE (step), GAP (survivor), DONE. */
uint32_t chickadoor_judge(struct chickadoor_state state, struct chickadoor_target target, const uint64_t *list, size_t list_words,
                          struct chickadoor_judged *out);

/* Reads an instruction word. Answers: UNKNOWN, DONE (the operation). */
uint32_t chickadoor_decode(uint64_t word, struct chickadoor_operation *out);

/* Builds the word of an operation. Answers: BREAKS_RULE (a value that no field can have), DONE (word). */
uint32_t chickadoor_build(struct chickadoor_operation operation, struct chickadoor_built *out);

/* Reads an operand's fields. Answers: BREAKS_RULE (told has a value that no field can have), NO_GRANULE, DONE (the fields). */
uint32_t chickadoor_read_operand(struct chickadoor_told told, uint64_t xt, uint64_t xt2, struct chickadoor_fields *out);

/* Writes an operand from its fields; reading it gives the same fields. Answers: BREAKS_RULE, DONE (xt, xt2). */
uint32_t chickadoor_write_operand(struct chickadoor_told told, struct chickadoor_fields fields, struct chickadoor_words *out);

/* Lists the operations in little-endian machine code whose first byte has the offset `at`, a line each, up to the last whole word or to the first line
 * that does not fit into `text`; 52 bytes are room for any line. Tells how many bytes of code are done with and how many of text were written.
 * Answers: DONE (used, written). */
uint32_t chickadoor_list(const uint8_t *code, size_t code_bytes, uint64_t at, uint8_t *text, size_t text_bytes, struct chickadoor_listed *out);

/* Writes the line about `left` bytes behind the last whole word: nothing for 0. Answers: DONE (written). */
uint32_t chickadoor_tail(size_t left, uint8_t *text, size_t text_bytes, struct chickadoor_tailed *out);

#ifdef __cplusplus
}
#endif

#endif
