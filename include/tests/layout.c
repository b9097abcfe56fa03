/* Prints where each field of each record of the header lies; the answer is stored in layout.txt, and the Rust records are held against it too. */
#include <chickadoor.h>
#include <stdio.h>

#define RECORD(record)                                                                                                                              \
    printf("%s: %zu bytes, aligned to %zu\n", #record, sizeof(struct chickadoor_##record), (size_t)_Alignof(struct chickadoor_##record))
#define FIELD(record, field)                                                                                                                        \
    printf("    %s at %zu, %zu bytes\n", #field, offsetof(struct chickadoor_##record, field), sizeof(((struct chickadoor_##record *)0)->field))

static void state(void) {
    RECORD(state);
    FIELD(state, present.el2);
    FIELD(state, present.el3);
    FIELD(state, features.tlbirange);
    FIELD(state, features.tlbios);
    FIELD(state, features.d128);
    FIELD(state, features.xs);
    FIELD(state, features.lpa2);
    FIELD(state, features.rme);
    FIELD(state, features.sel2);
    FIELD(state, features.fgt);
    FIELD(state, features.hcx);
    FIELD(state, scr.ns);
    FIELD(state, scr.nse);
    FIELD(state, scr.eel2);
    FIELD(state, scr.fgten);
    FIELD(state, scr.hxen);
    FIELD(state, hcr.e2h);
    FIELD(state, hcr.tge);
    FIELD(state, hcr.ttlb);
    FIELD(state, hcr.ttlbis);
    FIELD(state, hcr.ttlbos);
    FIELD(state, hcr.nv);
    FIELD(state, hcrx.fnxs);
    FIELD(state, hcrx.fgtnxs);
    FIELD(state, traps.rvae1.local);
    FIELD(state, traps.rvae1.inner);
    FIELD(state, traps.rvae1.outer);
    FIELD(state, traps.rvaae1.local);
    FIELD(state, traps.rvaae1.inner);
    FIELD(state, traps.rvaae1.outer);
    FIELD(state, traps.rvale1.local);
    FIELD(state, traps.rvale1.inner);
    FIELD(state, traps.rvale1.outer);
    FIELD(state, traps.rvaale1.local);
    FIELD(state, traps.rvaale1.inner);
    FIELD(state, traps.rvaale1.outer);
    FIELD(state, ds.el1);
    FIELD(state, ds.el2);
    FIELD(state, ds.el3);
    FIELD(state, ds.stage2);
    FIELD(state, el);
    FIELD(state, vmid);
    FIELD(state, board.own);
    FIELD(state, board.count);
    FIELD(state, board.inner);
    FIELD(state, board.outer);
}

static void entry(void) {
    RECORD(entry);
    FIELD(entry, processor);
    FIELD(entry, company.regime);
    FIELD(entry, company.security);
    FIELD(entry, company.vmid);
    FIELD(entry, company.stage2);
    FIELD(entry, company.ns);
    FIELD(entry, asid);
    FIELD(entry, global);
    FIELD(entry, wide);
    FIELD(entry, granule);
    FIELD(entry, level);
    FIELD(entry, leaf);
    FIELD(entry, xs);
    FIELD(entry, base);
}

static void target(void) {
    RECORD(target);
    FIELD(target, company.regime);
    FIELD(target, company.security);
    FIELD(target, company.vmid);
    FIELD(target, company.stage2);
    FIELD(target, company.ns);
    FIELD(target, wide);
    FIELD(target, granule);
    FIELD(target, one);
    FIELD(target, asid);
    FIELD(target, leaves);
    FIELD(target, processors);
    FIELD(target, first);
    FIELD(target, last);
}

static void words(void) {
    RECORD(operation);
    FIELD(operation, name);
    FIELD(operation, share);
    FIELD(operation, nxs);
    FIELD(operation, tlbip);
    FIELD(operation, rt);
    RECORD(told);
    FIELD(told, tlbip);
    FIELD(told, form);
    FIELD(told, lpa2);
    FIELD(told, unit64k);
    RECORD(fields);
    FIELD(fields, asid);
    FIELD(fields, ns);
    FIELD(fields, tg);
    FIELD(fields, scale);
    FIELD(fields, num);
    FIELD(fields, ttl);
    FIELD(fields, base);
}

static void answers(void) {
    RECORD(inserted);
    FIELD(inserted, slot);
    RECORD(found);
    FIELD(found, slot);
    FIELD(found, output);
    FIELD(found, examined);
    RECORD(slot);
    FIELD(slot, entry);
    FIELD(slot, output);
    RECORD(executed);
    FIELD(executed, dropped);
    FIELD(executed, trap);
    RECORD(ran);
    FIELD(ran, dropped);
    FIELD(ran, step);
    RECORD(judged);
    FIELD(judged, survivor);
    FIELD(judged, step);
    RECORD(words);
    FIELD(words, xt);
    FIELD(words, xt2);
    RECORD(built);
    FIELD(built, word);
    RECORD(listed);
    FIELD(listed, used);
    FIELD(listed, written);
    RECORD(tailed);
    FIELD(tailed, written);
}

int main(void) {
    state();
    entry();
    target();
    words();
    answers();
    return 0;
}
