/* Does the calls of a schedule on the real libtalloc, and writes the transcript as far as the library shows one:
 *     cc -O2 -o talloc_replay bench/talloc_replay.c -ltalloc        (package libtalloc-dev, glibc)
 *     ./talloc_replay < SCHEDULE > TRANSCRIPT
 * It is there to be measured beside tvhost (bench/cost.sh), so it does the same work: it reads the schedule line by
 * line, looks each number up, and writes each reply and a line for each object and each reference that goes. For
 * calls that succeed the transcript is that of tvhost, byte by byte. bench/replay.h says how it sees what goes.
 *
 * What it doesn't do:
 *   - a call that tvhost refuses. It stops with status 3 where a number is unknown or libtalloc refuses, but libtalloc
 *     doesn't see that a steal makes a loop, or that there are more objects than there may be;
 *   - the lines `moved` and `warned`, so an object mustn't be held when its owner is freed or gives it up, and one
 *     with references mustn't be stolen;
 *   - `resize` to 0, which in libtalloc is a free; the numbers of references in a report, where it writes `?`;
 *   - destructors, `freekids` and `move`; events, requests and queues, which bench/tevent_replay.c does.
 * libtalloc frees, reports and adds up by recursion, so a deep tree needs a large call stack. */
#include "replay.h"

/* ---- The calls, besides those of replay.h ---- */

static uint64_t call_steal(const struct fields *fields) {
    talloc_steal(owner_of(fields->number[0]), object_of(fields->number[1]));
    return 0;
}

static uint64_t call_reparent(const struct fields *fields) {
    void *old = owner_of(fields->number[0]), *new = owner_of(fields->number[1]);
    need(talloc_reparent(old, new, object_of(fields->number[2])) != NULL, "it has another owner");
    return 0;
}

static uint64_t call_reference(const struct fields *fields) {
    void *owner = owner_of(fields->number[0]), *object = object_of(fields->number[1]);
    uint64_t number = begin(REFERENCE);
    rows[number].target = fields->number[1];
    need(talloc_reference(owner, object) != NULL, "libtalloc doesn't refer to it");
    return number;
}

static uint64_t call_unlink(const struct fields *fields) {
    void *owner = owner_of(fields->number[0]), *object = object_of(fields->number[1]);
    need(talloc_unlink(owner, object) == 0, "the owner has no interest in it");
    return 0;
}

static uint64_t call_resize(const struct fields *fields) {
    void *object = object_of(fields->number[0]);
    struct row *row = &rows[fields->number[0]];
    need(fields->number[1] != 0, "libtalloc would free it");
    row->object = talloc_realloc_size(root, object, fields->number[1]);
    need(row->object != NULL, "libtalloc doesn't resize it");
    talloc_set_name_const(row->object, row->label->text); /* it was named after the place in the source */
    return 0;
}

#pragma GCC diagnostic ignored "-Wdeprecated-declarations" /* libtalloc gives limits up */

static uint64_t call_limit(const struct fields *fields) {
    need(talloc_set_memlimit(object_of(fields->number[0]), fields->number[1]) == 0, "libtalloc sets no limit");
    return 0;
}

static uint64_t call_rename(const struct fields *fields) {
    void *object = object_of(fields->number[0]);
    struct row *row = &rows[fields->number[0]];
    free(row->label);
    row->label = label_for(fields->number[0], fields->name);
    talloc_set_name_const(object, row->label->text);
    return 0;
}

static uint64_t call_parent(const struct fields *fields) {
    return number_of(talloc_parent(object_of(fields->number[0])));
}

static uint64_t call_total(const struct fields *fields) {
    return talloc_total_size(owner_of(fields->number[0]));
}

/* Counts what a report shows, but for references and the root. talloc_total_blocks counts references too. */
static void count_object(const void *object, int depth, int max_depth, int is_reference, void *count) {
    (void)depth, (void)max_depth;
    *(uint64_t *)count += !is_reference && object != root;
}

static uint64_t call_count(const struct fields *fields) {
    uint64_t count = 0;
    talloc_report_depth_cb(owner_of(fields->number[0]), 0, -1, count_object, &count);
    return count;
}

/* Each object counts 96 bytes more, which is what libtalloc keeps beside it on machines of 64 bits. */
static uint64_t call_sum(const struct fields *fields) {
    return call_total(fields) + 96 * call_count(fields);
}

static void put_row(const void *object, int depth, int max_depth, int is_reference, void *count) {
    (void)max_depth;
    ++*(uint64_t *)count;
    put("row", (uint64_t)depth);
    if (is_reference) {
        put(" ? reference 0 0", number_of(object));
        put_text(" reference\n");
        return;
    }
    put_number(number_of(object));
    put(object == root ? " root" : " plain", talloc_get_size(object));
    put_number(talloc_reference_count(object));
    put_text(" 0 ");
    put_text(talloc_get_name(object));
    put_text("\n");
}

static uint64_t call_report(const struct fields *fields) {
    uint64_t count = 0;
    talloc_report_depth_cb(owner_of(fields->number[0]), 0, -1, put_row, &count);
    return count;
}

static const struct call calls[] = {
    {"new", 2, true, call_new, "reply", true},         {"steal", 2, false, call_steal, "reply ok", false},
    {"free", 1, false, call_free, "reply ok", false},  {"reference", 2, false, call_reference, "reply", true},
    {"sum", 1, false, call_sum, "reply", true},        {"unlink", 2, false, call_unlink, "reply ok", false},
    {"parent", 1, false, call_parent, "reply", true},  {"resize", 2, false, call_resize, "reply ok", false},
    {"total", 1, false, call_total, "reply", true},    {"limit", 2, false, call_limit, "reply ok", false},
    {"count", 1, false, call_count, "reply", true},    {"rename", 1, true, call_rename, "reply ok", false},
    {"report", 1, false, call_report, "reply rows", true}, {"reparent", 3, false, call_reparent, "reply ok", false},
    {0},
};

int main(void) {
    return replay(calls);
}
