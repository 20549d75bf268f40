/* The eight calls of include/grid.h that take no editing state, on model S, and the six of a model on G, with their records
 * read from samples/. The four with a state are in edits.c.
 *
 * usage: calls FOLDER
 *
 * FOLDER has S.model, S.plan, S-early.plan, S.choice, G.model, G.plan and G.choice. Each answer, every byte of the lent
 * buffer and of the lent plan, every row of the lent list and the flag of every record that stands are compared with the
 * papers'; the first difference ends the program with a message and status 1.
 */
#define PROGRAM "calls"
#include "samples.h"

enum {
    PLAN = 61,    /* the bytes of S's plan */
    WRAPPER = 12, /* the bytes in front of a wrapped model */
    FLAG = 11,    /* which of them says that it is withdrawn */
    LIVE = 0,
    WITHDRAWN = 1,
    ROWS = 32,    /* the rows of a list that suffices */
    LIST = 64     /* room for any of the lists */
};

/* The run with `length` bytes lent. Afterwards its first `written` bytes are those of `expected`, and no other changed. */
static void run(const char *what, const Record *model, const Record *choice, size_t length, GridAnswer answer,
                const uint8_t *expected, size_t written)
{
    uint8_t space[AROUND + MOST + AROUND];
    size_t at;

    memset(space, FILLED, sizeof space);
    expect(what, grid_run(model->bytes, model->length, choice->bytes, choice->length, space + AROUND, length), answer);
    for (at = 0; at < sizeof space; at++) {
        int within = at >= AROUND && at < AROUND + written;
        if (space[at] != (within ? expected[at - AROUND] : FILLED)) {
            fprintf(stderr, PROGRAM ": %s: byte %ld of the buffer is %02x\n", what, (long)at - AROUND, space[at]);
            exit(1);
        }
    }
}

/* The report with `length` rows lent. Afterwards the first `written` are those of `expected`, and no other row changed. */
static void lateness(const char *what, const Record *model, const Record *choice, size_t length, GridAnswer answer,
                     const int32_t *expected, size_t written)
{
    int32_t space[AROUND + LIST + AROUND];
    int32_t filled;
    size_t at;

    memset(space, FILLED, sizeof space);
    memset(&filled, FILLED, sizeof filled);
    expect(what, grid_lateness(model->bytes, model->length, choice->bytes, choice->length, space + AROUND, length),
           answer);
    for (at = 0; at < sizeof space / sizeof space[0]; at++) {
        int within = at >= AROUND && at < AROUND + written;
        if (space[at] != (within ? expected[at - AROUND] : filled)) {
            fprintf(stderr, PROGRAM ": %s: row %ld of the list is %ld\n", what, (long)at - AROUND, (long)space[at]);
            exit(1);
        }
    }
}

/* A plan lent to be edited, and what it has to be after the next call. */
typedef struct Lent {
    const Record *model;
    Record expected;
    uint8_t space[AROUND + MOST + AROUND];
} Lent;

static Lent lent(const Record *model, const Record *plan)
{
    Lent made = {.model = model, .expected = *plan};

    memset(made.space, FILLED, sizeof made.space);
    memcpy(made.space + AROUND, plan->bytes, plan->length);
    return made;
}

typedef GridAnswer Edit(const uint8_t *, size_t, uint8_t *, size_t, uint32_t, uint32_t);

/* An edit of the lent plan. Afterwards it is the expected one, and no byte around it changed. */
static void edit(const char *what, Edit *call, Lent *page, uint32_t activity, uint32_t tick, GridAnswer answer)
{
    const Record *model = page->model, *expected = &page->expected;
    size_t at;

    expect(what, call(model->bytes, model->length, page->space + AROUND, expected->length, activity, tick), answer);
    for (at = 0; at < sizeof page->space; at++) {
        int within = at >= AROUND && at < AROUND + expected->length;
        if (page->space[at] != (within ? expected->bytes[at - AROUND] : FILLED)) {
            fprintf(stderr, PROGRAM ": %s: byte %ld of the plan is %02x\n", what, (long)at - AROUND, page->space[at]);
            exit(1);
        }
    }
}

static void mark(const char *what, Lent *page, uint32_t activity, uint32_t tick, GridAnswer answer)
{
    edit(what, grid_mark, page, activity, tick, answer);
}

static void clear(const char *what, Lent *page, uint32_t activity, uint32_t tick, GridAnswer answer)
{
    edit(what, grid_clear, page, activity, tick, answer);
}

/* A mark and a clear, refused alike. */
static void both_refused(const char *what, Lent *page, uint32_t activity, uint32_t tick, uint32_t number, uint32_t a)
{
    mark(what, page, activity, tick, refused(number, a, 0));
    clear(what, page, activity, tick, refused(number, a, 0));
}

/* Records with which no edit is made, whatever the activity and the tick. */
static void turned_away(const char *what, const Record *model, const Record *plan, uint32_t number, uint32_t a)
{
    Lent page = lent(model, plan);

    both_refused(what, &page, UINT32_MAX, UINT32_MAX, number, a);
}

/* Activity 2 of S's plan is moved from tick 5 to tick 4 and back; then tick 1 is taken from activity 0 for activity 1. */
static void moved(const Record *model, const Record *plan, const Record *early)
{
    const GridAnswer made = accepted(0, 0, 0, 0);
    Lent page = lent(model, plan);
    uint8_t *bytes = page.expected.bytes;

    bytes[26] = 4; /* the start of activity 2, and the word of tick 4 */
    bytes[48] = 4;
    mark("a mark in front", &page, 2, 4, made);
    mark("the same mark", &page, 2, 4, refused(60, 0, 0));
    page.expected = *early; /* the end of activity 2, and the word of tick 5 */
    clear("the last tick cleared", &page, 2, 5, made);
    clear("the same tick cleared", &page, 2, 5, refused(60, 0, 0));
    bytes[26] = 0; /* start and end of activity 2, and the word of tick 4 */
    bytes[28] = 0;
    bytes[48] = 0;
    clear("the only tick cleared", &page, 2, 4, made);
    page.expected = *plan;
    mark("the first mark", &page, 2, 5, made);
    bytes[36] = 3; /* the word of tick 1 */
    mark("a mark between", &page, 1, 1, made);
    bytes[18] = 2; /* the start of activity 0, and the word of tick 1 */
    bytes[36] = 2;
    clear("the first tick cleared", &page, 0, 1, made);
}

static void outside(const Record *model, const Record *plan)
{
    Lent page = lent(model, plan);

    both_refused("activity 3 of 3", &page, 3, 0, 58, 0);
    both_refused("the greatest activity", &page, UINT32_MAX, 0, 58, 0);
    both_refused("activity and tick outside", &page, 3, 8, 58, 0);
    both_refused("tick 8 of 8", &page, 2, 8, 59, 0);
    both_refused("tick 65536", &page, 0, 65536, 59, 0);
    both_refused("the greatest tick", &page, 0, UINT32_MAX, 59, 0);
}

/* Rows that the words do not bear out: one is put right by an edit of its own activity alone. */
static void wrong_rows(const Record *model, const Record *plan)
{
    Record other = *plan;
    Lent page;

    other.bytes[17] = 255; /* the start of activity 0, and that of activity 1 */
    other.bytes[22] = 6;
    page = lent(model, &other);
    mark("a refused mark with a wrong start", &page, 0, 1, refused(60, 0, 0));
    page.expected.bytes[17] = 0;
    page.expected.bytes[20] = 8; /* the end of activity 0, and the word of tick 7 */
    page.expected.bytes[60] = 1;
    mark("a mark with two wrong starts", &page, 0, 7, accepted(0, 0, 0, 0));
}

static void edits(const Record *model, const Record *plan, const Record *early)
{
    static const Record empty;
    Record other = *plan;

    moved(model, plan, early);
    outside(model, plan);
    wrong_rows(model, plan);
    other.bytes[60] = 8;
    turned_away("bit 3 of 3 at tick 7", model, &other, 14, 7);
    other.bytes[10] = 3;
    turned_away("a release of 3", model, &other, 12, 0);
    other.length -= 1;
    turned_away("a plan with a byte too few", model, &other, 8, 0);
    turned_away("the model for the plan to edit", model, model, 10, 0);
    turned_away("no plan to edit", model, &empty, 8, 0);
    turned_away("no model for an edit", &empty, plan, 1, 0);
}

/* A model wrapped as an issue of series 7. */
static Record wrapped(const Record *model, uint8_t issue, uint8_t flag)
{
    const uint8_t head[WRAPPER] = {0, 0, 0, (uint8_t)(WRAPPER + model->length), 1, 0, 0, 0, 7, 0, issue, flag};
    Record made = {0};

    memcpy(made.bytes, head, WRAPPER);
    memcpy(made.bytes + WRAPPER, model->bytes, model->length);
    made.length = WRAPPER + model->length;
    return made;
}

/* Two records end to end. */
static Record joined(const Record *first, const Record *second)
{
    Record made = *first;

    memcpy(made.bytes + first->length, second->bytes, second->length);
    made.length = first->length + second->length;
    return made;
}

static void part(const char *what, GridPart answer, uint32_t number, uint64_t record, uint64_t offset, uint64_t length)
{
    if (answer.number != number || answer.zero != 0 || answer.record != record || answer.offset != offset
        || answer.length != length) {
        fprintf(stderr, PROGRAM ": %s: expected %u 0 %lu %lu %lu\n", what, (unsigned)number, (unsigned long)record,
                (unsigned long)offset, (unsigned long)length);
        fprintf(stderr, PROGRAM ": %s: answered %u %u %lu %lu %lu\n", what, (unsigned)answer.number, (unsigned)answer.zero,
                (unsigned long)answer.record, (unsigned long)answer.offset, (unsigned long)answer.length);
        exit(1);
    }
    done++;
}

static GridPart stands(const Record *first, const Record *second)
{
    return grid_stands(first->bytes, first->length, second->bytes, second->length);
}

static GridPart chosen(const Record *file)
{
    return grid_choose(file->bytes, file->length);
}

/* Whether the record that stands is a withdrawn one: what a caller asks before it loads anything of it. */
static int withdrawn(const Record *argument, GridPart standing)
{
    return argument->bytes[standing.offset + FLAG] == WITHDRAWN;
}

/* A record stands, and is live or withdrawn. */
static void handed(const char *what, const Record *argument, GridPart standing, uint64_t record, uint64_t offset,
                   uint64_t length, int flag)
{
    part(what, standing, 0, record, offset, length);
    if (withdrawn(argument, standing) != flag) {
        fail(what, flag == WITHDRAWN ? "the record that stands is not withdrawn" : "the record that stands is withdrawn");
    }
}

/* One of a pair: it lies in the argument that its number says. */
static void handed_of(const char *what, const Record *first, const Record *second, uint64_t record, int flag)
{
    const GridPart standing = stands(first, second);
    const Record *argument = standing.record == 0 ? first : second;

    handed(what, argument, standing, record, 0, argument->length, flag);
}

/* Which wrapped record stands, in pairs and in files. */
static void exchange(const Record *model)
{
    const Record live = wrapped(model, 1, LIVE), gone = wrapped(model, 1, WITHDRAWN), newer = wrapped(model, 2, LIVE);
    const uint64_t length = live.length;
    Record altered = live, file;

    handed_of("live, then withdrawn", &live, &gone, 1, WITHDRAWN);
    handed_of("withdrawn, then live", &gone, &live, 0, WITHDRAWN);
    handed_of("a higher issue", &gone, &newer, 1, LIVE);
    handed_of("equal copies", &live, &live, 0, LIVE);
    handed_of("equal withdrawn copies", &gone, &gone, 0, WITHDRAWN);
    altered.bytes[8] = 8;
    part("another series", stands(&live, &altered), 55, 1, 0, 0);
    file = joined(&live, &altered);
    part("a file of two series", chosen(&file), 55, 1, 0, 0);
    altered = live;
    altered.bytes[WRAPPER + 19] = 6; /* the priority of thread 0 */
    part("other bytes", stands(&live, &altered), 56, 1, 0, 0);
    altered = live;
    altered.bytes[FLAG] = 2;
    part("a flag of 2", stands(&altered, &live), 54, 0, 0, 0);
    part("a flag of 2 behind", stands(&live, &altered), 54, 1, 0, 0);
    altered = live;
    altered.length -= 1;
    part("a byte too few", stands(&live, &altered), 54, 1, 0, 0);

    file = joined(&live, &gone);
    handed("a file of two", &file, chosen(&file), 1, length, length, WITHDRAWN);
    file = joined(&gone, &newer);
    handed("a file with a higher issue", &file, chosen(&file), 1, length, length, LIVE);
    file = joined(&gone, &live);
    handed("a file of two, withdrawn first", &file, chosen(&file), 0, 0, length, WITHDRAWN);
    file.length -= 1;
    part("a file that ends too early", chosen(&file), 54, 1, 0, 0);
    file.length = 0;
    part("an empty file", chosen(&file), 54, 0, 0, 0);
}

/* Model G, of version 3: activity 1 takes both cores. */
static void gangs(const char *folder)
{
    static const int32_t rows[] = {INT32_MIN, 2, INT32_MIN};
    const Record plan = record(folder, "G.plan"), choice = record(folder, "G.choice");
    Record model = record(folder, "G.model");
    const uint32_t length = (uint32_t)plan.length;
    Lent page = lent(&model, &plan);

    check("G's plan", &model, &plan, accepted(9, 12, 5, 0), accepted(9, 12, 5, 0));
    run("G's choice", &model, &choice, plan.length, accepted(9, 12, 5, length), plan.bytes, plan.length);
    lateness("G's report", &model, &choice, ROWS, accepted(9, 12, 5, length), rows, 3);
    page.expected.bytes[26] = 0; /* the start of activity 1, and the word of tick 0 */
    page.expected.bytes[36] = 7;
    mark("four cores' worth on two", &page, 1, 0, accepted(0, 0, 0, 0));
    check("three ticks of activity 1", &model, &page.expected, refused(22, 1, 0), refused(22, 1, 0));
    page.expected.bytes[44] = 0; /* the word of tick 2 */
    clear("a tick between cleared", &page, 1, 2, accepted(0, 0, 0, 0));
    check("an edited plan", &model, &page.expected, refused(28, 0, 0), refused(28, 0, 0));
    clear("the same tick of G cleared", &page, 1, 2, refused(60, 0, 0));
    both_refused("activity 3 of G", &page, 3, 6, 58, 0);
    both_refused("tick 6 of 6", &page, 2, 6, 59, 0);
    model.bytes[74] = 3; /* the width of activity 1 */
    both_refused("width 3 of 2 cores for an edit", &page, 1, 2, 57, 1);
    check("width 3 of 2 cores", &model, &plan, refused(57, 1, 0), refused(57, 1, 0));
    run("width 3 of 2 cores for the run", &model, &choice, plan.length, refused(57, 1, 0), plan.bytes, 0);
    lateness("width 3 of 2 cores for the report", &model, &choice, ROWS, refused(57, 1, 0), rows, 0);
    model.bytes[74] = 1; /* the walk passes over nothing */
    check("width 1", &model, &plan, refused(29, 0, 1), refused(29, 0, 1));
}

int main(int count, char **words)
{
    const char *folder = folder_of(count, words);
    static const uint8_t zeros[PLAN];
    static const int32_t good_rows[] = {INT32_MIN, 4, 2};
    static const int32_t late_rows[] = {INT32_MIN, 1, -1};
    static const Record empty;
    Record model, plan, early, choice, other;

    model = record(folder, "S.model");
    plan = record(folder, "S.plan");
    early = record(folder, "S-early.plan");
    choice = record(folder, "S.choice");

    check("S's plan", &model, &plan, accepted(5, 8, 6, 0), accepted(5, 8, 6, 0));
    check("activity 2 at tick 4", &model, &early, refused(25, 2, 1), refused(25, 2, 1));
    other = plan;
    other.bytes[26] = 6; /* start and end of activity 2, and the words of ticks 5 and 6 */
    other.bytes[28] = 7;
    other.bytes[52] = 0;
    other.bytes[56] = 4;
    check("activity 2 at tick 6", &model, &other, accepted(5, 8, 7, 0), refused(30, 5, 2));
    check("the model for the plan too", &model, &model, refused(10, 0, 0), refused(10, 0, 0));
    check("no plan", &model, &empty, refused(8, 0, 0), refused(8, 0, 0));
    check("no model", &empty, &plan, refused(1, 0, 0), refused(1, 0, 0));

    if (plan.length != PLAN) {
        fail("S's plan", "it has not 61 bytes");
    }
    run("a buffer of 61 bytes", &model, &choice, PLAN, accepted(5, 8, 6, PLAN), plan.bytes, PLAN);
    run("a longer buffer", &model, &choice, MOST, accepted(5, 8, 6, PLAN), plan.bytes, PLAN);
    run("a buffer of 60 bytes", &model, &choice, PLAN - 1, refused(41, PLAN, 0), zeros, 0);
    run("a buffer of no bytes", &model, &choice, 0, refused(41, PLAN, 0), zeros, 0);
    run("a plan for the choice", &model, &plan, PLAN, refused(11, 0, 0), zeros, 0);
    run("no model for the run", &empty, &choice, PLAN, refused(1, 0, 0), zeros, 0);

    lateness("a list of 32 rows", &model, &choice, ROWS, accepted(5, 8, 6, PLAN), good_rows, 3);
    lateness("a longer list", &model, &choice, LIST, accepted(5, 8, 6, PLAN), good_rows, 3);
    lateness("a list of 31 rows", &model, &choice, ROWS - 1, refused(50, 0, 0), good_rows, 0);
    lateness("a list of no rows", &model, &choice, 0, refused(50, 0, 0), good_rows, 0);
    lateness("a plan for the choice of the report", &model, &plan, ROWS, refused(11, 0, 0), good_rows, 0);
    lateness("no model for the report", &empty, &choice, ROWS, refused(1, 0, 0), good_rows, 0);
    lateness("no model and 31 rows", &empty, &choice, ROWS - 1, refused(1, 0, 0), good_rows, 0);

    other = model;
    other.bytes[9] = 5;
    run("H 5", &other, &choice, PLAN, refused(42, 2, 0), zeros, PLAN - 3 * 4);
    lateness("H 5 for the report", &other, &choice, ROWS, refused(42, 2, 0), late_rows, 0);
    other = model;
    other.bytes[21] = 5;
    choice.bytes[14] = 5;
    run("a chosen period of 5", &other, &choice, PLAN, refused(43, 2, 0), zeros, PLAN);
    lateness("a chosen period of 5 for the report", &other, &choice, ROWS, refused(43, 2, 0), late_rows, 3);

    edits(&model, &plan, &early);
    exchange(&model);
    gangs(folder);

    printf(PROGRAM ": %d answers as expected\n", done);
    return 0;
}
