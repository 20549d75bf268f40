/* The four calls of include/grid.h with an editing state on models S, G and R, with their records read from samples/: marks
 * and clears, and asks and keeps.
 *
 * usage: edits FOLDER
 *
 * FOLDER has S.model, S.plan, S-early.plan, G.model, G.plan, R.model and R.plan. Each answer, every byte of the lent plan and
 * around it, and every number of the state of an editor are compared with the papers'; the first difference ends the program
 * with a message and status 1.
 */
#define PROGRAM "edits"
#include "samples.h"

enum {
    COUNTS = 32 /* the counts of a state */
};

static const bool MARK = true, CLEAR = false;

/* A plan lent to be edited, what it has to be after the next call, and the state that goes through the calls. */
typedef struct Lent {
    const Record *model;
    Record expected;
    GridEditing state;
    uint8_t space[AROUND + MOST + AROUND];
} Lent;

static Lent lent(const Record *model, const Record *plan)
{
    Lent made = {.model = model, .expected = *plan, .state = {0}};

    memset(made.space, FILLED, sizeof made.space);
    memcpy(made.space + AROUND, plan->bytes, plan->length);
    return made;
}

/* What the state is when that edit is asked, and when nothing is. */
static GridEditing asking(GridEditing state, bool marking, uint32_t activity, uint32_t tick)
{
    state.asked = marking ? 1 : 2;
    state.activity = activity;
    state.tick = tick;
    return state;
}

static GridEditing nothing(GridEditing state)
{
    state.asked = 0;
    state.activity = 0;
    state.tick = 0;
    return state;
}

/* The lent plan is the expected one, and no byte around it changed. */
static void expect_plan(const char *what, const Lent *page)
{
    const Record *expected = &page->expected;
    size_t at;

    for (at = 0; at < sizeof page->space; at++) {
        int within = at >= AROUND && at < AROUND + expected->length;
        if (page->space[at] != (within ? expected->bytes[at - AROUND] : FILLED)) {
            fprintf(stderr, PROGRAM ": %s: byte %ld of the plan is %02x\n", what, (long)at - AROUND, page->space[at]);
            exit(1);
        }
    }
}

static void expect_state(const char *what, const GridEditing *state, const GridEditing *expected)
{
    size_t at;

    if (state->asked != expected->asked || state->activity != expected->activity || state->tick != expected->tick
        || state->total != expected->total) {
        fprintf(stderr, PROGRAM ": %s: expected the state %u %u %u %u\n", what, (unsigned)expected->asked,
                (unsigned)expected->activity, (unsigned)expected->tick, (unsigned)expected->total);
        fprintf(stderr, PROGRAM ": %s: handed back %u %u %u %u\n", what, (unsigned)state->asked, (unsigned)state->activity,
                (unsigned)state->tick, (unsigned)state->total);
        exit(1);
    }
    for (at = 0; at < COUNTS; at++) {
        if (state->counts[at] != expected->counts[at]) {
            fprintf(stderr, PROGRAM ": %s: count %lu of the state is %u\n", what, (unsigned long)at,
                    (unsigned)state->counts[at]);
            exit(1);
        }
    }
}

/* After a call: its answer, the plan and the state, which the next call is handed. */
static void stepped(const char *what, Lent *page, GridStep step, GridAnswer answer, GridEditing state)
{
    expect(what, step.answer, answer);
    expect_plan(what, page);
    expect_state(what, &step.state, &state);
    page->state = step.state;
}

/* A keep, a mark or a clear that is done leaves nothing asked, a refused one the state as it was. */
static GridEditing left(const Lent *page, GridAnswer answer)
{
    return answer.number == 0 ? nothing(page->state) : page->state;
}

static void mark(const char *what, Lent *page, uint32_t activity, uint32_t tick, GridAnswer answer)
{
    const Record *model = page->model;
    GridStep step = grid_edit_mark(page->state, model->bytes, model->length, page->space + AROUND, page->expected.length,
                                   activity, tick);

    stepped(what, page, step, answer, left(page, answer));
}

static void clear(const char *what, Lent *page, uint32_t activity, uint32_t tick, GridAnswer answer)
{
    const Record *model = page->model;
    GridStep step = grid_edit_clear(page->state, model->bytes, model->length, page->space + AROUND, page->expected.length,
                                    activity, tick);

    stepped(what, page, step, answer, left(page, answer));
}

static void keep(const char *what, Lent *page, GridAnswer answer)
{
    const Record *model = page->model;
    GridStep step = grid_edit_keep(page->state, model->bytes, model->length, page->space + AROUND, page->expected.length);

    stepped(what, page, step, answer, left(page, answer));
}

static GridStep asked(const Lent *page, bool marking, uint32_t activity, uint32_t tick)
{
    const Record *model = page->model;

    return grid_edit_ask(page->state, model->bytes, model->length, page->space + AROUND, page->expected.length, marking,
                         activity, tick);
}

/* An ask with its verdict: the edit is asked afterwards. */
static void ask(const char *what, Lent *page, bool marking, uint32_t activity, uint32_t tick, GridAnswer verdict)
{
    stepped(what, page, asked(page, marking, activity, tick), verdict, asking(page->state, marking, activity, tick));
}

/* A refused ask: nothing is asked afterwards. */
static void ask_refused(const char *what, Lent *page, bool marking, uint32_t activity, uint32_t tick, GridAnswer answer)
{
    stepped(what, page, asked(page, marking, activity, tick), answer, nothing(page->state));
}

/* A mark or a clear that is refused in the same way when it is made, when it is kept and when it is asked. */
static void edit_refused(const char *what, Lent *page, bool marking, uint32_t activity, uint32_t tick, GridAnswer answer)
{
    (marking ? mark : clear)(what, page, activity, tick, answer);
    page->state = asking(page->state, marking, activity, tick);
    keep(what, page, answer);
    (marking ? mark : clear)(what, page, activity, tick, answer);
    ask_refused(what, page, marking, activity, tick, answer);
}

/* Both a mark and a clear. */
static void both_refused(const char *what, Lent *page, uint32_t activity, uint32_t tick, uint32_t number, uint32_t a)
{
    edit_refused(what, page, MARK, activity, tick, refused(number, a, 0));
    edit_refused(what, page, CLEAR, activity, tick, refused(number, a, 0));
}

/* Records with which no edit is made, whatever the activity and the tick, and whether or not one is asked. */
static void turned_away(const char *what, const Record *model, const Record *plan, uint32_t number, uint32_t a)
{
    Lent page = lent(model, plan);

    keep(what, &page, refused(number, a, 0));
    both_refused(what, &page, UINT32_MAX, UINT32_MAX, number, a);
}

/* Activity 2 of S's plan is moved from tick 5 to tick 4 and back; then tick 1 is taken from activity 0 for activity 1. */
static void moved(const Record *model, const Record *plan, const Record *early)
{
    const GridAnswer made = accepted(0, 0, 0, 0);
    Lent page = lent(model, plan);
    uint8_t *bytes = page.expected.bytes;

    bytes[26] = 4; /* the start of activity 2, and the word of tick 4 */
    bytes[48] = 4;
    mark("a mark in front", &page, 2, 4, made);
    mark("the same mark", &page, 2, 4, refused(60, 0, 0));
    page.expected = *early; /* the end of activity 2, and the word of tick 5 */
    clear("the last tick cleared", &page, 2, 5, made);
    clear("the same tick cleared", &page, 2, 5, refused(60, 0, 0));
    bytes[26] = 0; /* start and end of activity 2, and the word of tick 4 */
    bytes[28] = 0;
    bytes[48] = 0;
    clear("the only tick cleared", &page, 2, 4, made);
    page.expected = *plan;
    mark("the first mark", &page, 2, 5, made);
    bytes[36] = 3; /* the word of tick 1 */
    mark("a mark between", &page, 1, 1, made);
    bytes[18] = 2; /* the start of activity 0, and the word of tick 1 */
    bytes[36] = 2;
    clear("the first tick cleared", &page, 0, 1, made);
}

static void outside(const Record *model, const Record *plan)
{
    Lent page = lent(model, plan);

    both_refused("activity 3 of 3", &page, 3, 0, 58, 0);
    both_refused("the greatest activity", &page, UINT32_MAX, 0, 58, 0);
    both_refused("activity and tick outside", &page, 3, 8, 58, 0);
    both_refused("tick 8 of 8", &page, 2, 8, 59, 0);
    both_refused("tick 65536", &page, 0, 65536, 59, 0);
    both_refused("the greatest tick", &page, 0, UINT32_MAX, 59, 0);
}

/* Rows that the words do not bear out: one is put right by an edit of its own activity alone. */
static void wrong_rows(const Record *model, const Record *plan)
{
    Record other = *plan;
    Lent page;

    other.bytes[17] = 255; /* the start of activity 0, and that of activity 1 */
    other.bytes[22] = 6;
    page = lent(model, &other);
    mark("a refused mark with a wrong start", &page, 0, 1, refused(60, 0, 0));
    page.expected.bytes[17] = 0;
    page.expected.bytes[20] = 8; /* the end of activity 0, and the word of tick 7 */
    page.expected.bytes[60] = 1;
    mark("a mark with two wrong starts", &page, 0, 7, accepted(0, 0, 0, 0));
}

static void edits(const Record *model, const Record *plan, const Record *early)
{
    static const Record empty;
    Record other = *plan;

    moved(model, plan, early);
    outside(model, plan);
    wrong_rows(model, plan);
    other.bytes[60] = 8;
    turned_away("bit 3 of 3 at tick 7", model, &other, 14, 7);
    other.bytes[10] = 3;
    turned_away("a release of 3", model, &other, 12, 0);
    other.length -= 1;
    turned_away("a plan with a byte too few", model, &other, 8, 0);
    turned_away("the model for the plan to edit", model, model, 10, 0);
    turned_away("no plan to edit", model, &empty, 8, 0);
    turned_away("no model for an edit", &empty, plan, 1, 0);
}

/* In S's plan, start and end of an activity and the word of a tick become these. */
static void row_to(Record *plan, size_t activity, uint8_t start, uint8_t end)
{
    plan->bytes[18 + 4 * activity] = start;
    plan->bytes[20 + 4 * activity] = end;
}

static void word_to(Record *plan, size_t tick, uint8_t word)
{
    plan->bytes[32 + 4 * tick] = word;
}

/* An edit is asked and kept: the verdict is that of the plan afterwards. */
static void tried(const char *what, Lent *page, bool marking, uint32_t activity, uint32_t tick, GridAnswer verdict,
                  const Record *after)
{
    const Record *model = page->model;

    ask(what, page, marking, activity, tick, verdict);
    page->expected = *after;
    keep(what, page, accepted(0, 0, 0, 0));
    expect(what, grid_check_plain(model->bytes, model->length, page->space + AROUND, after->length), verdict);
}

/* Ask and keep, over and over: activity 2 of S's plan gets tick 6, loses 5, then 6, and gets 5 again. */
static void kept(const Record *model, const Record *plan)
{
    Lent page = lent(model, plan);
    Record after = *plan;

    row_to(&after, 2, 5, 7);
    word_to(&after, 6, 4);
    tried("a second tick", &page, MARK, 2, 6, refused(22, 2, 0), &after);
    row_to(&after, 2, 6, 7);
    word_to(&after, 5, 0);
    tried("the plan passes afterwards", &page, CLEAR, 2, 5, accepted(5, 8, 7, 0), &after);
    row_to(&after, 2, 0, 0);
    word_to(&after, 6, 0);
    tried("the plan passed before", &page, CLEAR, 2, 6, refused(21, 2, 0), &after);
    tried("the plan as it was", &page, MARK, 2, 5, accepted(5, 8, 6, 0), plan);
    keep("kept twice", &page, refused(61, 0, 0));
    keep("kept three times", &page, refused(61, 0, 0));
}

/* Each verdict but 23, on S's plan and with one tick of activity 0 cleared; the asks alone change no byte. */
static void verdicts(const Record *model, const Record *plan)
{
    const GridAnswer made = accepted(0, 0, 0, 0);
    Lent page = lent(model, plan);

    ask("no tick of activity 2", &page, CLEAR, 2, 5, refused(21, 2, 0));
    ask("one tick of activity 1", &page, CLEAR, 1, 3, refused(22, 1, 0));
    ask("activity 1 ends at 5", &page, MARK, 1, 4, refused(25, 2, 1));
    ask("two at tick 1", &page, MARK, 1, 1, refused(28, 1, 0));
    ask("one tick of activity 0", &page, CLEAR, 0, 2, accepted(4, 8, 6, 0));
    row_to(&page.expected, 0, 1, 2);
    word_to(&page.expected, 2, 0);
    keep("activity 0 at tick 1", &page, made);
    ask("activity 0 ends at 7", &page, MARK, 0, 6, refused(26, 2, 0));
    ask("activity 0 before its release", &page, MARK, 0, 0, refused(27, 0, 0));
    page.expected = *plan;
    mark("activity 0 as it was", &page, 0, 2, made);
    row_to(&page.expected, 0, 2, 3);
    word_to(&page.expected, 1, 0);
    clear("activity 0 at tick 2", &page, 0, 1, made);
    ask("activity 1 while activity 0 waits", &page, MARK, 1, 1, refused(29, 1, 0));
}

/* 23, with the period range 5..8 of thread 1, and 6 chosen. */
static void late(const Record *model, const Record *plan)
{
    Record other = *model, chosen_6 = *plan;
    Lent page;

    other.bytes[21] = 5;
    chosen_6.bytes[16] = 6;
    page = lent(&other, &chosen_6);
    ask("activity 1 ends at 7 of 6", &page, MARK, 1, 6, refused(23, 1, 0));
}

/* A new ask replaces the old one. */
static void asked_again(const Record *model, const Record *plan)
{
    Lent page = lent(model, plan);

    ask("the first ask", &page, MARK, 1, 4, refused(25, 2, 1));
    ask("the second ask", &page, CLEAR, 2, 5, refused(21, 2, 0));
    ask("the second ask again", &page, CLEAR, 2, 5, refused(21, 2, 0));
    row_to(&page.expected, 2, 0, 0);
    word_to(&page.expected, 5, 0);
    keep("the last ask kept", &page, accepted(0, 0, 0, 0));
    keep("the first ask is gone", &page, refused(61, 0, 0));
}

/* A refused ask leaves nothing asked. */
static void forgotten(const Record *model, const Record *plan)
{
    static const struct {
        const char *what;
        uint32_t activity, tick, number;
    } asks[] = {{"an ask of activity 3 of 3", 3, 8, 58},
                {"an ask of tick 8 of 8", 2, 8, 59},
                {"an ask of a set bit", 2, 5, 60}};
    Lent page = lent(model, plan);
    size_t at;

    for (at = 0; at < sizeof asks / sizeof asks[0]; at++) {
        ask("before a refused ask", &page, CLEAR, 0, 2, accepted(4, 8, 6, 0));
        ask_refused(asks[at].what, &page, MARK, asks[at].activity, asks[at].tick, refused(asks[at].number, 0, 0));
        keep("after a refused ask", &page, refused(61, 0, 0));
    }
}

/* Unrefused direct edits since the asking: another, the same, and one with the undoing of it. */
static void overtaken(const Record *model, const Record *plan)
{
    const GridAnswer made = accepted(0, 0, 0, 0), gone = refused(61, 0, 0);
    Lent page = lent(model, plan);

    ask("before a clear", &page, MARK, 2, 6, refused(22, 2, 0));
    row_to(&page.expected, 0, 1, 2);
    word_to(&page.expected, 2, 0);
    clear("a clear since the asking", &page, 0, 2, made);
    keep("after a clear", &page, gone);
    ask("before the same edit", &page, MARK, 2, 6, refused(22, 2, 0));
    row_to(&page.expected, 2, 5, 7);
    word_to(&page.expected, 6, 4);
    mark("the same edit", &page, 2, 6, made);
    keep("after the same edit", &page, gone);
    ask("before an edit and its undoing", &page, CLEAR, 2, 5, accepted(4, 8, 7, 0));
    word_to(&page.expected, 2, 1);
    row_to(&page.expected, 0, 1, 3);
    mark("an edit", &page, 0, 2, made);
    word_to(&page.expected, 2, 0);
    row_to(&page.expected, 0, 1, 2);
    clear("its undoing", &page, 0, 2, made);
    keep("after an edit and its undoing", &page, gone);
}

/* Refused direct edits since the asking, and a keep that is refused: the ask stands. */
static void not_overtaken(const Record *model, const Record *plan)
{
    static const Record empty;
    Lent page = lent(model, plan);

    ask("before refused edits", &page, MARK, 2, 6, refused(22, 2, 0));
    clear("a clear of activity 3 of 3", &page, 3, 0, refused(58, 0, 0));
    mark("a mark of tick 8 of 8", &page, 0, 8, refused(59, 0, 0));
    mark("a mark of a set bit", &page, 0, 1, refused(60, 0, 0));
    page.model = &empty;
    mark("a mark without a model", &page, 0, 1, refused(1, 0, 0));
    keep("a keep without a model", &page, refused(1, 0, 0));
    page.model = model;
    row_to(&page.expected, 2, 5, 7);
    word_to(&page.expected, 6, 4);
    keep("after refused edits", &page, accepted(0, 0, 0, 0));
}

/* Changes a byte of the lent plan by other means than a call. */
static void elsewhere(Lent *page, size_t at, uint8_t byte)
{
    page->space[AROUND + at] = byte;
    page->expected.bytes[at] = byte;
}

/* A plan that was changed elsewhere since the asking: the keep is tried by what it is lent. */
static void changed(const Record *model, const Record *plan)
{
    Lent page = lent(model, plan);

    ask("before a change", &page, MARK, 2, 6, refused(22, 2, 0));
    elsewhere(&page, 56, 4); /* the word of tick 6 */
    keep("the bit is set by now", &page, refused(60, 0, 0));
    elsewhere(&page, 56, 0);
    elsewhere(&page, 60, 8); /* that of tick 7 */
    keep("bit 3 of 3 by now", &page, refused(14, 7, 0));
    elsewhere(&page, 60, 0);
    elsewhere(&page, 10, 3); /* the release of thread 0 */
    keep("a release of 3 by now", &page, refused(12, 0, 0));
    elsewhere(&page, 10, 1);
    elsewhere(&page, 52, 0); /* the word of tick 5 */
    row_to(&page.expected, 2, 6, 7);
    word_to(&page.expected, 6, 4);
    keep("tick 5 is clear by now", &page, accepted(0, 0, 0, 0));
    check("a kept edit", model, &page.expected, accepted(5, 8, 7, 0), refused(30, 5, 2));
}

/* Another model of the same size since the asking. */
static void another_model(const Record *model, const Record *plan)
{
    Record other = *model;
    Lent page = lent(model, plan);

    ask("before another model", &page, MARK, 2, 6, refused(22, 2, 0));
    page.model = &other;
    other.bytes[55] = 2; /* the temporal mask of activity 1 */
    keep("an own bit by now", &page, refused(7, 1, 0));
    other = *model;
    other.bytes[19] = 6; /* the priority of thread 0 */
    row_to(&page.expected, 2, 5, 7);
    word_to(&page.expected, 6, 4);
    keep("another priority by now", &page, accepted(0, 0, 0, 0));
}

/* Edits that are asked of R, of 4 activities and 10 ticks, do not fit S. */
static void another_page(const char *folder, const Record *model, const Record *plan)
{
    const Record r_model = record(folder, "R.model"), r_plan = record(folder, "R.plan");
    Lent page = lent(&r_model, &r_plan), small = lent(model, plan);

    ask("tick 8 of R", &page, MARK, 2, 8, refused(26, 3, 2));
    small.state = page.state;
    keep("tick 8 of S", &small, refused(59, 0, 0));
    ask("activity 3 of R", &page, MARK, 3, 9, accepted(9, 10, 10, 0));
    small.state = page.state;
    keep("activity 3 of S", &small, refused(58, 0, 0));
    page.state = small.state;
    page.expected.bytes[32] = 10; /* the end of activity 3, and the word of tick 9 */
    page.expected.bytes[72] = 8;
    keep("activity 3 of R again", &page, accepted(0, 0, 0, 0));
}

/* A state of which every number is another. */
static GridEditing numbered(uint32_t asked, uint32_t activity, uint32_t tick)
{
    GridEditing state = {.asked = asked, .activity = activity, .tick = tick, .total = 1000};
    uint32_t at;

    for (at = 0; at < COUNTS; at++) {
        state.counts[at] = UINT32_MAX - at;
    }
    return state;
}

/* Nothing is asked with another number than 1 and 2: refused, a keep, a mark and a clear hand back all of the state. */
static void handed_back(const Record *model, const Record *plan)
{
    static const uint32_t numbers[] = {0, 3, 7, 257, 65538, UINT32_MAX};
    Lent page = lent(model, plan);
    size_t at;

    for (at = 0; at < sizeof numbers / sizeof numbers[0]; at++) {
        page.state = numbered(numbers[at], 2, 6);
        keep("a keep of neither", &page, refused(61, 0, 0));
        mark("a mark of a set bit, neither asked", &page, 2, 5, refused(60, 0, 0));
        clear("a clear of tick 8, neither asked", &page, 2, 8, refused(59, 0, 0));
        page.state = numbered(numbers[at], UINT32_MAX, UINT32_MAX);
        keep("a keep of neither, outside", &page, refused(61, 0, 0));
        ask_refused("a refused ask, neither asked", &page, MARK, 2, 5, refused(60, 0, 0));
    }
}

/* Asks, keeps and direct edits that are not refused hand back the total and the counts. */
static void carried(const Record *model, const Record *plan)
{
    const GridAnswer made = accepted(0, 0, 0, 0);
    Lent page = lent(model, plan);

    page.state = numbered(7, 2, 6);
    ask("an ask of a numbered state", &page, CLEAR, 0, 2, accepted(4, 8, 6, 0));
    row_to(&page.expected, 0, 1, 2);
    word_to(&page.expected, 2, 0);
    keep("a keep of a numbered state", &page, made);
    page.state = numbered(7, 2, 6);
    page.expected = *plan;
    mark("a mark of a numbered state", &page, 0, 2, made);
    page.state = numbered(1, 2, 6);
    row_to(&page.expected, 0, 1, 2);
    word_to(&page.expected, 2, 0);
    clear("a clear of a numbered state", &page, 0, 2, made);
}

/* An older copy of the state is answered as it says. */
static void copied(const Record *model, const Record *plan)
{
    const GridAnswer made = accepted(0, 0, 0, 0);
    Lent page = lent(model, plan);
    GridEditing copy;

    ask("before a copy", &page, MARK, 2, 6, refused(22, 2, 0));
    copy = page.state;
    row_to(&page.expected, 0, 1, 2);
    word_to(&page.expected, 2, 0);
    clear("a clear since the copy", &page, 0, 2, made);
    page.state = copy;
    row_to(&page.expected, 2, 5, 7);
    word_to(&page.expected, 6, 4);
    keep("a keep with the copy", &page, made);
    page.state = copy;
    keep("another keep with the copy", &page, refused(60, 0, 0));
}

/* Try, then keep. */
static void keeping(const char *folder, const Record *model, const Record *plan)
{
    Lent page = lent(model, plan);

    keep("nothing asked", &page, refused(61, 0, 0));
    keep("nothing asked again", &page, refused(61, 0, 0));
    kept(model, plan);
    verdicts(model, plan);
    late(model, plan);
    asked_again(model, plan);
    forgotten(model, plan);
    overtaken(model, plan);
    not_overtaken(model, plan);
    changed(model, plan);
    another_model(model, plan);
    another_page(folder, model, plan);
    handed_back(model, plan);
    carried(model, plan);
    copied(model, plan);
}

/* Asks of G's plan, with tick 1 of activity 0 cleared: loads and usage by widths. */
static void gangs_asked(const Record *model, const Record *plan)
{
    const GridAnswer made = accepted(0, 0, 0, 0);
    Lent page = lent(model, plan);
    uint8_t *bytes = page.expected.bytes;

    ask("tick 1 of G", &page, CLEAR, 0, 1, accepted(8, 12, 5, 0));
    bytes[24] = 1; /* the end of activity 0, and the word of tick 1 */
    bytes[40] = 4;
    keep("tick 1 of G cleared", &page, made);
    ask("one tick of two cores", &page, CLEAR, 1, 3, accepted(6, 12, 5, 0));
    ask("three cores' worth on two", &page, MARK, 0, 2, refused(28, 2, 0));
    ask("a gang while activity 0 waits", &page, MARK, 0, 4, refused(29, 2, 0));
    bytes[24] = 5; /* the end of activity 0, and the word of tick 4 */
    bytes[52] = 5;
    keep("tick 4 of G marked", &page, made);
    check("G's plan with kept edits", model, &page.expected, refused(29, 2, 0), refused(29, 2, 0));
}

/* Model G, of version 3: activity 1 takes both cores. */
static void gangs(const char *folder)
{
    const Record plan = record(folder, "G.plan");
    Record model = record(folder, "G.model");
    Lent page = lent(&model, &plan);

    page.expected.bytes[26] = 0; /* the start of activity 1, and the word of tick 0 */
    page.expected.bytes[36] = 7;
    mark("four cores' worth on two", &page, 1, 0, accepted(0, 0, 0, 0));
    check("three ticks of activity 1", &model, &page.expected, refused(22, 1, 0), refused(22, 1, 0));
    page.expected.bytes[44] = 0; /* the word of tick 2 */
    clear("a tick between cleared", &page, 1, 2, accepted(0, 0, 0, 0));
    check("an edited plan", &model, &page.expected, refused(28, 0, 0), refused(28, 0, 0));
    clear("the same tick of G cleared", &page, 1, 2, refused(60, 0, 0));
    both_refused("activity 3 of G", &page, 3, 6, 58, 0);
    both_refused("tick 6 of 6", &page, 2, 6, 59, 0);
    gangs_asked(&model, &plan);
    model.bytes[74] = 3; /* the width of activity 1 */
    both_refused("width 3 of 2 cores for an edit", &page, 1, 2, 57, 1);
}

int main(int count, char **words)
{
    const char *folder = folder_of(count, words);
    const Record model = record(folder, "S.model"), plan = record(folder, "S.plan");
    const Record early = record(folder, "S-early.plan");

    edits(&model, &plan, &early);
    keeping(folder, &model, &plan);
    gangs(folder);

    printf(PROGRAM ": %d answers as expected\n", done);
    return 0;
}
