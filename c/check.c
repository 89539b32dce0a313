/* Calls every function of the header on two shelves (and a tray, two shelves with a fifth action, a gate, a detour, and a lift) and
 * on records, lists and sheets with faults, and prints what comes back, the lists and areas lent with all their entries. */
#include "mardiskos.h"
#include "output.h"

#include <inttypes.h>

/* Two shelves: a carriage with 2 values and a box with 3, four actions, 278 bits. */
static const uint8_t two_shelves[35] = {
    0x10, 0x40, 0x10, 0x18, 0x10, 0x02, 0x03, 0x00, 0x00, 0x10, 0x44, 0x00,
    0x00, 0x04, 0x00, 0x10, 0x44, 0x00, 0x40, 0x00, 0x00, 0x04, 0x84, 0x00,
    0x41, 0x04, 0x10, 0x80, 0x00, 0x48, 0x40, 0x00, 0x10, 0x81, 0x00,
};

/* Two shelves with an action 4, which is like action 0 but costs 3 instead of 4: 326 bits. */
static const uint8_t two_shelves_with_4[41] = {
    0x10, 0x40, 0x14, 0x18, 0x10, 0x02, 0x03, 0x00, 0x00, 0x10, 0x44, 0x00, 0x00, 0x04,
    0x00, 0x10, 0x44, 0x00, 0x40, 0x00, 0x00, 0x04, 0x84, 0x00, 0x41, 0x04, 0x10, 0x80,
    0x00, 0x48, 0x40, 0x00, 0x10, 0x81, 0x00, 0x00, 0x0c, 0x44, 0x00, 0x00, 0x04,
};

/* A gate and a carriage, both black, and a box; the drives need the gate shut and set it shut again: 394 bits. */
static const uint8_t gate[50] = {
    0x10, 0x60, 0x14, 0x18, 0x10, 0x01, 0x81, 0x00, 0x10, 0x10, 0x40, 0x00, 0x44, 0x40,
    0x00, 0x00, 0x40, 0x00, 0x44, 0x40, 0x04, 0x00, 0x00, 0x01, 0x08, 0x80, 0x04, 0x10,
    0x00, 0x04, 0x10, 0x40, 0x01, 0x08, 0x80, 0x04, 0x10, 0x40, 0x04, 0x10, 0x00, 0x00,
    0x8c, 0x40, 0x00, 0x10, 0x42, 0x00, 0x20, 0x40,
};

/* A carriage with a dear move from where it fetches a box and two cheap ones the same way: 410 bits. */
static const uint8_t detour[52] = {
    0x10, 0x40, 0x1c, 0x28, 0x10, 0x01, 0x01, 0x04, 0x00, 0x14, 0x44, 0x00, 0x80,
    0x00, 0x00, 0x04, 0x44, 0x00, 0x00, 0x04, 0x00, 0x04, 0x44, 0x00, 0x40, 0x08,
    0x00, 0x04, 0x44, 0x00, 0x80, 0x04, 0x00, 0x04, 0x44, 0x00, 0x40, 0x00, 0x00,
    0x14, 0x44, 0x00, 0x00, 0x08, 0x00, 0x04, 0x84, 0x00, 0x81, 0x00, 0x10, 0x40,
};

/* A switch and a lift, both black, and a crate; the lift moves and is loaded only while the switch is on: 310 bits. */
static const uint8_t lift[39] = {
    0x10, 0x60, 0x14, 0x18, 0x10, 0x01, 0x81, 0x04, 0x10, 0x10, 0x40, 0x00, 0x40,
    0x40, 0x04, 0x00, 0x04, 0x04, 0x00, 0x00, 0x00, 0x84, 0x40, 0x04, 0x10, 0x40,
    0x00, 0x84, 0x40, 0x04, 0x10, 0x00, 0x00, 0xc8, 0x40, 0x04, 0x10, 0x02, 0x04,
};

/* A tray and two boxes, all red, and two actions, each of which loads a box on the tray. */
static const uint8_t tray[29] = {
    0x10, 0x60, 0x08, 0x10, 0x00, 0x01, 0x01, 0x04, 0x10, 0x10, 0x40, 0x00, 0x48, 0x80, 0x00,
    0x10, 0x00, 0x04, 0x10, 0x40, 0x00, 0x48, 0x80, 0x00, 0x20, 0x00, 0x04, 0x20, 0x40,
};

enum { ENTRIES = 8 };
static const uint16_t both_boxes[] = {0, 1};
static const uint16_t relaxed[] = {0, 2, 3};
static const uint16_t repaired[] = {0, 2, 1, 3};
static const uint16_t no_such_action[] = {0, 2, 4};
static const uint16_t does_not_apply[] = {2, 0, 3};
static const uint16_t too_large[] = {0, 1024};

static void print_code(uint64_t code)
{
    if (code == 0)
        puts("accepted");
    else
        printf("refused %u %" PRIu64 "\n", MARDISKOS_NUMBER(code), MARDISKOS_PLACE(code));
}

static void print_list(const char *what, const uint16_t *list, size_t len)
{
    printf("  %s:", what);
    for (size_t i = 0; i < len; i++)
        printf(" %u", (unsigned)list[i]);
    puts("");
}

static void print_bytes(const char *what, const uint8_t *bytes, size_t len)
{
    printf("  %s:", what);
    for (size_t i = 0; i < len; i++)
        printf(" %02x", (unsigned)bytes[i]);
    puts("");
}

static void print_marks(const uint8_t *marks, size_t len)
{
    printf("  marks:");
    for (size_t i = 0; i < len; i++)
        printf(" %u", (unsigned)marks[i]);
    puts("");
}

static void check(const char *what, const uint8_t *record, size_t len)
{
    printf("check, %s: ", what);
    print_code(mardiskos_check(record, len));
}

/* Two shelves with one byte replaced. */
static void check_changed(const char *what, size_t at, uint8_t byte)
{
    uint8_t record[sizeof two_shelves];
    memcpy(record, two_shelves, sizeof record);
    record[at] = byte;
    check(what, record, sizeof record);
}

static void check_records(void)
{
    uint8_t longer[sizeof two_shelves + 1] = {0};
    memcpy(longer, two_shelves, sizeof two_shelves);
    check("two shelves", two_shelves, sizeof two_shelves);
    check("no bytes", two_shelves, 0);
    check("one byte", two_shelves, 1);
    check("last byte missing", two_shelves, sizeof two_shelves - 1);
    check_changed("edition 2", 0, 0x20);
    check_changed("no variables", 1, 0x00);
    check_changed("1,028 actions", 1, 0x50);
    check_changed("initial value 2 of 2 values", 4, 0x50);
    check_changed("goal value without a goal", 4, 0x08);
    check_changed("variable 2 of 2 variables", 12, 0x02);
    check_changed("variables not rising", 24, 0x40);
    check_changed("padding not 0", sizeof two_shelves - 1, two_shelves[34] | 1);
    check("a byte left over", longer, sizeof longer);
}

static void judge(const char *what, const uint16_t *list, size_t len)
{
    mardiskos_judgement j = mardiskos_judge(two_shelves, sizeof two_shelves, list, len);
    printf("judge, %s: ", what);
    print_code(j.code);
    printf("  relaxed %" PRIu32 " %s, red-black %" PRIu32 " %s, real %" PRIu32 " %s\n", j.relaxed_steps,
           j.relaxed_plan ? "plan" : "no plan", j.red_black_steps, j.red_black_plan ? "plan" : "no plan",
           j.real_steps, j.real_plan ? "plan" : "no plan");
}

static void newest(const char *what, const uint8_t *record, size_t record_len, const uint16_t *list, size_t list_len,
                   size_t len)
{
    uint16_t values[ENTRIES] = {0};
    mardiskos_newest_values n = mardiskos_newest(record, record_len, list, list_len, values, len);
    printf("newest values, %s, %zu entries lent: ", what, len);
    print_code(n.code);
    printf("  red-black %" PRIu32 ", real %" PRIu32 "\n", n.steps, n.runs);
    print_list("values", values, len);
}

static void newest_of_lists(void)
{
    newest("repaired plan", two_shelves, sizeof two_shelves, repaired, 4, 4);
    newest("relaxed plan", two_shelves, sizeof two_shelves, relaxed, 3, 2);
    newest("empty list", two_shelves, sizeof two_shelves, relaxed, 0, 2);
    newest("repaired plan", two_shelves, sizeof two_shelves, repaired, 4, 1);
    newest("no such action", two_shelves, sizeof two_shelves, no_such_action, 3, 1);
    newest("no bytes", two_shelves, 0, repaired, 4, 3);
    newest("tray", tray, sizeof tray, both_boxes, 2, 4);
    newest("tray, up to where it runs for real", tray, sizeof tray, both_boxes, 1, 3);
}

static void forward(const char *what, const uint8_t *record, size_t record_len, size_t len)
{
    uint16_t list[ENTRIES] = {0};
    mardiskos_forward_run run = mardiskos_forward(record, record_len, list, len);
    printf("forward run%s, %zu entries lent: ", what, len);
    print_code(run.code);
    printf("  %" PRIu32 " steps, %" PRIu32 " facts reached\n", run.steps, run.reached);
    print_list("plan list", list, len);
}

static void relax(const char *what, const uint8_t *record, size_t record_len, size_t len)
{
    uint16_t list[ENTRIES] = {0};
    mardiskos_relaxed_plan found = mardiskos_relax(record, record_len, list, len);
    printf("relaxed plan%s, %zu entries lent: ", what, len);
    print_code(found.code);
    printf("  %" PRIu32 " steps\n", found.steps);
    print_list("plan list", list, len);
}

/* What is lent to planner and repair, and how much of it. Lists start with 0 and mark areas with 255, which no call
 * fills them up with. */
typedef struct {
    size_t len, work_len, marks_len;
    uint16_t list[ENTRIES], work[ENTRIES];
    uint8_t marks[ENTRIES];
} lent;

static lent lend(size_t len, size_t work_len, size_t marks_len)
{
    lent l = {len, work_len, marks_len, {0}, {0}, {0}};
    memset(l.marks, 255, sizeof l.marks);
    return l;
}

static void print_lent(const lent *l)
{
    printf("%zu and %zu entries, %zu marks lent: ", l->len, l->work_len, l->marks_len);
}

static void print_plan(mardiskos_plan_result p, const lent *l)
{
    print_code(p.code);
    printf("  %" PRIu32 " steps, cost %" PRIu32 ", %s, %" PRIu32 " run, searches %" PRIu32 "\n", p.steps, p.cost,
           p.real ? "real" : "not real", p.runs, p.searches);
    print_list("plan list", l->list, l->len);
    print_list("work list", l->work, l->work_len);
    print_marks(l->marks, l->marks_len);
}

static void plan(const char *what, const uint8_t *record, size_t record_len, lent l)
{
    printf("plan%s, %zu bytes, ", what, record_len);
    print_lent(&l);
    mardiskos_plan_result p =
        mardiskos_plan(record, record_len, l.list, l.len, l.work, l.work_len, l.marks, l.marks_len);
    print_plan(p, &l);
}

/* Each way from the record to a plan, with room and without; then with action 4, with room; then the plans of gate and
 * detour, that of the lift, with room and without, and that of the tray, which has no inserted move. */
static void plans(void)
{
    forward("", two_shelves, sizeof two_shelves, 4);
    forward("", two_shelves, sizeof two_shelves, 2);
    relax("", two_shelves, sizeof two_shelves, 4);
    relax("", two_shelves, sizeof two_shelves, 2);
    plan("", two_shelves, sizeof two_shelves, lend(6, 4, 5));
    plan("", two_shelves, sizeof two_shelves, lend(4, 3, 6));
    plan("", two_shelves, sizeof two_shelves, lend(4, 4, 3));
    plan("", two_shelves, 0, lend(0, 2, 3));
    forward(", with action 4", two_shelves_with_4, sizeof two_shelves_with_4, 4);
    relax(", with action 4", two_shelves_with_4, sizeof two_shelves_with_4, 4);
    plan(", with action 4", two_shelves_with_4, sizeof two_shelves_with_4, lend(6, 4, 4));
    plan(", gate", gate, sizeof gate, lend(8, 7, 8));
    plan(", detour", detour, sizeof detour, lend(6, 5, 7));
    plan(", lift", lift, sizeof lift, lend(6, 6, 6));
    plan(", lift", lift, sizeof lift, lend(5, 6, 6));
    plan(", lift", lift, sizeof lift, lend(8, 7, 5));
    plan(", tray", tray, sizeof tray, lend(2, 2, 3));
}

static void repair_in(const uint8_t *record, size_t record_len, const char *what, const uint16_t *actions, size_t count,
                      lent l)
{
    printf("repair, %s, ", what);
    print_lent(&l);
    mardiskos_plan_result p = mardiskos_repair(record, record_len, actions, count, l.list, l.len, l.work, l.work_len,
                                               l.marks, l.marks_len);
    print_plan(p, &l);
}

static void repair(const char *what, const uint16_t *actions, size_t count, lent l)
{
    repair_in(two_shelves, sizeof two_shelves, what, actions, count, l);
}

/* The marked steps of the lift's plan taken away, and what is left repaired. */
static void repair_unmarked(void)
{
    lent l = lend(6, 6, 6);
    uint16_t unmarked[ENTRIES];
    size_t count = 0;
    mardiskos_plan_result p =
        mardiskos_plan(lift, sizeof lift, l.list, l.len, l.work, l.work_len, l.marks, l.marks_len);
    for (uint32_t i = 0; i < p.steps; i++)
        if (l.marks[i] == 0)
            unmarked[count++] = l.list[i];
    puts("lift, marked steps taken away:");
    print_list("left", unmarked, count);
    repair_in(lift, sizeof lift, "lift, what is left", unmarked, count, lend(6, 6, 6));
}

static void repairs(void)
{
    repair("relaxed plan", relaxed, 3, lend(6, 6, 6));
    repair("relaxed plan", relaxed, 3, lend(3, 3, 3));
    repair("relaxed plan", relaxed, 3, lend(6, 6, 3));
    repair("repaired plan", repaired, 4, lend(4, 4, 4));
    repair("no such action", no_such_action, 3, lend(4, 4, 4));
    repair("does not apply", does_not_apply, 3, lend(4, 4, 4));
    repair("empty list", relaxed, 0, lend(4, 4, 4));
    repair_unmarked();
}

static size_t write_list(const char *what, const uint16_t *list, size_t list_len, const uint8_t *marks, size_t marks_len,
                         uint32_t edition, uint8_t *bytes, size_t len)
{
    memset(bytes, 255, len);
    mardiskos_sheet_size size =
        mardiskos_write_sheet(list, list_len, marks, marks_len, edition, 10, true, bytes, len);
    printf("sheet written%s, edition %" PRIu32 ", %zu marks, %zu bytes lent: ", what, edition, marks_len, len);
    print_code(size.code);
    printf("  %" PRIu32 " bytes\n", size.bytes);
    print_bytes("sheet", bytes, len);
    return size.bytes;
}

static size_t write_sheet(const uint8_t *marks, size_t marks_len, uint32_t edition, uint8_t *bytes, size_t len)
{
    return write_list("", repaired, 4, marks, marks_len, edition, bytes, len);
}

static void read_sheet(const char *what, const uint8_t *bytes, size_t bytes_len, size_t len, size_t marks_len)
{
    lent l = lend(len, 0, marks_len);
    mardiskos_sheet sheet = mardiskos_read_sheet(bytes, bytes_len, l.list, len, l.marks, marks_len);
    printf("sheet read, %s, %zu bytes, %zu entries, %zu marks lent: ", what, bytes_len, len, marks_len);
    print_code(sheet.code);
    printf("  %" PRIu32 " steps, cost %" PRIu32 ", edition %" PRIu32 ", %s\n", sheet.steps, sheet.cost, sheet.edition,
           sheet.real ? "real" : "not real");
    print_list("list", l.list, len);
    print_marks(l.marks, marks_len);
}

/* What is written of marks that are missing, others than 0 and 1, or too many. */
static void write_sheets(void)
{
    static const uint8_t marks[] = {0, 0, 1, 0, 1, 1}, others[] = {0, 0, 2}, all[] = {255, 128, 2, 1};
    uint8_t bytes[16];
    write_sheet(marks, 4, 2, bytes, 13);
    write_sheet(marks, 6, 2, bytes, 16);
    write_sheet(marks, 4, 1, bytes, 12);
    write_sheet(others, 3, 0, bytes, 13);
    write_sheet(others, 3, 3, bytes, 13);
    write_sheet(others, 3, UINT32_MAX, bytes, 13);
    write_sheet(others, 3, 1, bytes, 14);
    write_sheet(all, 4, 2, bytes, 14);
    write_sheet(marks, 0, 2, bytes, 13);
    write_sheet(marks, 4, 2, bytes, 12);
    write_sheet(marks, 4, 1, bytes, 11);
    write_list(", an entry above 1,023", too_large, 2, marks, 2, 2, bytes, 10);
}

static void read_sheets(void)
{
    static const uint8_t marks[] = {0, 0, 1, 0};
    static const uint8_t lift_sheet[] = {
        0x28, 0x00, 0x30, 0x00, 0x00, 0x00, 0x58, 0x00, 0x00, 0x50, 0x0c, 0x02, 0x40, 0x28, 0x02,
    };
    static const uint8_t mark_alone[] = {0x20, 0x00, 0x08, 0x00, 0x00, 0x00, 0x04};
    static const uint8_t mark_missing[] = {0x20, 0x00, 0x10, 0x00, 0x00, 0x00, 0x04, 0x05};
    uint8_t bytes[16];
    size_t len = write_sheet(marks, 4, 1, bytes, sizeof bytes);
    read_sheet("edition 1", bytes, len, 6, 6);
    read_sheet("edition 1", bytes, len, 3, 4);
    read_sheet("edition 1", bytes, len, 4, 3);
    read_sheet("edition 1", bytes, len - 1, 6, 6);
    read_sheet("edition 1", bytes, sizeof bytes, 6, 6);
    len = write_sheet(marks, 4, 2, bytes, sizeof bytes);
    read_sheet("edition 2", bytes, len, 6, 5);
    read_sheet("edition 2", bytes, len, 3, 4);
    read_sheet("edition 2", bytes, len, 4, 3);
    read_sheet("edition 2", bytes, len - 1, 6, 6);
    read_sheet("edition 2", bytes, sizeof bytes, 6, 6);
    bytes[len - 1] |= 1;
    read_sheet("edition 2, padding not 0", bytes, len, 6, 6);
    bytes[0] = 0x38;
    read_sheet("edition 3", bytes, len, 2, 6);
    bytes[0] = 0x08;
    read_sheet("edition 0", bytes, len, 6, 2);
    read_sheet("edition 2, lift", lift_sheet, sizeof lift_sheet, 7, 8);
    read_sheet("edition 2, cut off behind a mark", mark_alone, sizeof mark_alone, 2, 2);
    read_sheet("edition 2, cut off before a mark", mark_missing, sizeof mark_missing, 2, 2);
}

int main(void)
{
    begin_output();
    check_records();
    judge("repaired plan", repaired, 4);
    judge("relaxed plan", relaxed, 3);
    judge("empty list", relaxed, 0);
    judge("no such action", no_such_action, 3);
    newest_of_lists();
    plans();
    repairs();
    write_sheets();
    read_sheets();
    return end_output("check", 0);
}
