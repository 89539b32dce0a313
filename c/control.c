/* A control program: hands over a record, gets a plan with its marks, writes the sheet, reads it back and judges what
 * it read. It prints the steps, inserted moves in brackets; the relaxed plan, which is the steps without these; the
 * steps that run for real, and the value that each variable then has. Arguments are record files; without any it takes
 * the two-shelves record that is built in. A refused record prints its number and place, and what they mean.
 * Ends with status 0 if every record has its plan, with 1 if a record was refused, with 2 if a file could not be
 * read or the output not be written, which a line on standard error says. */
#include "mardiskos.h"
#include "output.h"

#include <inttypes.h>

enum { PLANNED = 0, REFUSED = 1, FAILED = 2 };

static const uint8_t two_shelves[35] = {
    0x10, 0x40, 0x10, 0x18, 0x10, 0x02, 0x03, 0x00, 0x00, 0x10, 0x44, 0x00,
    0x00, 0x04, 0x00, 0x10, 0x44, 0x00, 0x40, 0x00, 0x00, 0x04, 0x84, 0x00,
    0x41, 0x04, 0x10, 0x80, 0x00, 0x48, 0x40, 0x00, 0x10, 0x81, 0x00,
};

/* One byte more than a record can have: a longer file is refused at the same place as its front. */
static uint8_t record[MARDISKOS_LONGEST_RECORD + 1];
static uint8_t sheet[MARDISKOS_LONGEST_SHEET];
static uint16_t plan[MARDISKOS_MOST_STEPS], work[MARDISKOS_MOST_STEPS], steps_read[MARDISKOS_MOST_STEPS];
static uint8_t marks[MARDISKOS_MOST_STEPS], marks_read[MARDISKOS_MOST_STEPS];
static uint16_t values[MARDISKOS_MOST_VARIABLES];

static int refuse(uint64_t code)
{
    unsigned number = MARDISKOS_NUMBER(code);
    printf("refused %u %" PRIu64 ": %s\n", number, MARDISKOS_PLACE(code), mardiskos_words(number));
    return REFUSED;
}

static const char *verdict(bool real)
{
    return real ? "real" : "unreal";
}

static void print_judgement(mardiskos_judgement judged)
{
    printf("judged: %s, %s, %s\n", judged.relaxed_plan ? "relaxed plan" : "no relaxed plan",
           judged.red_black_plan ? "red-black plan" : "no red-black plan",
           judged.real_plan ? "real plan" : "no real plan");
}

static void print_runs(const uint16_t *list, uint32_t runs)
{
    printf("runs %" PRIu32 ":", runs);
    for (uint32_t i = 0; i < runs; i++)
        printf(" %u", (unsigned)list[i]);
    puts("");
}

/* The steps that were read, the marked ones in brackets; then the others alone. */
static void print_marked(uint32_t steps)
{
    uint32_t inserted = 0;
    for (uint32_t i = 0; i < steps; i++)
        inserted += marks_read[i];
    printf("steps %" PRIu32 ", inserted %" PRIu32 ":", steps, inserted);
    for (uint32_t i = 0; i < steps; i++)
        printf(marks_read[i] ? " (%u)" : " %u", (unsigned)steps_read[i]);
    printf("\nrelaxed %" PRIu32 ":", steps - inserted);
    for (uint32_t i = 0; i < steps; i++)
        if (!marks_read[i])
            printf(" %u", (unsigned)steps_read[i]);
    puts("");
}

/* Of the steps that run for real, so that things are where they were put last. */
static int print_newest(size_t len, uint32_t runs)
{
    mardiskos_newest_values newest =
        mardiskos_newest(record, len, steps_read, runs, values, MARDISKOS_MOST_VARIABLES);
    if (newest.code != 0)
        return refuse(newest.code);
    printf("newest values:");
    for (size_t v = 0; v < MARDISKOS_MOST_VARIABLES && values[v] != 65535; v++)
        printf(" %u", (unsigned)values[v]);
    puts("");
    return PLANNED;
}

/* The sheet as whoever opens it later reads it, with the record beside it. */
static int open_sheet(size_t len, size_t sheet_len)
{
    mardiskos_sheet read = mardiskos_read_sheet(sheet, sheet_len, steps_read, MARDISKOS_MOST_STEPS, marks_read,
                                                MARDISKOS_MOST_STEPS);
    if (read.code != 0)
        return refuse(read.code);
    printf("read back: %" PRIu32 " steps, cost %" PRIu32 ", edition %" PRIu32 ", %s\n", read.steps, read.cost,
           read.edition, verdict(read.real));
    print_marked(read.steps);
    mardiskos_judgement judged = mardiskos_judge(record, len, steps_read, read.steps);
    if (judged.code != 0)
        return refuse(judged.code);
    print_judgement(judged);
    print_runs(steps_read, judged.real_steps);
    return print_newest(len, judged.real_steps);
}

static int control(const char *name, size_t len)
{
    printf("%s\n", name);
    uint64_t code = mardiskos_check(record, len);
    if (code != 0)
        return refuse(code);
    mardiskos_plan_result planned = mardiskos_plan(record, len, plan, MARDISKOS_MOST_STEPS, work, MARDISKOS_MOST_STEPS,
                                                   marks, MARDISKOS_MOST_STEPS);
    if (planned.code != 0)
        return refuse(planned.code);
    printf("plan: %" PRIu32 " steps, cost %" PRIu32 ", %s, %" PRIu32 " run, searches %" PRIu32 "\n", planned.steps, planned.cost,
           verdict(planned.real), planned.runs, planned.searches);
    mardiskos_sheet_size written = mardiskos_write_sheet(plan, planned.steps, marks, planned.steps, 2, planned.cost,
                                                         planned.real, sheet, MARDISKOS_LONGEST_SHEET);
    if (written.code != 0)
        return refuse(written.code);
    printf("sheet: %" PRIu32 " bytes\n", written.bytes);
    return open_sheet(len, written.bytes);
}

static int control_file(const char *name)
{
    FILE *file = fopen(name, "rb");
    size_t len = file != NULL ? fread(record, 1, sizeof record, file) : 0;
    bool failed = file == NULL || ferror(file);
    int why = errno;
    if (file != NULL)
        fclose(file);
    if (failed) {
        fprintf(stderr, "control: cannot read %s: %s\n", name, strerror(why));
        return FAILED;
    }
    return control(name, len);
}

int main(int argc, char **argv)
{
    int status = PLANNED;
    begin_output();
    if (argc < 2) {
        memcpy(record, two_shelves, sizeof two_shelves);
        status = control("two shelves", sizeof two_shelves);
    }
    for (int i = 1; i < argc; i++) {
        int next = control_file(argv[i]);
        if (status < next)
            status = next;
    }
    return end_output("control", status);
}
