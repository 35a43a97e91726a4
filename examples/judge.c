/* Judges a table file on a record file: judge TABLE RECORD
 *
 * Prints the program's line, `level 1 tested yes` or `refused 9 at 3`. The record is judged by both engines, and that they agree is asked of them here, although it is
 * proved. The status is 0 for a level, 1 for a refusal, and 2 where the command is wrong, a file cannot be read, or the engines differ. tools/c-example builds and
 * tries it.
 */
#include "xistomar.h"

#include <errno.h>
#include <stdio.h>
#include <string.h>

/* One byte more than the longest table, and than the longest record: a longer file is refused by what these hold of it, as the whole would be. */
enum {
    TABLE_MOST = XISTOMAR_TABLE_BYTES + 1,
    RECORD_MOST = 6 + 8 * XISTOMAR_LONGEST + 1
};

/* A file's first bytes, at most `most`, and how many they are; false, with a message, where the file cannot be read. */
static bool read_file(const char *kind, const char *name, uint8_t *bytes, size_t most, size_t *count)
{
    FILE *file = fopen(name, "rb");
    bool good = file != NULL;
    if (good) {
        *count = fread(bytes, 1, most, file);
        good = !ferror(file);
    }
    if (!good)
        fprintf(stderr, "judge: cannot read the %s %s: %s\n", kind, name, strerror(errno));
    if (file != NULL)
        fclose(file);
    return good;
}

/* Whether the plain engine, which needs no workspace, says the same: where the judge accepts, the same level and tested. */
static bool plain_agrees(const uint8_t *table, size_t table_bytes, const uint64_t *samples, size_t count, xistomar_judgement judged)
{
    xistomar_judgement plain = xistomar_plain_judge(table, table_bytes, samples, count);
    return judged.verdict.number != 0 || (plain.verdict.number == 0 && plain.level == judged.level && plain.tested == judged.tested);
}

/* Judges the table on the record, and says whether the engines agree. The table's refusals come before the record's: a refused record has no samples, and on none the
 * judge refuses the table itself or nothing. */
static xistomar_judgement judge(const uint8_t *table, size_t table_bytes, const uint8_t *record, size_t record_bytes, bool *agreed)
{
    static uint64_t samples[XISTOMAR_LONGEST];
    static uint64_t workspace[XISTOMAR_WORKSPACE];
    xistomar_reading reading = xistomar_read(record, record_bytes, samples, XISTOMAR_LONGEST);
    xistomar_judgement judgement = xistomar_judge(table, table_bytes, samples, reading.count, workspace, XISTOMAR_WORKSPACE);
    *agreed = plain_agrees(table, table_bytes, samples, reading.count, judgement);
    if (judgement.verdict.number == 0)
        judgement.verdict = reading.verdict;
    return judgement;
}

int main(int argc, char **argv)
{
    static uint8_t table[TABLE_MOST], record[RECORD_MOST];
    size_t table_bytes = 0, record_bytes = 0;
    if (argc != 3) {
        fputs("usage: judge TABLE RECORD\n", stderr);
        return 2;
    }
    if (!read_file("table", argv[1], table, sizeof table, &table_bytes) || !read_file("record", argv[2], record, sizeof record, &record_bytes))
        return 2;
    bool agreed = false;
    xistomar_judgement answer = judge(table, table_bytes, record, record_bytes, &agreed);
    if (!agreed) {
        fputs("judge: the two engines differ, which is a defect of Xistomar: please report the table and the record\n", stderr);
        return 2;
    }
    bool refused = answer.verdict.number != 0;
    if (refused)
        printf("refused %u at %zu\n", (unsigned)answer.verdict.number, answer.verdict.node);
    else
        printf("level %u tested %s\n", (unsigned)answer.level, answer.tested ? "yes" : "no");
    if (fflush(stdout) != 0) {
        fputs("judge: cannot write the answer\n", stderr);
        return 2;
    }
    return refused;
}
