/* The bay timing calculator for callers in C: four functions on byte slices, in the static library libbay.a (built by
 * bindings/c/build; it needs nothing but memcpy and memset of the C library).
 *
 * A slice is a pointer and a length. What holds for every function here:
 *  - FILE is any bytes of any length; the function reads them and changes nothing there. Only the first 4,096 bytes of a
 *    longer input matter: nothing longer than BAY_FILE_MOST bytes is a table.
 *  - The buffer may have any length. It must not overlap FILE.
 *  - No pointer is NULL, also where its length is 0.
 *  - There is nothing else to meet: every input has an answer, and each function ends.
 *  - A function touches no byte but those of the buffer that it says it writes, keeps no state and takes no memory from
 *    the heap, so that several threads may call it at once.
 * The library is proved to do what is said below; the compiler's back end, the linker and this header are not.
 *
 * "Number" is a refusal's number in the rules: 11 to 15 for bytes that are not a table, 1 to 5 for a table that breaks a
 * rule, 0 for an admitted table. Its place is two numbers: the offset and 0 for a file, the subsystem and the task for a
 * table (task 0: the subsystem itself; 0 0: the table as a whole), and 0 0 for an admitted table. Subsystems, tasks and
 * resources count from 1, and jobs from 0.
 */
#ifndef BAY_H
#define BAY_H

#include <stddef.h>
#include <stdint.h>

#ifdef __cplusplus
extern "C" {
#endif

#define BAY_FILE_MOST 3110  /* the bytes of the longest table */
#define BAY_TEXT_SIZE 2048  /* room for any text */
#define BAY_PLACE_SIZE 8    /* room for a place */
#define BAY_REPORT_SIZE 308 /* room for a report's figures */

/* A report's figures: 77 numbers of four bytes, high byte first, at these offsets. */
#define BAY_REPORT_NUMBER 0    /* the refusal's number, 0 where the table is admitted */
#define BAY_REPORT_FIRST 4     /* its place: the first number, */
#define BAY_REPORT_SECOND 8    /* and the second */
#define BAY_REPORT_ACCEPTED 12 /* 1 where every task passes and every row fits, else 0 */
#define BAY_REPORT_COUNT 16    /* N, the subsystems of an admitted table */
#define BAY_ROWS 8             /* then so many rows, of which the first N count */
#define BAY_ROW_SIZE 36
#define BAY_REPORT_ROW(s) (20 + BAY_ROW_SIZE * (s)) /* the row of subsystem s + 1 */

/* The figures of a row, from the row's offset on. */
#define BAY_ROW_HOLDING 0   /* X, the longest holding time */
#define BAY_ROW_FAILING 4   /* the first task that does not pass, 0 for none */
#define BAY_ROW_BLOCKING 8  /* B */
#define BAY_ROW_ACTIVE 12   /* L, the active period */
#define BAY_ROW_JOBS 16     /* how many jobs it has */
#define BAY_ROW_RESPONSE 20 /* R, the longest response */
#define BAY_ROW_JOB 24      /* the first job that reaches it */
#define BAY_ROW_RESOURCE 28 /* the lowest resource with which it does, 0 for none */
#define BAY_ROW_OUTCOME 32  /* one of these: */
#define BAY_NONE 0          /* no active period ends within the horizon; L, jobs, R, job and resource are 0 */
#define BAY_FITS 1          /* R is at most the period */
#define BAY_LATE 2          /* R is above the period */

/* Puts the text that the program prints for FILE at the start of BUF, and leaves the rest of BUF. Returns the number of
 * bytes of the text, which is never 0; or 0 where BUF_LEN is below BAY_TEXT_SIZE, whatever the file, and BUF is then as
 * it was. The text has no zero byte at its end. */
size_t bay_text(const uint8_t *file, size_t file_len, uint8_t *buf, size_t buf_len);

/* Reads FILE and judges its table. Returns the number. The two numbers of its place go to the first BAY_PLACE_SIZE bytes
 * of PLACE, four bytes each, high byte first, and the rest of PLACE stays; where PLACE_LEN is below BAY_PLACE_SIZE, PLACE
 * is as it was and the number is returned all the same. */
uint32_t bay_judge(const uint8_t *file, size_t file_len, uint8_t *place, size_t place_len);

/* Puts the figures of FILE's report into the first BAY_REPORT_SIZE bytes of BUF, at the offsets above, and leaves the
 * rest of BUF. A file or a table that is refused has its number and place and zero in every other figure. Returns
 * BAY_REPORT_SIZE; or 0 where BUF_LEN is below it, and BUF is then as it was. */
size_t bay_report(const uint8_t *file, size_t file_len, uint8_t *buf, size_t buf_len);

/* Reads FILE and writes its table back to the start of BUF, and leaves the rest of BUF. What is written is FILE again,
 * byte for byte, and its length is returned, also for a table that breaks a rule. Returns 0 where FILE is not a table
 * (numbers 11 to 15) or BUF_LEN is below its length, and BUF is then as it was. */
size_t bay_rewrite(const uint8_t *file, size_t file_len, uint8_t *buf, size_t buf_len);

/* The number that the four bytes from AT on spell, high byte first. */
static inline uint32_t bay_number(const uint8_t *at)
{
    return (uint32_t)at[0] << 24 | (uint32_t)at[1] << 16 | (uint32_t)at[2] << 8 | at[3];
}

#ifdef __cplusplus
}
#endif

#endif
