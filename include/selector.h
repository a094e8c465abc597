/* The column selector for C and C++: the functions of libselector.a, which `compare/library` makes for x86-64 Linux.
 *
 * A controller receives its neighbour's record, laid out as the neighbour lays it out, and puts every reading into its
 * own layout. A plan, built once from the two layouts, says how; a run of the plan does it for one record.
 * docs/FORMATS.md has the byte forms, the rules and the refusals.
 *
 * Proved of every call, whatever the bytes that it is lent: it ends, reads nothing outside of them, writes nothing but
 * the buffer that is lent for its result, and answers as crates/selector/specs defines. A refused call changes no byte
 * of that buffer. An accepted one writes its result from the buffer's start and changes no byte after it. A call
 * allocates no memory and keeps nothing for a later call, so that threads may call at the same time.
 *
 * Of C the archive needs memcpy, memmove and memset, and nothing else; examples/freestanding.c has the three for
 * firmware without a C library. Its code is position independent, uses the registers of the x86-64 baseline, SSE2 among
 * them, and the red zone below the stack pointer, as that system's calling convention allows.
 *
 * What is asked of the caller, and of the caller alone:
 *   - a pointer and the length after it give bytes that can be read, and that nothing else writes until the call
 *     returns; the buffer for a result can be written;
 *   - the buffer for a result overlaps none of the other arguments: a result can't be written over an input. The others
 *     may overlap each other;
 *   - where a length is 0 the pointer is not followed, so that it may be null or any other address (compare/c/empty
 *     tries it). No other pointer is null;
 *   - there is as much stack as the macro named at the function says.
 *
 * An answer is number * 2^32 + rest. The number is 0 where the call is accepted, and else says why it is refused. The
 * rest of an accepted build or run is the result's length; of another accepted call it is 0. The rest of a refusal is
 * its place:
 *   1 to 6          which layout or table was refused, counted from 1 in the order in which they are read;
 *   11 to 26, 28    the position of the target's top column, from 0;
 *   31, 32          the number of the plan's top selector, from 0;
 *   53              the position of the incoming top column, from 0;
 *   all others      0.
 * The tests are made in one order, and the first that applies is the answer. docs/FORMATS.md has the order, and of each
 * refusal what causes it and what to do about it; the numbers and words below are those of docs/refusals.txt.
 */
#ifndef SELECTOR_H
#define SELECTOR_H

#include <stddef.h>
#include <stdint.h>

#ifdef __cplusplus
extern "C" {
#endif

#define SELECTOR_NUMBER(answer) ((uint32_t)((uint64_t)(answer) >> 32))
#define SELECTOR_REST(answer) ((uint32_t)((uint64_t)(answer) & 0xFFFFFFFFu))

/* The longest that each thing may be, in bytes. A result is never longer. */
#define SELECTOR_LAYOUT_MAX 16384 /* and a table of defaults */
#define SELECTOR_PLAN_MAX 65536
#define SELECTOR_RECORD_MAX 16384

/* The most stack that a call takes, in bytes, as compiled here. compare/c/stack measures it, of reading compare/c/cost;
 * no proof counts it. */
#define SELECTOR_READ_STACK 16384
#define SELECTOR_BUILD_STACK 139264
#define SELECTOR_CHECK_STACK 188416
#define SELECTOR_RUN_STACK 196608

/* Refusals of a layout or a table of defaults. First its length is tested (4), then its mark and version (1). Then it
 * is read forward by byte, and the first of 2 to 5 and 50 that applies is the answer; 6 comes last. */
#define SELECTOR_UNKNOWN_MARK 1 /* not a known mark and version */
#define SELECTOR_ENDS_EARLY 2   /* the bytes end early */
#define SELECTOR_UNKNOWN_CODE 3 /* unknown type code, unit or required mark; of a table: unknown type code, unit, kind
                                   or load byte, a wrong precision or scale, a type that is no leaf, or a value that
                                   does not fit its type */
#define SELECTOR_TOO_LARGE 4    /* more than 16384 bytes, a name or zone of more than 63, or a type deeper than 16;
                                   of a table: more than 16384 bytes, or a zone of more than 63 */
#define SELECTOR_REPEATED 5     /* a column repeats a sibling's name or id; of a table: an entry repeats an id of its
                                   kind */
#define SELECTOR_BYTES_LEFT 6   /* bytes are left over */

/* Refusals of a build. */
#define SELECTOR_WRONG_VERSION 10      /* a layout of the wrong version */
#define SELECTOR_MISSING_COLUMN 11     /* a target column has no counterpart, and missing columns are not inserted */
#define SELECTOR_REPEATED_NAME 12      /* a struct repeats a field's name */
#define SELECTOR_EXTRA_FIELD 13        /* an incoming struct has a field that the target lacks, and such are not
                                          ignored */
#define SELECTOR_MISSING_FIELD 14      /* a target struct's field has no counterpart, and missing fields are not
                                          inserted */
#define SELECTOR_NULL_UPCAST 15        /* null to another type is not allowed */
#define SELECTOR_INTEGER_UPCAST 16     /* a cast between integers is not allowed */
#define SELECTOR_INTEGER_RANGE 17      /* the target's range lacks an incoming value */
#define SELECTOR_FLOAT_UPCAST 18       /* a cast to a wider float is not allowed */
#define SELECTOR_FLOAT_DOWNCAST 19     /* a cast to a narrower float is not allowed */
#define SELECTOR_INTEGER_TO_FLOAT 20   /* a cast of an integer to a float is not allowed */
#define SELECTOR_TIME_ZONE 21          /* a change of time zone is not allowed */
#define SELECTOR_TIME_UNIT 22          /* a change of time unit is not allowed */
#define SELECTOR_CATEGORY_TO_STRING 23 /* a cast of a category to a string is not allowed */
#define SELECTOR_TYPE_MISMATCH 24      /* no rule takes the one type to the other */
#define SELECTOR_ELEMENT_ID 25         /* the elements of two lists or arrays have different ids */
#define SELECTOR_DEFAULT_NOT_LOADED 26 /* the default wanted is a partition's value that could not be loaded */
#define SELECTOR_PLAN_TOO_LONG 27      /* the plan is longer than the buffer or 65536 bytes */
#define SELECTOR_DEFAULT_TYPE 28       /* the default taken has a type unlike the field's */

/* Refusals of a check, and so of a run. */
#define SELECTOR_MALFORMED_PLAN 30   /* malformed plan */
#define SELECTOR_NO_SUCH_POSITION 31 /* a selector takes a position that is not there */
#define SELECTOR_UNFIT_TRANSFORM 32  /* a transform does not fit its input, or its result is too deep or too large a
                                        type */
#define SELECTOR_OTHER_LAYOUT 33     /* names, types or count of the columns made differ from the target's */

/* Refusals of a run, after those of the check. */
#define SELECTOR_RECORD_ENDS 40     /* the record ends early */
#define SELECTOR_RECORD_BYTE 41     /* a bad presence or boolean byte in the record */
#define SELECTOR_RECORD_LEFT 42     /* bytes of the record are left over */
#define SELECTOR_RECORD_TOO_LONG 43 /* the record has more than 16384 bytes */
#define SELECTOR_OVERFLOW 44        /* a date-time is too large for its finer unit */
#define SELECTOR_OUTPUT_TOO_LONG 45 /* the output exceeds the buffer or 16384 bytes */

/* Refusals of decimals: 50 of a layout, 51 of a build, 52 of a run's record. */
#define SELECTOR_DECIMAL_LIMITS 50    /* a decimal's precision is not 1 to 18, or its scale is larger than its
                                         precision */
#define SELECTOR_DECIMAL_WIDENING 51  /* a cast to a decimal of larger precision is not allowed */
#define SELECTOR_DECIMAL_TOO_LARGE 52 /* a decimal of the record has more digits than its precision */

/* A refusal of a build, before its columns are matched. */
#define SELECTOR_EXTRA_COLUMN 53 /* an incoming column has no counterpart, and extra columns are not ignored */

/* Refusals of required fields: 54 of a build, 55 of a build and a check, 56 of a run's record. */
#define SELECTOR_MISSING_REQUIRED 54     /* a required field would be filled with null */
#define SELECTOR_OPTIONAL_TO_REQUIRED 55 /* an optional field meets a required one */
#define SELECTOR_RECORD_NULL 56          /* null in a required field of the record */

/* The policy word: a bit each, 1 allows; docs/policy.txt is the list. All other bits are ignored, and a later edition
 * may give one a meaning: a word that was made before SELECTOR_IGNORE_EXTRA_COLUMNS, bit 15, now refuses extra columns,
 * so make words of these names. SELECTOR_ALLOW_ALL has all of them, and grows with them. */
#define SELECTOR_ALLOW_NULL_UPCAST (UINT32_C(1) << 0)
#define SELECTOR_ALLOW_INTEGER_UPCAST (UINT32_C(1) << 1)
#define SELECTOR_ALLOW_FLOAT_UPCAST (UINT32_C(1) << 2)
#define SELECTOR_ALLOW_FLOAT_DOWNCAST (UINT32_C(1) << 3)
#define SELECTOR_ALLOW_INTEGER_TO_FLOAT (UINT32_C(1) << 4)
#define SELECTOR_ALLOW_TIME_ZONE (UINT32_C(1) << 5)
#define SELECTOR_ALLOW_NANOSECONDS_DOWNCAST (UINT32_C(1) << 6)
#define SELECTOR_ALLOW_MICROSECONDS_DOWNCAST (UINT32_C(1) << 7)
#define SELECTOR_ALLOW_MICROSECONDS_UPCAST (UINT32_C(1) << 8)
#define SELECTOR_ALLOW_MILLISECONDS_UPCAST (UINT32_C(1) << 9)
#define SELECTOR_ALLOW_CATEGORY_TO_STRING (UINT32_C(1) << 10)
#define SELECTOR_INSERT_MISSING_FIELDS (UINT32_C(1) << 11)
#define SELECTOR_IGNORE_EXTRA_FIELDS (UINT32_C(1) << 12)
#define SELECTOR_INSERT_MISSING_COLUMNS (UINT32_C(1) << 13)
#define SELECTOR_ALLOW_DECIMAL_WIDENING (UINT32_C(1) << 14)
#define SELECTOR_IGNORE_EXTRA_COLUMNS (UINT32_C(1) << 15)
#define SELECTOR_ALLOW_ALL UINT32_C(0xFFFF)

/* Reads a layout of version 1, 2 or 3 to its end. The answer is 0 where it is accepted. Refusals: 1 to 6, 50. The place
 * of 1 to 6 is 1. Stack: SELECTOR_READ_STACK. Time: grows with the bytes; a name or id is held against those
 * before it that fall beside it in a table, so that only layouts made for it take the square of the number of
 * columns. */
uint64_t selector_read_layout(const uint8_t *layout, size_t length);

/* Builds the plan that takes records of the incoming layout to the target layout, columns matched by name. Both are of
 * version 1. Where the zones of date-times are compared (21), no zone and the texts UTC, Etc/UTC and Z count as one;
 * the types are unequal all the same, and the plan has a cast. Refusals: 1 to 6, 10 to 24, 27, 50, 51, 53.
 * Stack: SELECTOR_BUILD_STACK. */
uint64_t selector_build_by_name(uint32_t policy, const uint8_t *incoming, size_t incoming_length,
                                const uint8_t *target, size_t target_length, uint8_t *plan, size_t plan_length);

/* The same by field id, with defaults for missing fields. Each layout is of version 2 or 3; a field that version 3
 * marks as required gets no null from an accepted plan. Of the table of defaults the entries of the owner count, and in
 * a table of version 1 all entries; of a partition's values the source index, from 0, picks one. Entries of other
 * owners change no answer, but a fault in one refuses the table. Refusals: 1 to 6, 10, 11, 13 to 28, 50, 51, 53 to 55.
 * Stack: SELECTOR_BUILD_STACK. */
uint64_t selector_build_by_number(uint32_t policy, uint32_t source_index, uint16_t owner,
                                  const uint8_t *incoming, size_t incoming_length,
                                  const uint8_t *target, size_t target_length,
                                  const uint8_t *defaults, size_t defaults_length, uint8_t *plan, size_t plan_length);

/* Checks that a plan takes records of the incoming layout to the target layout, and never null to a required field; the
 * layouts are of any version. Refusals: 1 to 6, 30 to 33, 50, 55. Stack: SELECTOR_CHECK_STACK. Time: bounded by a
 * polynomial in the bytes (docs/ARCHITECTURE.md, "Work and stack"), however large the types that a plan asks for. */
uint64_t selector_check_plan(const uint8_t *incoming, size_t incoming_length,
                             const uint8_t *target, size_t target_length, const uint8_t *plan, size_t plan_length);

/* Runs a plan over one record of the incoming layout and writes the record of the target layout. All of the check is
 * made first. Refusals: 1 to 6, 30 to 33, 40 to 45, 50, 52, 55, 56. A plan that passes the check, run over a record
 * that fits, can only be refused with 44 or 45. Stack: SELECTOR_RUN_STACK. Time: bounded likewise, however long the
 * output that a plan asks for: 44 is decided without it, and it is written no further than the limit. */
uint64_t selector_run(const uint8_t *incoming, size_t incoming_length, const uint8_t *target, size_t target_length,
                      const uint8_t *plan, size_t plan_length, const uint8_t *record, size_t record_length,
                      uint8_t *output, size_t output_length);

#ifdef __cplusplus
}
#endif

#endif
