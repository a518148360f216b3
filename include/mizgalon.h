/*
 * mizgalon.h: resolves a SLEIGH semantic section into a list of p-code actions, and checks such lists.
 *
 * Link with libmizgalon.a (made by bindings/build, x86-64, needs memcpy and memset alone).
 *
 * Every function here takes any arguments: no file, no list and no number is undefined behaviour, as
 * long as each pointer has as many elements behind it as the length beside it says. Lengths count
 * elements, not bytes. Where a length is 0 the pointer is not used. Lent lists may hold anything
 * before the call; they and the result must not overlap each other or the file.
 *
 * Nothing is allocated, so there is nothing to free. There is no state: the functions can be called
 * from any number of threads at once. mizgalon_resolve needs up to 288 KiB of stack (261,872 bytes is
 * the most that was measured: macros 16 deep, expressions 32 deep); mizgalon_check needs 8 KiB.
 */
#ifndef MIZGALON_H
#define MIZGALON_H

#include <stdbool.h>
#include <stddef.h>
#include <stdint.h>

#ifdef __cplusplus
extern "C" {
#endif

/* Where a size, a name or an ordinal is absent, this number stands for it. */
#define MIZGALON_NONE 65535u

enum {
    MIZGALON_RESULT_NUMBERS = 12,   /* the result's length */
    MIZGALON_ACTION_WORDS = 24,     /* words of an action */
    MIZGALON_MAX_FILE = 65536,      /* bytes: a larger file is refused with 1 */
    MIZGALON_MAX_TEMPORARIES = 512, /* lending more words for temporaries is never needed */
    MIZGALON_MAX_ACTIONS = 262144   /* no section has more actions: docs/DECISIONS.md */
};

/* Places in the result. After a refusal all but the first two and, for 51, the errors are 0. */
enum {
    MIZGALON_REFUSAL = 0,       /* 0: accepted; else one of the refusals below */
    MIZGALON_ORDINAL = 1,       /* the statement refused, counted from 0 in file order, macro bodies
                                   included; MIZGALON_NONE if accepted, or if no statement is meant */
    MIZGALON_STATEMENTS = 2,    /* statements resolved, those of macro bodies once for each call */
    MIZGALON_ACTIONS = 3,       /* actions in the list */
    MIZGALON_TEMPORARIES = 4,   /* temporaries in the second list */
    MIZGALON_LABELS = 5,        /* labels placed */
    MIZGALON_POINTS = 6,        /* (2 * actions + temporaries + 5) / 10 */
    MIZGALON_ERRORS = 7,        /* errors recorded; not 0 only where the refusal is 51 */
    MIZGALON_EXPORT = 8,        /* 0 no export, 1 a value, 2 from RAM, 3 a register */
    MIZGALON_EXPORT_NUMBER = 9, /* the exported value, or the pointer: its two words, as in an action */
    MIZGALON_EXPORT_WORD = 10,
    MIZGALON_EXPORT_SIZE = 11   /* bytes that are accessed, for 2 and 3 */
};

/*
 * An action's 24 words:
 *
 *    0        its kind
 *    1        the operation, if the kind is MIZGALON_OP; else 0
 *    2        its number: the label of PcodeBranch and PcodeLabel, the user op of PcodeOp, which
 *             argument of Arg, the hint of Branch (0 jump, 1 call, 2 return), the subtable of a
 *             Build, the bytes accessed by LoadRegister and StoreRegister; else 0
 *    3        how many inputs there are
 *    4, 5     the output, a value; 0 and 255 for an operation without one, 0 and 0 for other actions
 *    6 .. 21  the inputs, two words each; words of absent inputs are 0
 *   22, 23    0
 */
enum {
    MIZGALON_OP = 0,
    MIZGALON_ADDRESS_OF = 1,     /* input 0 is the base, which has no size */
    MIZGALON_LOAD_REGISTER = 2,  /* input 0 is the pointer */
    MIZGALON_STORE_REGISTER = 3, /* input 0 is the pointer, input 1 the value */
    MIZGALON_DELAY_SLOT = 4,
    MIZGALON_BUILD = 5
};

/* A value is two words: its number, and kind + 256 * offset + 2^24 * size. */
enum {
    MIZGALON_INST_START = 0,
    MIZGALON_INST_NEXT = 1,
    MIZGALON_REGISTER = 2, /* the number is a place in the file's list of registers */
    MIZGALON_FIELD = 3,    /* in the list of fields */
    MIZGALON_SUBTABLE = 4, /* in the list of subtables: what the subtable exports */
    MIZGALON_SUBTABLE_REF = 5,
    MIZGALON_TEMPORARY = 6, /* in the second lent list */
    MIZGALON_CONSTANT = 7,  /* the number is the constant itself */
    MIZGALON_NO_VALUE = 255
};

static inline unsigned mizgalon_value_kind(uint64_t word) { return (unsigned)(word & 255); }
static inline unsigned mizgalon_value_offset(uint64_t word) { return (unsigned)(word >> 8 & 65535); }
/* In bytes, or MIZGALON_NONE. Size 0 is a real size. */
static inline unsigned mizgalon_value_size(uint64_t word) { return (unsigned)(word >> 24); }

/* A word of the second list: the temporary's name in the file's list of names, and its size; either
   can be MIZGALON_NONE. */
static inline unsigned mizgalon_temporary_name(uint64_t word) { return (unsigned)(word & 65535); }
static inline unsigned mizgalon_temporary_size(uint64_t word) { return (unsigned)(word >> 16); }

/* Operations. 33 to 38 are not used in lists: the greater operators become the less ones. */
enum {
    MIZGALON_INT_MUL = 0,
    MIZGALON_INT_DIV = 1,
    MIZGALON_INT_SIGNED_DIV = 2,
    MIZGALON_INT_REM = 3,
    MIZGALON_INT_SIGNED_REM = 4,
    MIZGALON_INT_ADD = 5,
    MIZGALON_INT_SUB = 6,
    MIZGALON_INT_LEFT = 7,
    MIZGALON_INT_RIGHT = 8,
    MIZGALON_INT_SIGNED_RIGHT = 9,
    MIZGALON_INT_SIGNED_LESS = 10,
    MIZGALON_INT_SIGNED_LESS_EQUAL = 11,
    MIZGALON_INT_LESS = 12,
    MIZGALON_INT_LESS_EQUAL = 13,
    MIZGALON_INT_EQUAL = 14,
    MIZGALON_INT_NOT_EQUAL = 15,
    MIZGALON_FLOAT_DIV = 16,
    MIZGALON_FLOAT_MUL = 17,
    MIZGALON_FLOAT_ADD = 18,
    MIZGALON_FLOAT_SUB = 19,
    MIZGALON_FLOAT_LESS = 20,
    MIZGALON_FLOAT_LESS_EQUAL = 21,
    MIZGALON_FLOAT_EQUAL = 22,
    MIZGALON_FLOAT_NOT_EQUAL = 23,
    MIZGALON_INT_AND = 24,
    MIZGALON_INT_XOR = 25,
    MIZGALON_INT_OR = 26,
    MIZGALON_BOOL_XOR = 27,
    MIZGALON_BOOL_AND = 28,
    MIZGALON_BOOL_OR = 29,
    MIZGALON_INT_CARRY = 30,
    MIZGALON_INT_SIGNED_CARRY = 31,
    MIZGALON_INT_SIGNED_BORROW = 32,
    MIZGALON_BOOL_NOT = 39,
    MIZGALON_INT_NOT = 40,
    MIZGALON_INT_NEGATE = 41,
    MIZGALON_FLOAT_IS_NAN = 42,
    MIZGALON_ZERO_EXTEND = 43,
    MIZGALON_SIGN_EXTEND = 44,
    MIZGALON_FLOAT_NEGATE = 45,
    MIZGALON_FLOAT_ABS = 46,
    MIZGALON_FLOAT_SQRT = 47,
    MIZGALON_FLOAT_CEIL = 48,
    MIZGALON_FLOAT_FLOOR = 49,
    MIZGALON_FLOAT_ROUND = 50,
    MIZGALON_FLOAT_TO_INT = 51,
    MIZGALON_INT_TO_FLOAT = 52,
    MIZGALON_UINT_TO_FLOAT = 53,
    MIZGALON_FLOAT_TO_FLOAT = 54,
    MIZGALON_INT_COUNT_ONES = 55,
    MIZGALON_INT_COUNT_LEADING_ZEROES = 56,
    MIZGALON_COPY = 57,
    MIZGALON_LOAD = 58,  /* input 0 is the pointer */
    MIZGALON_STORE = 59, /* input 0 is the pointer, input 1 the value */
    MIZGALON_BRANCH = 60, /* input 0 is the condition, input 1 the target */
    MIZGALON_PCODE_BRANCH = 61,
    MIZGALON_PCODE_LABEL = 62,
    MIZGALON_PCODE_OP = 63,
    MIZGALON_ARG = 64,
    MIZGALON_INVALID = 65
};

/*
 * Refusals. 1 to 6, and 12 where the subtables alone do not fit, have no ordinal.
 *
 *   the file
 *     1  empty, above 65,536 bytes, or not whole blocks of 512
 *     2  a block's check is wrong
 *   its stream: the first position that is wrong counts, then the lowest number
 *     3  cut off, an unknown code, or not zero after the end
 *     4  outside a limit, or the rule set is not 0
 *     5  an index that names nothing
 *     6  a spelling twice in the names, a second global of one name, or one name for two of the fields
 *        and subtables
 *   before a statement
 *    10  it would be statement number 4,097
 *    20  it follows an export
 *   limits, where they are met
 *    11  macros called more than 16 deep
 *    12  the actions, with one for each subtable, exceed the words lent for them; lend more
 *    13  more temporaries than words lent for them, or than 512
 *    14  more than 256 labels
 *   the statement
 *    21  redeclared                               32  constant pool
 *    22  undefined                                33  argument count of a built-in function
 *    23  a symbol of the wrong kind               34  a macro in an expression
 *    24  build of a table that is no subtable     35  subpiece argument
 *    25  delay slot argument                      36  slice past its end
 *    26  macro argument count                     37  target not assignable
 *    27  label placed twice                       38  const space
 *    28  store to no address                      39  no default space
 *    29  direct jump to a non-local               40  a space that is neither RAM nor registers
 *    30  address of a non-local                   41  constant or mask shifted by 64 bits or more
 *    31  address of a local at an offset          42  offset past 65,535
 *   the end, at the statement begun last
 *    50  a subpiece whose size is unknown
 *    51  errors were recorded; the ordinal is the first one's
 */

/*
 * Resolves the section in a file of file_length bytes.
 *
 * actions has actions_length words for actions and temporaries has temporaries_length words, one for
 * each temporary; result has 12 numbers. Every word of the three is written. After a refusal all lent
 * words are 0; after acceptance those behind the last action and the last temporary are.
 */
void mizgalon_resolve(const uint8_t *file, size_t file_length, uint64_t *actions, size_t actions_length,
                      uint64_t *temporaries, size_t temporaries_length, uint64_t *result);

/*
 * Whether a list of list_length words passes, whoever made it: it has so many actions, each laid out
 * as above with operands that have sizes by its operation's rule, zeros behind them, no label placed
 * twice and every one of so many subtables built. pointer_size is the address size of the file's
 * default space, or 8 if it has none.
 */
bool mizgalon_check(const uint64_t *list, size_t list_length, uint64_t actions, uint64_t temporaries,
                    uint64_t subtables, uint64_t pointer_size);

#ifdef __cplusplus
}
#endif

#endif
