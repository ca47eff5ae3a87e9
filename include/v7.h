/* libv7: the linker, nm, size, strip, the disassembler and the listings of v7, for C. v7(3) shows it in use; docs/LINK.md has the
 * rules of a link, and docs/FORMAT.md the format: `make install-lib` puts them below share/doc/v7, and the package for Debian below
 * /usr/share/doc/libv7-dev. The header needs C99, or C++98 with <stdint.h>.
 *
 * Each call takes bytes and gives bytes, and only a `struct v7_session` is kept for the next call. An object or a file is the bytes of
 * an a.out file. v7_run takes a list of objects, the bytes of each separately.
 *
 * Sizes are in bytes. A call takes memory from malloc and gives it back before it returns, but for what a session keeps. Calls share
 * nothing else, so threads may make them at once.
 *
 * Only these arguments can crash a program or spoil its memory. A pointer with a size over 0 is null, or not aligned for its type,
 * or has less than its size. Buffers overlap each other, *ANSWER, or what the call reads. A struct whose size is passed is smaller than
 * that. A pointer to a struct is null. A pointer of size 0 may be null. And of a `struct v7_session`: it is not all 0 before its first
 * call, something else than these calls changes it, a copy of it is used after a call had the other one, or two threads use it at once.
 * It may be moved, if what it was moved from is not used again. Without v7_session_free its memory is lost.
 *
 * A call writes its result at the beginning of a buffer of the caller; after the result the buffer stays as it was. If a
 * buffer is too small the fault is V7_NO_ROOM, nothing is written, and *ANSWER has the sizes that are needed. So a call with
 * buffers of size 0 asks for the sizes. With any other fault nothing is written either, and the sizes are 0.
 *
 * Each call returns a status as the program v7 does: 2 if there is a fault, and so no result, 1 if a link was made and there is
 * something to report, and otherwise 0. *ANSWER is always filled. docs/LINK.md has all limits.
 *
 * V7_NO_MEMORY comes only at a stage at which nothing is refused. A call takes memory after it has accepted the options, the
 * names and the sizes of parts, and for a file only if it is whole. So V7_NO_MEMORY never comes in place of 1 to 10, of 11
 * to 14 for a file, of two files the first. Before a link reads an object it enters the forced names: if there are none,
 * V7_NO_MEMORY does not come in place of 11 to 14 for the first object either. Once an object is accepted, memory may run out
 * there, and V7_NO_MEMORY may come in place of any later fault: the answer does not say which request failed.
 */
#ifndef V7_H
#define V7_H

#if !defined(__cplusplus) && (!defined(__STDC_VERSION__) || __STDC_VERSION__ < 199901L)
#error "v7.h needs C99 or later"
#endif

#include <stddef.h>
#include <stdint.h>

/* The version of this header. Until 1.0 a new minor version may change a call, and the number after .so then changes too. */
#define V7_VERSION "0.4.0"
#define V7_VERSION_NUMBER 0x000400

#ifdef __cplusplus
extern "C" {
#endif

enum v7_fault {
    V7_NO_FAULT = 0,
    /* what is asked for */
    V7_NO_OPTION = 1,          /* a bit of OPTIONS is not an option */
    V7_EXCLUDED = 2,           /* options exclude each other: V7_RELOCATABLE and V7_STRIP, V7_PURE or V7_SPLIT; V7_PURE and V7_SPLIT */
    V7_LONG_NAME = 3,          /* the name of the entry point has more than 8 bytes */
    V7_CUT_NAMES = 4,          /* the size of the forced names is not a multiple of 8 */
    V7_MANY_NAMES = 5,         /* more than 64 different names are forced; `place` is the number of the first too many */
    V7_TOO_LONG = 6,           /* more than 32,767 words of text or data, 65,535 bytes of bss, or 5,461 symbols; `word` is the part */
    V7_SHORT_STRUCT = 7,       /* the `size` of a request or a result is too small for what is wanted, as one that was not set */
    V7_NO_SESSION = 8,         /* no session is begun */
    V7_NO_WANT = 9,            /* a bit of `wants` is no want */
    V7_SESSION_OPEN = 10,      /* a session is begun already */
    /* the bytes of a file */
    V7_SHORT_HEADER = 11,      /* fewer than 16 bytes */
    V7_BAD_MAGIC = 12,         /* the first word is none of 0405, 0407, 0410 and 0411 */
    V7_ODD_SIZE = 13,          /* text, data or bss of an odd size, or a symbol table of a size that 12 does not divide */
    V7_TRUNCATED = 14,         /* fewer bytes than the header announces */
    /* an object */
    V7_NOT_AN_OBJECT = 21,     /* the magic is not 0407 */
    V7_NO_RELOCATION = 22,     /* relocation was stripped */
    V7_BAD_RELOCATION = 23,    /* the relocation word of the word `word` has none of the five kinds */
    V7_BAD_SYMBOL_NUMBER = 24, /* its symbol number is not that of an undefined external symbol */
    /* an object together with those before it */
    V7_TEXT_FULL = 31,         /* the text would pass 65,534 bytes in all */
    V7_DATA_FULL = 32,         /* the data would pass them */
    V7_BSS_FULL = 33,          /* bss would pass them */
    V7_NAMES_FULL = 34,        /* there would be more than 65,535 external names */
    V7_NOTHING = 35,           /* a session has no object to withdraw */
    V7_NOT_KEPT = 36,          /* a session does not have what is wanted: V7_PLACES or V7_MAP */
    /* the link */
    V7_DOES_NOT_FIT = 41,      /* the program would end past 65,535 */
    V7_TOO_MANY_SYMBOLS = 42,  /* its table would have more than 5,461 symbols */
    V7_SYMBOL_NUMBER = 43,     /* with V7_RELOCATABLE, a word refers to a name with a number over 4,095 */
    /* the caller's machine */
    V7_NO_MEMORY = 50,         /* malloc gave none */
    V7_NO_ROOM = 60,           /* a buffer is too small */
    /* the first mistake of a listing: `place` is its line and `word` its column, both counted from 1 */
    V7_NO_COLUMN = 61,         /* a column is missing */
    V7_NOT_OCTAL = 62,         /* a number has a byte that is not an octal digit */
    V7_TOO_LARGE = 63,         /* a number is over 0177777 */
    V7_BAD_NAME = 64,          /* a byte of a name does not print or follows a NUL, or after a backslash are not three octal digits up to 377 */
    V7_WRONG_ADDRESS = 65,     /* the address is not that of the next word */
    V7_WRONG_NUMBER = 66,      /* the number is not that of the next symbol */
    V7_TOO_MANY_WORDS = 67,    /* the section has 32,767 words already */
    V7_TABLE_FULL = 68,        /* the table has 5,461 symbols already */
    V7_NO_SECTION = 69,        /* a number comes before the first section */
    V7_UNKNOWN_WORD = 70,      /* no line begins with this word */
    V7_OUT_OF_ORDER = 71,      /* text, data and symbols are not in this order, once each */
    V7_TOO_LATE = 72,          /* the magic number or the flag comes after the first section */
    V7_AFTER_TABLE = 73,       /* a word comes after the symbols */
    V7_NO_MAGIC = 74,          /* no file has this magic number */
    V7_ODD_BSS = 75,           /* the size of bss is odd */
    V7_LONG_SYMBOL = 76,       /* a name has more than 8 bytes */
    V7_EXTRA_NUMBER = 77,      /* a remark on a word begins with a number */
    V7_STRAY_BYTE = 78,        /* a byte below 040, other than a tab, a newline, and a carriage return before one */
    V7_AFTER_END = 79,         /* after `end` comes another line than a comment */
    V7_NO_END = 80,            /* the listing has the head that v7-explain writes, and not the line `end`: it was cut */
    /* an object in GNU's form: `place` is the byte of the file, and `word` a number, as said here */
    V7_BAD_STRINGS = 81,       /* the strings have a length under 4 */
    V7_OVERLAY = 82,           /* the symbol of number `word` belongs to an overlay */
    V7_BAD_PLACE = 83,         /* its name is at no place of the strings */
    V7_STAB = 84,              /* it is for a debugger, and V7_DROP_DEBUGGER is not asked for */
    V7_DESCRIPTION = 85,       /* it has a description, and is not for a debugger */
    V7_LINKED = 86,            /* there is no relocation, and the entry point `word`: this is a linked program */
    V7_ALIKE_NAMES = 87,       /* the names of this external, and of the one at `place`, are equal in eight bytes */
    V7_STAB_WORD = 88,         /* the word of number `word` refers to a symbol for a debugger */
    V7_LOCAL_WORD = 89         /* it refers to a local that is dropped */
};

/* What a fault means, in a few words. Another number gives "unknown fault". */
static inline const char *v7_strerror(uint32_t fault)
{
    switch (fault) {
    case V7_NO_FAULT:
        return "no fault";
    case V7_NO_OPTION:
        return "no such option";
    case V7_EXCLUDED:
        return "options exclude each other";
    case V7_LONG_NAME:
        return "the name of the entry point has more than 8 bytes";
    case V7_CUT_NAMES:
        return "the size of the forced names is not a multiple of 8";
    case V7_MANY_NAMES:
        return "more than 64 names are forced";
    case V7_TOO_LONG:
        return "too many words, bytes of bss or symbols";
    case V7_SHORT_STRUCT:
        return "a struct is too short";
    case V7_NO_SESSION:
        return "no session";
    case V7_NO_WANT:
        return "no such want";
    case V7_SESSION_OPEN:
        return "a session already";
    case V7_SHORT_HEADER:
        return "short header";
    case V7_BAD_MAGIC:
        return "bad magic number";
    case V7_ODD_SIZE:
        return "odd size";
    case V7_TRUNCATED:
        return "truncated";
    case V7_NOT_AN_OBJECT:
        return "not an object";
    case V7_NO_RELOCATION:
        return "no relocation";
    case V7_BAD_RELOCATION:
        return "bad relocation";
    case V7_BAD_SYMBOL_NUMBER:
        return "bad symbol number";
    case V7_TEXT_FULL:
        return "text full";
    case V7_DATA_FULL:
        return "data full";
    case V7_BSS_FULL:
        return "bss full";
    case V7_NAMES_FULL:
        return "names full";
    case V7_NOTHING:
        return "nothing to withdraw";
    case V7_NOT_KEPT:
        return "not kept by a session";
    case V7_DOES_NOT_FIT:
        return "does not fit";
    case V7_TOO_MANY_SYMBOLS:
        return "too many symbols";
    case V7_SYMBOL_NUMBER:
        return "symbol number too large";
    case V7_NO_MEMORY:
        return "no memory";
    case V7_NO_ROOM:
        return "no room";
    case V7_NO_COLUMN:
        return "a column is missing";
    case V7_NOT_OCTAL:
        return "not an octal number";
    case V7_TOO_LARGE:
        return "over 177777";
    case V7_BAD_NAME:
        return "bad byte in a name";
    case V7_WRONG_ADDRESS:
        return "the address does not follow";
    case V7_WRONG_NUMBER:
        return "the number does not follow";
    case V7_TOO_MANY_WORDS:
        return "more than 32767 words";
    case V7_TABLE_FULL:
        return "more than 5461 symbols";
    case V7_NO_SECTION:
        return "text, data or symbols is missing";
    case V7_UNKNOWN_WORD:
        return "unknown word";
    case V7_OUT_OF_ORDER:
        return "text, data and symbols are not in this order";
    case V7_TOO_LATE:
        return "magic and flag come before text, data and symbols";
    case V7_AFTER_TABLE:
        return "only symbols can follow symbols";
    case V7_NO_MAGIC:
        return "no such magic number";
    case V7_ODD_BSS:
        return "odd size of bss";
    case V7_LONG_SYMBOL:
        return "more than 8 bytes in a name";
    case V7_EXTRA_NUMBER:
        return "one number too many";
    case V7_STRAY_BYTE:
        return "a control character";
    case V7_AFTER_END:
        return "only comments can follow end";
    case V7_NO_END:
        return "the line end is missing: the listing was cut";
    case V7_BAD_STRINGS:
        return "the strings have a length under 4";
    case V7_OVERLAY:
        return "a symbol belongs to an overlay";
    case V7_BAD_PLACE:
        return "a symbol has its name at no place of the strings";
    case V7_STAB:
        return "a symbol is for a debugger";
    case V7_DESCRIPTION:
        return "a symbol has a description, and is not for a debugger";
    case V7_LINKED:
        return "a linked program";
    case V7_ALIKE_NAMES:
        return "two names are equal in eight bytes";
    case V7_STAB_WORD:
        return "a word refers to a symbol for a debugger";
    case V7_LOCAL_WORD:
        return "a word refers to a local that is dropped";
    default:
        return "unknown fault";
    }
}

struct v7_answer {
    uint32_t fault;     /* of enum v7_fault */
    uint32_t word;      /* V7_BAD_RELOCATION, V7_BAD_SYMBOL_NUMBER: the index of the word, text before data, from 0. V7_TOO_LONG:
                         * the first part that is too long, of enum v7_part. 61 to 80: the column, or 0xffffffff if it is larger.
                         * v7_from_gnu: with V7_BAD_MAGIC the word that is there, with V7_ODD_SIZE the part, with
                         * V7_TOO_MANY_SYMBOLS how many symbols stay, and with 82 to 89 as described there. Otherwise 0 */
    size_t place;       /* a number, counted from 0. For the faults 11 to 34 of a link it is that of the object, and for
                         * V7_MANY_NAMES that of the name. For 61 to 80 it is the line, counted from 1. For v7_from_gnu it is the
                         * byte of the file. For v7_places it is 1 if the fault is in the object. For V7_NO_MEMORY it is that of an
                         * object which the call reached, or 0. Otherwise 0 */
    size_t size;        /* the size of the result, for v7_places the number of places; 0 for v7_take_apart and v7_read */
    size_t report_size; /* for v7_remarks the number of remarks; otherwise 0 */
};

/* The part of an object that is too long, or of a file that a remark is about. */
enum v7_part { V7_TEXT_PART = 1, V7_DATA_PART = 2, V7_BSS_PART = 3, V7_SYMBOLS_PART = 4 };

/* The version of the library: 65,536 for each major version, 256 for each minor version, and the patch. It is V7_VERSION_NUMBER if
 * the library is that of this header. */
uint32_t v7_version(void);

/* Checks whether BYTES begin with an object, which can be linked. The size is then that of the object, so the next object of a
 * list begins there. Faults: 11 to 14, 21 to 24, V7_NO_MEMORY. */
uint32_t v7_check(const unsigned char *bytes, size_t size, struct v7_answer *answer);

/* Writes the file that BYTES begin with, without its symbols and relocation. Faults: 11 to 14, V7_NO_MEMORY, V7_NO_ROOM. */
uint32_t v7_strip(const unsigned char *bytes, size_t size, unsigned char *room, size_t room_size, struct v7_answer *answer);

/* Writes the list of the symbols of the file that BYTES begin with, as `v7 nm` prints it: one line for each symbol, with its
 * newline. No NUL ends the text. Faults: V7_NO_OPTION, 11 to 14, V7_NO_MEMORY, V7_NO_ROOM. */
enum v7_nm_option {
    V7_NM_EXTERNAL = 1,    /* -g: only externals */
    V7_NM_BY_VALUE = 2,    /* -n: by value, then by name */
    V7_NM_TABLE_ORDER = 4, /* -p: in the order of the table, whatever else is asked for */
    V7_NM_REVERSE = 8,     /* -r: in reverse order */
    V7_NM_UNDEFINED = 16   /* -u: only undefined names */
};
uint32_t v7_nm(uint32_t options, const unsigned char *bytes, size_t size, unsigned char *room, size_t room_size, struct v7_answer *answer);

/* Writes the sizes of text, data and bss of the file that BYTES begin with, and their sum in decimal and in octal, as
 * `v7 size` prints them: one line with its newline. Faults: 11 to 14, V7_NO_MEMORY, V7_NO_ROOM. */
uint32_t v7_size(const unsigned char *bytes, size_t size, unsigned char *room, size_t room_size, struct v7_answer *answer);

/* Writes the text of the file that BYTES begin with as instructions, with names and labels, as `v7-explain -p` prints it without
 * notes; v7-explain(1) describes the notation. What follows `sys` is shown like other words, not as arguments. A line is the address,
 * two blanks, one to three words in 20 columns, two blanks, the instruction, and a newline; labels have lines of their own, and a line
 * ends before the next one. Of more than eight words 0 a line that begins with `/` counts all but the first. Remarks may follow, each
 * after ` / `. All numbers but that count are octal. Faults: 11 to 14, V7_NO_MEMORY, V7_NO_ROOM. */
uint32_t v7_disassemble(const unsigned char *bytes, size_t size, unsigned char *room, size_t room_size, struct v7_answer *answer);

/* Writes WORDS as instructions in the same columns, without names and labels. The first word is at ADDRESS, and the address after
 * 0177776 is 0. A word that begins no instruction is a line of its own, and so is one if the words end before its instruction does.
 * Faults: V7_NO_MEMORY, only if there are words, and V7_NO_ROOM. */
uint32_t v7_disassemble_words(uint16_t address, const uint16_t *words, size_t word_count, unsigned char *room, size_t room_size,
                              struct v7_answer *answer);

/* Writes the listing of the file that BYTES begin with, as `v7-explain` prints it without its notes, which are the lines that begin
 * with a slash. v7_from_listing gives the bytes of that file again, but for what follows a NUL in a name. No NUL ends the text.
 * Faults: 11 to 14, V7_NO_MEMORY, V7_NO_ROOM. */
uint32_t v7_list(const unsigned char *bytes, size_t size, unsigned char *room, size_t room_size, struct v7_answer *answer);

/* Writes the file that a listing describes, as `v7-object` does: v7-object(1) has the form. TEXT may have notes and remarks, which are
 * not read. Faults: 61 to 80 for the first mistake, V7_NO_ROOM. V7_NO_MEMORY comes once all lines before a word, a symbol or a second
 * mistake are read. */
uint32_t v7_from_listing(const unsigned char *text, size_t size, unsigned char *room, size_t room_size, struct v7_answer *answer);

/* Writes the object that BYTES, an object of GNU's assembler, become, as `v7-from-gnu` does. Faults, the first that applies:
 * V7_NO_OPTION, 11 to 14, 81 to 86, V7_TOO_MANY_SYMBOLS, 87 to 89, and 21 to 24. V7_BAD_MAGIC is for all but 0407, and V7_ODD_SIZE for
 * a table that 8 does not divide. V7_NO_MEMORY comes in place of any but V7_NO_OPTION, 11 to 14 and 81, and V7_NO_ROOM last. */
enum v7_gnu_option {
    V7_DROP_DEBUGGER = 1, /* -S: drops symbols for a debugger */
    V7_DROP_UNUSED = 2,   /* -X: drops locals to which no word refers by number */
    V7_DROP_LOCALS = 4    /* -x: drops all locals; wins over the one before */
};
uint32_t v7_from_gnu(uint32_t options, const unsigned char *bytes, size_t size, unsigned char *room, size_t room_size,
                     struct v7_answer *answer);

/* Reports what is wrong in BYTES, and then what is odd and what is suspicious in the file that they begin with, as `v7-explain` does:
 * REMARKS gets a record for each, and TEXTS their texts, one after another without newlines. TEXT_ROOM is in bytes, and REMARK_ROOM
 * in remarks; both are written or neither. The status is 1 if something is wrong, 2 if there is a fault, and otherwise 0. Faults:
 * V7_NO_MEMORY, V7_NO_ROOM. */
enum v7_remark_kind {
    /* wrong: the bytes are not a file, or its words make the linker refuse it */
    V7_REMARK_SHORT_HEADER = 1,
    V7_REMARK_BAD_MAGIC = 2,
    V7_REMARK_ODD_SIZE = 3,
    V7_REMARK_TRUNCATED = 4,
    V7_REMARK_BAD_RELOCATION = 5,
    V7_REMARK_BAD_SYMBOL_NUMBER = 6,
    V7_REMARK_MORE_BAD_WORDS = 7,
    /* odd: not refused, but unusual */
    V7_REMARK_IGNORED_ENTRY = 8,
    V7_REMARK_IGNORED_WORD = 9,
    V7_REMARK_BYTES_AFTER_TABLE = 10,
    V7_REMARK_IGNORED_RELOCATION_BITS = 11,
    V7_REMARK_OUTSIDE_REFERENCE = 12,
    V7_REMARK_EMPTY_NAME = 13,
    V7_REMARK_UNPRINTABLE_NAME = 14,
    V7_REMARK_BYTES_AFTER_NAME = 15,
    V7_REMARK_REPEATED_NAME = 16,
    V7_REMARK_IGNORED_TYPE_BITS = 17,
    V7_REMARK_UNKNOWN_TYPE = 18,
    V7_REMARK_ODD_COMMON = 19,
    V7_REMARK_OUTSIDE_VALUE = 20,
    /* suspicious: instructions that an assembler does not write */
    V7_REMARK_RELOCATED_FIRST_WORD = 21,
    V7_REMARK_UNSUITABLE_PC_BIT = 22,
    V7_REMARK_CUT_INSTRUCTION = 23,
    V7_REMARK_NO_INSTRUCTION = 24,
    V7_REMARK_BRANCH_OUTSIDE = 25,
    V7_REMARK_BRANCH_WITHIN = 26,
    V7_REMARK_UNSUITABLE_REFERENCE = 27,
    V7_REMARK_UNSUITABLE_ADDRESS = 28,
    V7_REMARK_ABSOLUTE_TEXT = 29,
    /* odd */
    V7_REMARK_NO_ROOM = 30,
    V7_REMARK_UNUSED_NAME = 31,
    /* suspicious */
    V7_REMARK_UNSUITABLE_JUMP = 32,
    V7_REMARK_ODD_OPERAND = 33,
    V7_REMARK_NO_END = 34,
    /* odd */
    V7_REMARK_SIMILAR_NAME = 35,
    /* suspicious */
    V7_REMARK_UNSUITABLE_LINK = 36
};
struct v7_remark {
    size_t place;     /* the byte of the file, from 0 */
    size_t text;      /* where its text begins in TEXTS */
    size_t text_size;
    uint32_t kind;    /* of enum v7_remark_kind */
    uint32_t part;    /* of enum v7_part: the part that has the byte, or the word to which it is the relocation; 0 for another byte */
    uint32_t word;    /* the index of that word, text before data, from 0, or the number of the symbol; otherwise 0 */
};
uint32_t v7_remarks(const unsigned char *bytes, size_t size, unsigned char *texts, size_t text_room, struct v7_remark *remarks,
                    size_t remark_room, struct v7_answer *answer);

/* Tells where the object that OBJECT begins with is in the file that PROGRAM begins with: PLACES gets a record for each address of the
 * text at which the object fits, in order. It fits if there are addresses of its segments, and one of each name that it leaves undefined,
 * by which a link makes of its words those that are there. So an object fits where it was linked, and a short one may fit elsewhere too.
 * One without text has one record, for the first of these addresses. PROGRAM may be stripped: its relocation and symbols are not looked
 * at. PLACE_ROOM is in places. Where relocated words fit at most addresses, the time grows with the text of PROGRAM times its data. Faults,
 * the first that applies: 11 to 14 for PROGRAM; 11 to 14 and 21 to 24 for OBJECT, with 1 as `place`; V7_NO_MEMORY, but in place of none
 * for PROGRAM; V7_NO_ROOM. */
struct v7_place {
    uint16_t text;     /* the address of the object's text */
    uint16_t data;     /* that of its data, if there is one alone; otherwise 0 */
    uint16_t has_data; /* 1 if there is; 0 if the object has no data, or its data may be at several addresses */
};
uint32_t v7_places(const unsigned char *program, size_t program_size, const unsigned char *object, size_t object_size,
                   struct v7_place *places, size_t place_room, struct v7_answer *answer);

/* v7_run links objects, as `v7 ld` does. It takes the bytes of each object separately, and what
 * follows an object in its bytes is not looked at, so an object that is cut short is refused itself. Request and result begin with their
 * sizes: set these to `sizeof`, and set all fields; what is 0 asks for nothing. A later library may know longer structs. This one takes
 * shorter results too, and does not touch what they lack, but for the fields before `file`, which every result has: without V7_MAP one
 * may end after `place_room`, without V7_PLACES too after `finding_room`, and without V7_FINDINGS too after `report_room`. The size of a
 * buffer is counted in what it holds: bytes, findings, places or records. */
enum v7_link_option {
    V7_RELOCATABLE = 1,   /* -r: keeps relocation, so that the result is an object */
    V7_STRIP = 2,         /* -s: keeps no symbols; wins over the next two */
    V7_EXTERNALS = 4,     /* -x: keeps only externals; wins over the next one */
    V7_NOT_L = 8,         /* -X: keeps all but the locals that begin with L */
    V7_PURE = 16,         /* -n: data begins at the next multiple of 020000 */
    V7_SPLIT = 32,        /* -i: text and data both begin at 0 */
    V7_FORCE_COMMONS = 64 /* -d: lays commons out with V7_RELOCATABLE too */
};
struct v7_slice {
    const unsigned char *bytes;
    size_t size;
};
enum v7_want {
    V7_REPORT = 1,   /* the report as lines */
    V7_FINDINGS = 2, /* the report as a list */
    V7_PLACES = 4,   /* the objects of each finding, in the same order */
    V7_MAP = 8       /* the map */
};
enum v7_finding_kind {
    V7_MULTIPLY_DEFINED = 1,  /* a further definition of the name differs from the first; once for each that does */
    V7_RESERVED_NAME = 2,     /* the name is _etext, _edata or _end, and an object defines it or makes it a common */
    V7_ENTRY_NOT_IN_TEXT = 3, /* the name is that of the entry point, and it is not in text */
    V7_UNDEFINED_NAME = 4     /* nothing defines the name; this is not reported with V7_RELOCATABLE */
};
struct v7_finding { /* a name that is reported, in the order of the report's lines */
    unsigned char name[8]; /* filled up with NULs */
    uint32_t kind;         /* of enum v7_finding_kind */
};
/* The objects of a finding, by their numbers in `objects`; SIZE_MAX if there is none. */
struct v7_finding_place {
    size_t first;   /* the first object that defines the name; if none does, the first that has a symbol of it */
    size_t further; /* for V7_MULTIPLY_DEFINED, the object of this further definition */
};
/* The map of a link, as `v7-explain -m` shows it; v7-explain(1) describes it. Objects, names and uses are numbered from 0. */
struct v7_map_head {
    uint64_t text_end; /* where the segments are; commons are before bss. All are 0 if an object is refused */
    uint64_t data_start;
    uint64_t data_end;
    uint64_t bss_start;
    uint64_t bss_end;
    size_t place;          /* the number of the object that is refused */
    uint32_t fault;        /* 0 if the link is made; else 31 to 34 for an object, or 41 to 43 */
    uint32_t state;        /* 1: there is something to report; 2: the entry point is not in text */
    uint16_t magic;        /* of a link that is made */
    uint16_t entry_point;
    unsigned char entry_name[8]; /* the name of an entry point that is not in text, filled up with NULs */
};
struct v7_map_object {
    uint64_t text; /* where its segments begin; if an object is refused, counted from 0 in each segment */
    uint64_t data;
    uint64_t bss;
    size_t symbols;
    uint16_t text_size;
    uint16_t data_size;
    uint16_t bss_size;
};
enum v7_map_name_state {
    V7_NAME_IS_PLACED = 1,   /* the table of the link has it; else type and value are 0 */
    V7_NAME_IS_UNDEFINED = 2,
    V7_NAME_IS_MULTIPLE = 4  /* it is multiply defined */
};
struct v7_map_name { /* sorted by their bytes, as unsigned numbers */
    unsigned char name[8];
    size_t definer;      /* the object that defines it first, or SIZE_MAX */
    size_t next_definer; /* the object that defines it next, likewise */
    size_t user;         /* the first object with a symbol of the name that does not define it, likewise */
    uint32_t state; /* bits of enum v7_map_name_state */
    uint16_t type;  /* as in struct v7_symbol */
    uint16_t value;
};
enum v7_map_use_kind {
    V7_DEFINES = 1,      /* a symbol that defines the name */
    V7_MAKES_COMMON = 2, /* one that makes it a common, with its size as `offset` */
    V7_WANTS = 3,        /* another symbol */
    V7_FORCES = 4,       /* a forced name */
    V7_TEXT_WORD = 5,    /* a word of text, or of data, that leads to the name */
    V7_DATA_WORD = 6,
    V7_TEXT_NEAR = 7,    /* one that leads beyond it and to no other name, and so may reach what it names */
    V7_DATA_NEAR = 8
};
struct v7_map_use { /* those of a name one after another, in the order of the objects; words follow their symbol */
    uint64_t address; /* of a word, in the program */
    size_t object;    /* SIZE_MAX for a forced name */
    size_t name;
    unsigned char label[8]; /* the label before the line of a word */
    uint32_t kind;          /* of enum v7_map_use_kind */
    uint16_t offset;        /* of a word, in its part; else the value of the symbol */
    uint16_t line;          /* where the line begins that has the word, in its part: an instruction or a word of text, or a word of data */
    uint16_t beyond;        /* how many bytes after the label that is */
    uint16_t is_labelled;   /* whether there is a label */
    uint16_t inside;        /* how many bytes beyond the name a word leads */
};
enum v7_map_limit_kind {
    V7_LIMIT_TEXT = 1,
    V7_LIMIT_DATA = 2,
    V7_LIMIT_BSS = 3,
    V7_LIMIT_END = 4,     /* the end of bss; this one and those after it only if no object is refused */
    V7_LIMIT_SYMBOLS = 5, /* the symbols of the file; this one and the next one only if the link is made */
    V7_LIMIT_NUMBER = 6,  /* with V7_RELOCATABLE, the largest symbol number of a relocation word */
    V7_LIMIT_NAMES = 7    /* the external names */
};
struct v7_map_limit {
    uint64_t used; /* by all objects, also if it is over the limit */
    uint64_t most;
    uint32_t kind; /* of enum v7_map_limit_kind */
};
struct v7_map {
    struct v7_map_head head; /* written if the records are, and all 0 if no map is wanted */
    size_t object_count;     /* how many there are for each buffer, also with V7_NO_ROOM; with another fault 0 */
    size_t name_count;
    size_t use_count;
    size_t limit_count;
    struct v7_map_object *objects;
    size_t object_room;
    struct v7_map_name *names;
    size_t name_room;
    struct v7_map_use *uses;
    size_t use_room;
    struct v7_map_limit *limits;
    size_t limit_room;
};
struct v7_request {
    size_t size;
    uint32_t options; /* bits of enum v7_link_option */
    uint32_t wants;   /* bits of enum v7_want: buffers for what is not wanted are left alone, and its size is 0 */
    struct v7_slice entry;  /* the name of the entry point, at most 8 bytes, or of size 0 if there is none */
    struct v7_slice forced; /* names that are mentioned before all objects, 8 bytes each, filled up with NULs */
    const struct v7_slice *objects; /* without objects the program is empty */
    size_t object_count;
};
struct v7_result {
    size_t size;
    uint32_t fault; /* these three as in struct v7_answer */
    uint32_t word;
    size_t place;
    size_t file_size; /* what each buffer needs, also with V7_NO_ROOM; with another fault 0 */
    size_t report_size;
    unsigned char *file;
    size_t file_room;
    unsigned char *report;
    size_t report_room;
    size_t finding_count;
    struct v7_finding *findings;
    size_t finding_room;
    size_t place_count;
    struct v7_finding_place *places;
    size_t place_room;
    struct v7_map map;
};

/* Makes the link that REQUEST asks for. The file and what is wanted besides are all written, or none is. The first fault that
 * applies is given: V7_SHORT_STRUCT for the request, V7_NO_WANT, V7_SHORT_STRUCT for the result, 1 to 5, 11 to 34 for each object in
 * turn, 41 to 43, V7_NO_MEMORY as described above, and V7_NO_ROOM last.
 *
 * With V7_MAP all objects are read first, so that a link that is refused has a map too. Faults 31 to 43 are then in `map.head`: the
 * status is 1, `fault` is 0, and file, report, findings and places have size 0. */
uint32_t v7_run(const struct v7_request *request, struct v7_result *result);

/* A linked file, of v7_run or v7_session_link, has at most so many bytes: those of a header, of 32,767 words of text and of data with a
 * relocation word each, and of 5,461 symbols. A caller with such a buffer does not have to ask for the size of the file first. The report
 * has at most 27 bytes for each finding, and 18. */
enum v7_limit { V7_MAX_FILE = 327684 };

/* A session is kept between calls, so an edit costs what the edit is, and not what is there. The struct is the caller's, and at first all of it
 * is 0, as after `struct v7_session session = {0};`. A call that has a fault leaves the session as it was. Other calls may come between. */
struct v7_session {
    uint32_t is_open; /* 1 after v7_session_new, 0 after v7_session_free */
    void *state;      /* the library's; a caller does not look at it */
};

/* Begins a session of no objects. FORCED are names that are mentioned before all objects, 8 bytes each, filled up with NULs. Faults, the
 * first that applies: V7_SESSION_OPEN, 4, 5, V7_NO_MEMORY. */
uint32_t v7_session_new(struct v7_session *session, const unsigned char *forced, size_t forced_size, struct v7_answer *answer);

/* Adds the object that BYTES begin with after those that are there; the bytes are not kept. Faults, the first that applies, with 0 as
 * `place`: V7_NO_SESSION, 11 to 14, 21 to 24, 31 to 34 if it would pass a limit, V7_NO_MEMORY for a whole file or for an object that is
 * accepted. */
uint32_t v7_session_add(struct v7_session *session, const unsigned char *bytes, size_t size, struct v7_answer *answer);

/* Withdraws the object that was added last. It needs no memory. Faults: V7_NO_SESSION, V7_NOTHING if there is none. */
uint32_t v7_session_withdraw(struct v7_session *session, struct v7_answer *answer);

/* Links what is there, and gives it as v7_run does, with the options and the entry point of REQUEST. Its forced names and objects are not
 * looked at. An object is known by how many were added before it. A session has neither the objects of findings nor a map: for these call
 * v7_run with V7_PLACES or V7_MAP, and the bytes of the objects that are there, which the caller keeps. Faults, the first that applies:
 * 7 and 9 as there, and V7_NOT_KEPT after 9; V7_NO_SESSION, 1 to 3, 41 to 43, V7_NO_MEMORY, V7_NO_ROOM. */
uint32_t v7_session_link(struct v7_session *session, const struct v7_request *request, struct v7_result *result);

/* Writes what the session shows, as one JSON object, whose members v7(3) lists. It has the words of the merged text and data, each with
 * its offset in bytes, its value and what it refers to or waits for. It has the size of bss in bytes, the external names with what is
 * known of each, and the names that are multiply defined. And it has the marks of the last object that is there: what its addition
 * overwrote, in order, and nothing else. A word appears in them at most once. A name may appear more than once, as a common that grows
 * several times: its first mark has what was known of it before the addition, and each later one what the change before it led to.
 * Numbers are in decimal; a byte of a name that does not print, a quote and a backslash are \u00xx. Faults, the first that applies:
 * V7_NO_SESSION, V7_NO_MEMORY, V7_NO_ROOM. */
uint32_t v7_session_state(struct v7_session *session, unsigned char *room, size_t room_size, struct v7_answer *answer);

/* Ends the session, if one is begun, and gives its memory back. All of the struct is then as it was at first. The status is 0. */
uint32_t v7_session_free(struct v7_session *session);

/* A relocation word is one of these kinds, or V7_REFERS_TO(N); and V7_FROM_PC more if the word is relative to the pc.
 *
 * A word that refers to text, data or bss holds an address of the object: these count on through text, data and bss, from 0. A
 * word that refers to a symbol holds what is to be added to the value of the symbol; usually 0. If the word is relative to the pc,
 * its own address and 2 more are subtracted, since the pc is then the address after the word. So `jsr pc,_f` at address 0 has its
 * operand at 2, and the operand holds 0177774, which is minus 4. docs/OBJECTS.md has a word of each kind. */
enum v7_relocation {
    V7_NUMBER = 0,  /* the word does not refer to anything */
    V7_IN_TEXT = 2,
    V7_IN_DATA = 4,
    V7_IN_BSS = 6,
    V7_FROM_PC = 1  /* added to another one */
};

/* the relocation word of a word that refers to the symbol N of the table, from 0 to 4,095, an undefined external */
#define V7_REFERS_TO(n) ((uint16_t)(8 + 16 * (n)))

/* A word of text or data, and its relocation word. */
struct v7_word {
    uint16_t value;
    uint16_t reloc;
};

/* The type word of a symbol is one of these, and V7_EXTERNAL more if other objects see the symbol. */
enum v7_segment {
    V7_UNDEFINED = 0,
    V7_ABSOLUTE = 1,
    V7_TEXT = 2,
    V7_DATA = 3,
    V7_BSS = 4,
    V7_EXTERNAL = 32  /* the external bit, added to another one */
};

/* A symbol: its name, filled up with NULs, its type word, and its value. Addresses count on through text, data and bss, from 0. An
 * undefined external with a value is a common of so many bytes. */
struct v7_symbol {
    unsigned char name[8];
    uint16_t type;
    uint16_t value;
};

/* Writes the object of these parts. BSS is in bytes. Faults, the first that applies: V7_TOO_LONG, V7_ODD_SIZE of BSS,
 * V7_BAD_RELOCATION or V7_BAD_SYMBOL_NUMBER for the first word that has it, V7_NO_MEMORY, V7_NO_ROOM. */
uint32_t v7_make(const struct v7_word *text, size_t text_count, const struct v7_word *data, size_t data_count, uint32_t bss,
                 const struct v7_symbol *symbols, size_t symbol_count, unsigned char *room, size_t room_size, struct v7_answer *answer);

/* How many words and symbols an object has, and the size of its bss in bytes. */
struct v7_counts {
    size_t text;
    size_t data;
    size_t symbols;
    uint32_t bss;
};

/* Takes apart the object that BYTES begin with: writes its parts, all or none, and fills *COUNTS. With V7_NO_ROOM *COUNTS has
 * the sizes that are needed, and with any other fault it is 0. The header's entry point, at which no link looks, is not given.
 * Buffers are counted in words and symbols. Faults: 11 to 14, 21 to 24, V7_NO_MEMORY, V7_NO_ROOM. */
uint32_t v7_take_apart(const unsigned char *bytes, size_t size, struct v7_word *text, size_t text_room, struct v7_word *data,
                       size_t data_room, struct v7_symbol *symbols, size_t symbol_room, struct v7_counts *counts,
                       struct v7_answer *answer);

/* The eight words that a file begins with; docs/FORMAT.md describes them. Sizes are in bytes. */
struct v7_header {
    uint16_t magic;       /* 0407 normal, 0410 with read-only text, 0411 with text and data apart, 0405 an overlay */
    uint16_t text_size;
    uint16_t data_size;
    uint16_t bss_size;
    uint16_t symbol_size; /* 12 for each symbol */
    uint16_t entry_point;
    uint16_t unused;
    uint16_t flag;        /* 0 if there are relocation words */
};

/* Reads the file that BYTES begin with, an object or another, as v7_take_apart reads an object, and fills *HEADER as well. If
 * there are no relocation words, each word gets V7_NUMBER; if there are, they need not be right. With V7_NO_ROOM *HEADER is
 * filled too, and with any other fault it is 0. Faults: 11 to 14, V7_NO_MEMORY, V7_NO_ROOM. */
uint32_t v7_read(const unsigned char *bytes, size_t size, struct v7_header *header, struct v7_word *text, size_t text_room,
                 struct v7_word *data, size_t data_room, struct v7_symbol *symbols, size_t symbol_room, struct v7_counts *counts,
                 struct v7_answer *answer);

#ifdef __cplusplus
}
#endif

#endif
