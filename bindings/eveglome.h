/* Eveglome for C: a proved simulator of the DEC 338 display. The exact rules are document 01's, with what the requests of document 02
   change in them; docs/MACHINE.md tells them.

   Whatever numbers arrive, a call is refused or done, ends, and does nothing undefined: nothing has to be checked first. A refused call leaves
   registers, memory, points and text as they were. Only the pointers are the caller's care: none is null, not even of an empty list; each points to as
   many numbers as its type or its count says; and no two of them overlap. No call keeps a pointer or has a state of its own, so calls on other
   lists may be made at the same time. */
#ifndef EVEGLOME_H
#define EVEGLOME_H

#include <stddef.h>
#include <stdint.h>

#ifdef __cplusplus
extern "C" {
#endif

/* The places of a row of registers: 30 registers, the kind of motion, and the motion's numbers. Each place has its limits here; a number outside them is
   refusal 4. Refused together, as 4 too, are only a word where none is held, a line or bytes with a state or a mode that they cannot have, and numbers of a
   motion that do not agree, as said with them. Any other registers go together: a display may run with a flag on that stops it, a stopped one may have a stop
   request, a word may be held beside a motion, a character may be unfinished in any state and mode, and the words of a motion may lie anywhere. */
enum eveglome_place {
    EVEGLOME_ADDRESS = 0,                   /* display address, up to 32,767 */
    EVEGLOME_POINTER = 1,                   /* pushdown pointer, up to 4,095 */
    EVEGLOME_X = 2,                         /* up to 8,191; on the screen, in sector 0, up to 1,023 */
    EVEGLOME_Y = 3,                         /* the same */
    EVEGLOME_STATE = 4,                     /* 0 control, 1 data; 1 with a line or bytes */
    EVEGLOME_MODE = 5,                      /* up to 7; with a line 2, 3 or 4, with bytes 1 */
    EVEGLOME_SCALE = 6,                     /* up to 3 */
    EVEGLOME_INTENSITY = 7,                 /* up to 7 */
    EVEGLOME_PEN_ENABLE = 8,                /* 0 or 1 */
    EVEGLOME_PEN_HOLD = 9,                  /* 0 or 1 */
    EVEGLOME_PEN_SENSE = 10,                /* 0 or 1; LPSI */
    EVEGLOME_BLINK = 11,                    /* 0 or 1 */
    EVEGLOME_IDLE = 12,                     /* 0 or 1 */
    EVEGLOME_BUTTONS = 13,                  /* up to 4,095: 12 bits, button 0 the leftmost */
    EVEGLOME_HIT_1 = 14,                    /* 0 or 1; the hit flag of bank 1, buttons 0 to 5 */
    EVEGLOME_HIT_2 = 15,                    /* 0 or 1; the hit flag of bank 2, buttons 6 to 11 */
    EVEGLOME_INTERNAL_STOP_FLAG = 16,       /* 0 or 1 */
    EVEGLOME_EXTERNAL_STOP_FLAG = 17,       /* 0 or 1 */
    EVEGLOME_VERTICAL_EDGE_FLAG = 18,       /* 0 or 1 */
    EVEGLOME_HORIZONTAL_EDGE_FLAG = 19,     /* 0 or 1 */
    EVEGLOME_PEN_FLAG = 20,                 /* 0 or 1 */
    EVEGLOME_MANUAL_INTERRUPT_FLAG = 21,    /* 0 or 1 */
    EVEGLOME_CONDITIONS = 22,               /* up to 4,095: the 12 initial-condition bits, bit 0 the leftmost */
    EVEGLOME_RUNNING = 23,                  /* 0 or 1 */
    EVEGLOME_STOP_REQUEST = 24,             /* 0 or 1 */
    EVEGLOME_HELD = 25,                     /* 0 or 1; whether a word is held, as from an external stop to the next command */
    EVEGLOME_HELD_WORD = 26,                /* the held word, up to 4,095; 0 if none is held */
    EVEGLOME_CASE = 27,                     /* 0 or 1; the character generator's case: with 1 a code of six bits is looked up 64 words further on */
    EVEGLOME_CODE_SIZE = 28,                /* 0 or 1: the next character word has two codes of six bits, or one of seven */
    EVEGLOME_STARTING_ADDRESS = 29,         /* up to 63; the character generator's starting address register: its table begins at 512 times this number */
    EVEGLOME_MOTION = 30,                   /* 0 nothing, 1 a line, 2 bytes, 3 a character; what its kind does not use is not looked at, and written 0 */

    /* A line, only in data state and modes 2, 3, 4. */
    EVEGLOME_LINE_MINUS_Y = 31,             /* 0 or 1 */
    EVEGLOME_LINE_MINUS_X = 32,             /* 0 or 1 */
    EVEGLOME_LINE_MAGNITUDE_Y = 33,         /* up to 1,023; not 0 if the other magnitude is */
    EVEGLOME_LINE_MAGNITUDE_X = 34,         /* the same */
    EVEGLOME_LINE_MOVES = 35,               /* 01's n: just the larger magnitude, so 1 to 1,023 */
    EVEGLOME_LINE_DONE = 36,                /* 01's k: below n, so up to 1,022 */
    EVEGLOME_LINE_LIT = 37,                 /* 0 or 1 */
    EVEGLOME_LINE_ESCAPE = 38,              /* 0 or 1 */
    EVEGLOME_LINE_LAST_WORD = 39,           /* the address of the last word of the line's command, up to 32,767; the points of its moves tell it */

    /* Bytes of an increment word, only in data state and mode 1. Bits 1 and 2 of a byte say its moves: 00 one, and the byte escapes; 01, 10, 11 one, two,
       three. */
    EVEGLOME_BYTES_WORD = 31,               /* up to 4,095 */
    EVEGLOME_BYTES_SIDE = 32,               /* 0 the left byte, 1 the right one, which only if the left byte does not escape */
    EVEGLOME_BYTES_MOVES_LEFT = 33,         /* 1 to 3, and no more than the moves of that byte */
    EVEGLOME_BYTES_LAST_WORD = 34,          /* the address of the increment word, up to 32,767; the points of its moves tell it */

    /* An unfinished character, in any state and mode. Of a word with two codes the left one comes first, and the right one as soon as the left one is done. */
    EVEGLOME_CHARACTER_WORD = 31,           /* the character word, up to 4,095 */
    EVEGLOME_CHARACTER_SIZE = 32,           /* 0 or 1: it has codes of six bits or of seven, whatever EVEGLOME_CODE_SIZE is by now */
    EVEGLOME_CHARACTER_SIDE = 33,           /* 0 the left character or the only one, 1 the right one, which is the last in either size */
    EVEGLOME_CHARACTER_STAGE = 34,          /* what comes next: 0 its table word, 1 a word of its routine, 2 a move of an increment word of its routine, 3 a
                                               move of a short vector word; what its stage does not use is not looked at, and written 0 */

    /* Stage 1. */
    EVEGLOME_ROUTINE_KIND = 35,             /* 0 increment words, 1 short vector words */
    EVEGLOME_ROUTINE_NEXT = 36,             /* the address of the word that comes next, up to 32,767 */

    /* Stage 2: the limits of bytes, but the side may be right where the left byte escapes, too. */
    EVEGLOME_ROUTINE_BYTES_WORD = 35,       /* up to 4,095 */
    EVEGLOME_ROUTINE_BYTES_SIDE = 36,       /* 0 the left byte, 1 the right one */
    EVEGLOME_ROUTINE_BYTES_MOVES_LEFT = 37, /* 1 to 3, and no more than the moves of that byte */
    EVEGLOME_ROUTINE_BYTES_LAST_WORD = 38,  /* the address of the routine word, up to 32,767; the points of its moves tell it */

    /* Stage 3: the limits of a line. */
    EVEGLOME_ROUTINE_LINE_MINUS_Y = 35,     /* 0 or 1 */
    EVEGLOME_ROUTINE_LINE_MINUS_X = 36,     /* 0 or 1 */
    EVEGLOME_ROUTINE_LINE_MAGNITUDE_Y = 37, /* up to 1,023; not 0 if the other magnitude is */
    EVEGLOME_ROUTINE_LINE_MAGNITUDE_X = 38, /* the same */
    EVEGLOME_ROUTINE_LINE_MOVES = 39,       /* 01's n: just the larger magnitude, so 1 to 1,023 */
    EVEGLOME_ROUTINE_LINE_DONE = 40,        /* 01's k: below n, so up to 1,022 */
    EVEGLOME_ROUTINE_LINE_LIT = 41,         /* 0 or 1 */
    EVEGLOME_ROUTINE_LINE_ESCAPE = 42,      /* 0 or 1; the escape ends the character */
    EVEGLOME_ROUTINE_LINE_LAST_WORD = 43,   /* the address of the routine word, up to 32,767; the points of its moves tell it */

    EVEGLOME_ROW = 44                       /* how many places there are */
};

/* The places of a loan: two half-open ranges, which may be empty or overlap. The file range may be fetched, the list range fetched and written. A range with
   low above high, or high above 32,768, is refusal 3. */
enum eveglome_loan {
    EVEGLOME_FILE_LOW = 0,                  /* up to EVEGLOME_FILE_HIGH */
    EVEGLOME_FILE_HIGH = 1,                 /* up to 32,768 */
    EVEGLOME_LIST_LOW = 2,                  /* up to EVEGLOME_LIST_HIGH */
    EVEGLOME_LIST_HIGH = 3,                 /* up to 32,768 */
    EVEGLOME_LOAN = 4                       /* how many places there are */
};

/* The places of an operation's or a run's answer. A refusal has word 0, beats 0, points 0, address 0. */
enum eveglome_answer {
    EVEGLOME_ENDING = 0,                    /* an eveglome_ending */
    EVEGLOME_WORD = 1,                      /* what a read answers, up to 4,095, else 0 */
    EVEGLOME_BEATS = 2,                     /* the beats that a run made, up to its budget */
    EVEGLOME_POINTS = 3,                    /* how many entries of the point list a run filled, from the first */
    EVEGLOME_FENCE_ADDRESS = 4,             /* with EVEGLOME_FETCH_OUTSIDE_LOAN and EVEGLOME_WRITE_OUTSIDE_LOAN the address of the word that the fence stopped,
                                               up to 32,767, 0 being word 0; with every other ending 0, which then means nothing */
    EVEGLOME_ANSWER = 5                     /* how many places there are */
};

/* The places of a listing's or a reading's answer. */
enum eveglome_listing_answer {
    EVEGLOME_LISTING_REFUSAL = 0,           /* EVEGLOME_DONE, or the eveglome_ending that says why nothing was written */
    EVEGLOME_LISTING_LINE = 1,              /* with EVEGLOME_LINE_NOT_IN_FORM the number of the first such line, from 1 up to 32,769; else 0 */
    EVEGLOME_LISTING_LENGTH = 2,            /* how many bytes of the text list a listing filled, from the first; of a refusal and of a reading 0 */
    EVEGLOME_LISTING_ANSWER = 3             /* how many places there are */
};

/* How a call ended: 0 for an operation, a listing or a reading that was done, 1 to 7, 23 and 24 refused, 10 to 19 how a run ended. A run ends at the fence with
   16 or 19. */
enum eveglome_ending {
    EVEGLOME_DONE = 0,                      /* an operation, a listing or a reading was done */
    EVEGLOME_MEMORY_LENGTH = 1,             /* memory is not 32,768 long */
    EVEGLOME_BUDGET_TOO_LARGE = 2,          /* budget above 65,535 */
    EVEGLOME_BAD_LOAN = 3,                  /* low above high, or high above 32,768, of a loan or of the range that is listed or read */
    EVEGLOME_REGISTERS_OUT_OF_RANGE = 4,    /* outside the limits that stand with the places */
    EVEGLOME_UNKNOWN_OPERATION = 5,         /* no eveglome_operation */
    EVEGLOME_OPERAND_OUT_OF_RANGE = 6,      /* none that the operation takes; of a listing or a reading, a state above 1 or a mode above 7 */
    EVEGLOME_LINE_NOT_IN_FORM = 7,          /* a text that is no listing of that range from that state and mode; its first wrong line is told */
    EVEGLOME_NOT_RUNNING = 10,              /* not running at entry */
    EVEGLOME_BUDGET_SPENT = 11,             /* still running */
    EVEGLOME_INTERNAL_STOP = 12,            /* stopped by a word */
    EVEGLOME_EXTERNAL_STOP = 13,            /* stopped by a stop request. Unless a word is held already, the word at the display address is fetched and held;
                                               the address stays */
    EVEGLOME_EDGE = 14,                     /* stopped by a move past an edge */
    EVEGLOME_UNUSABLE_MODE = 15,            /* stopped in data state and mode 7, before a beat; or by a control character of the unused fourth form, whose beat
                                               counts and ends that character */
    EVEGLOME_FETCH_OUTSIDE_LOAN = 16,       /* still running, before a fetch outside both ranges; if the fetch is a stop's, the request stays */
    EVEGLOME_WIDE_WORD = 17,                /* still running, before a word above 4,095; if a stop would hold it, the request stays */
    EVEGLOME_POINTS_FULL = 18,              /* still running, before a point that has no room */
    EVEGLOME_WRITE_OUTSIDE_LOAN = 19,       /* still running, before a push's write outside the list range */
    EVEGLOME_TEXT_TOO_SHORT = 23,           /* the text list has fewer bytes than the listing */
    EVEGLOME_WIDE_WORD_IN_RANGE = 24        /* a word of the range that is to be listed is above 4,095 */
};

/* The host operations. One that is done answers EVEGLOME_DONE, and word 0 unless it is a read. Its operand is 0 unless one stands here; another number is
   refusal 6. A number that is no operation is refusal 5. The flags that stop are those of internal stop, external stop, both edges and the pen. Bits of a word
   count from 0 at the left. */
enum eveglome_operation {
    EVEGLOME_START = 1,                     /* operand: an address up to 32,767. Runs from it in control state and mode 0; clears the flags that stop, stop
                                               request, pen hold, held word and motion */
    EVEGLOME_SET_POINTER = 2,               /* operand: the pushdown pointer, up to 4,095 */
    EVEGLOME_SET_CONDITIONS = 3,            /* operand: the 12 initial-condition bits, up to 4,095 */
    EVEGLOME_RESUME = 4,                    /* if stopped, clears the flags that stop, and runs; a held word stays for the next command. If the pen flag was on
                                               and condition bit 2 is 1, pen enable goes off, and pen hold goes on if bit 3 is 0 */
    EVEGLOME_CLEAR = 5,                     /* stops in control state and mode 0; clears the flags that stop, stop request, pen hold, held word, motion and the
                                               low 12 bits of the address */
    EVEGLOME_ASK_TO_STOP = 6,               /* if running, a stop request: a run ends by it as soon as no motion is left, and the next word is held */
    EVEGLOME_PEN_LIGHT = 7,                 /* the pen sees light: pen sense on; if running and pen enable is on, pen flag on and stopped */
    EVEGLOME_PRESS_BUTTON = 8,              /* operand: a button, up to 11. Complements it and sets the hit flag of its bank */
    EVEGLOME_CLEAR_GROUP = 9,               /* operand: 0 for buttons 0 to 5, 1 for 6 to 11. Clears these buttons; the hit flags stay */
    EVEGLOME_MANUAL_INTERRUPT_ON = 10,      /* sets the manual interrupt flag, which stops nothing */
    EVEGLOME_MANUAL_INTERRUPT_OFF = 11,     /* clears it */
    EVEGLOME_IDLE_ON = 12,                  /* sets idle */
    EVEGLOME_READ_POINTER = 20,             /* answers the pushdown pointer */
    EVEGLOME_READ_X = 21,                   /* answers the low 12 bits of x; the high one is in status 2 */
    EVEGLOME_READ_Y = 22,                   /* answers the low 12 bits of y; the high one is in status 2 */
    EVEGLOME_READ_ADDRESS = 23,             /* answers the low 12 bits of the display address; the high three are in status 1 */
    EVEGLOME_READ_STATUS_1 = 24,            /* answers status 1, then clears both hit flags. Bits 0 to 8: pen flag, vertical edge, horizontal edge, internal
                                               stop, in sector 0, control state, manual interrupt, either hit flag, interrupt; 9 to 11: the high bits of the
                                               address */
    EVEGLOME_READ_STATUS_2 = 25,            /* answers status 2. Bit 0: in a right byte, of a routine too; 1: pen enable; 2, 3: the high bits of y and x; 4, 5:
                                               scale; 6 to 8: mode; 9 to 11: intensity */
    EVEGLOME_READ_BUTTONS = 26,             /* answers the 12 buttons, button 0 in bit 0, the leftmost */
    EVEGLOME_SET_GENERATOR = 30,            /* operand: the character generator's case in bit 3, code size in bit 4, starting address register in bits 6 to 11;
                                               any other bit, so what is not inside 0677 octal, is refusal 6. Sets these three, at any time: case and register
                                               hold from the next table word on, the size from the next character word on */
    EVEGLOME_READ_GENERATOR = 31            /* answers the character generator's word. Bit 0: data state and mode 5; 1: in a right character; 3: case; 4: code
                                               size; 6 to 11: starting address register */
};

/* How many words a memory has. */
#define EVEGLOME_MEMORY 32768

/* How many bytes are room for any listing: the words of all memory, with the longest line, which has 43 bytes. */
#define EVEGLOME_LONGEST_LISTING 1409024

/* The parts of an entry of the point list, x + 1,024 y + 2^20 intensity + 2^23 blink + 2^24 last word: x and y up to 1,023, intensity up to 7, blink 0 or 1,
   last word up to 32,767. That is the address of the last word of the command that lit the point: of the second word in modes 0, 2 and 3, which is word 0 where
   the first is word 32,767; of the only word in modes 1, 4 and 6. Of a character it is the routine word whose move lit the point. A word that was held counts
   as one fetched at the display address. */
#define EVEGLOME_POINT_X(point) ((unsigned)((point) & 1023))
#define EVEGLOME_POINT_Y(point) ((unsigned)((point) >> 10 & 1023))
#define EVEGLOME_POINT_INTENSITY(point) ((unsigned)((point) >> 20 & 7))
#define EVEGLOME_POINT_BLINK(point) ((unsigned)((point) >> 23 & 1))
#define EVEGLOME_POINT_LAST_WORD(point) ((unsigned)((point) >> 24 & 32767))

/* Writes fresh registers: all zero, control state, not running, no word held, no motion. */
void eveglome_fresh(uint16_t registers[EVEGLOME_ROW]);

/* Makes an eveglome_operation. Refused as 4, 5 or 6, in this order. */
void eveglome_operate(uint16_t registers[EVEGLOME_ROW], uint32_t operation, uint32_t operand, uint32_t answer[EVEGLOME_ANSWER]);

/* Runs the display for at most `budget` beats, up to 65,535. The points that it lights stand in the first entries of `points`, as many as it answers; the rest
   stays. Where a word is held, the next command uses it and does not fetch the word at its address; once that command is made, none is held. Second words, and
   the table words and routine words of characters, are always fetched. Refused as 1, 2, 3 or 4, in this order. */
void eveglome_run(uint16_t registers[EVEGLOME_ROW], const uint16_t loan[EVEGLOME_LOAN], uint16_t *memory, size_t memory_length, uint64_t *points,
                  size_t points_length, uint32_t budget, uint32_t answer[EVEGLOME_ANSWER]);

/* Lists the words from `low` up to, not including, `high`, both up to 32,768, as the display would meet them from this state, 0 control or 1 data, and this
   mode, up to 7, on; no jump is followed. A word is a line: its address in five octal digits and the word in four; then, unless it is a data word or the second
   word of a jump, the manual's mnemonics, and in octal the bits that none of them covers, unless 0. One space stands between two fields, and a newline behind
   the last. The lines fill the first entries of `text`, as many as are answered, with no 0 behind them; the rest stays. 43 bytes for each word are always
   enough, and EVEGLOME_LONGEST_LISTING for all. An empty range has no lines. Refused as 1, 3, 6, 24 or 23, in this order. */
void eveglome_list(const uint16_t *memory, size_t memory_length, uint32_t low, uint32_t high, uint32_t state, uint32_t mode, uint8_t *text, size_t text_length,
                   uint32_t answer[EVEGLOME_LISTING_ANSWER]);

/* Reads a listing back into the words from `low` up to `high`, and changes no other word. Taken are exactly the texts that eveglome_list writes for some words
   of this range from this state and mode on. So every byte counts, a line missing or too many is not in form, and neither is a 0 behind the text; what the
   words were before does not matter. Refused as 1, 3, 6 or 7, in this order. */
void eveglome_read(const uint8_t *text, size_t text_length, uint16_t *memory, size_t memory_length, uint32_t low, uint32_t high, uint32_t state, uint32_t mode,
                   uint32_t answer[EVEGLOME_LISTING_ANSWER]);

#ifdef __cplusplus
}
#endif

#endif
