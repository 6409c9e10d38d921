/* sauskinna.h: compiles station rules (IMP tables) to ASM, lists ASM, and runs it under a budget. C99 and C++. */
#ifndef SAUSKINNA_H
#define SAUSKINNA_H

#include <stddef.h>
#include <stdint.h>

#ifdef __cplusplus
extern "C" {
#endif

/*
 * Conventions
 *
 * Counts    Every length is a count of 32-bit words, never of bytes; only that
 *           of a text is in bytes. A word is a signed 32-bit value. Sums,
 *           differences and products wrap modulo 2^32; comparison is signed.
 * Owner     The caller owns every buffer. The library reads and writes only
 *           within the lengths given, keeps no pointer and allocates nothing.
 *           Pointers are aligned as their type asks, not NULL (even where a
 *           length is 0), and no buffer that is written overlaps another.
 *           That is all that is asked: any length and any content is taken.
 * Answer    answer is always written, all three words.
 * Return    0, or the number of a refusal. A refused call changes nothing but
 *           the answer: no code word, no cell, no register, not the place, no
 *           byte of a text.
 * Threads   There is no state between calls. Calls from several threads need
 *           no lock as long as their buffers are their own; what is const may
 *           be shared.
 * Stack     A rule is compiled by recursion. SAUSKINNA_STACK bytes of stack are
 *           enough for any call, SAUSKINNA_STACK_RUN for step and run,
 *           SAUSKINNA_STACK_LISTING for listing.
 * Time      Compiling takes time in proportion to the rows handed in; a run,
 *           to its steps; a listing, to its instructions.
 * Linking   The archive asks for memcpy and memset, and for nothing else.
 */

/*
 * The version of this header, first number times 1,000 plus second: 1.1. A
 * program that was built with one header and linked with another's archive sees
 * it by comparing this with what sauskinna_version returns.
 */
#define SAUSKINNA_VERSION 1001

/* Limits. */
#define SAUSKINNA_DECLARATIONS 256  /* declaration rows, two words each */
#define SAUSKINNA_ROWS 1024         /* node rows, four words each */
#define SAUSKINNA_CELLS 65536       /* cells of memory, and of all declarations together */
#define SAUSKINNA_CODE_WORDS 262144 /* code words that run, step and listing take */
#define SAUSKINNA_REGISTERS 64      /* $0 to $63; $0 reads as 0 */

/*
 * A code buffer of this many words holds any rule of so many node rows: a row
 * gives at most four instructions of four words, and the end one more.
 */
#define SAUSKINNA_ROOM(rows) (16 * (size_t)(rows) + 4)

/*
 * Bytes of the longest line that a listing can have, its newline among them: a
 * text of this many for each instruction holds the listing of any code.
 */
#define SAUSKINNA_LINE 33

/*
 * Bytes of stack, from the caller's frame on, that are enough whatever is
 * handed in. As measured on x86-64, compile takes 2,519 for a rule of two rows
 * and for each level of nesting
 *
 *                                          need   size   code
 *   sequence, if, while                      64     80    224
 *   binary, not, element                     48     64    160
 *
 * in the three passes that work out the registers needed and the instructions
 * and then emit them, one after the other. The deepest rule (480 commands
 * within each other around 62 nots) takes 119,959. Step and run take 215.
 * Listing takes 65,823, a byte for each of 65,536 places among them, however
 * short the code. The rest is a reserve. What the system keeps on a thread's
 * stack (3 to 5 KB with glibc) comes on top, and so do handlers of signals that
 * run on it.
 */
#define SAUSKINNA_STACK 122880        /* any call */
#define SAUSKINNA_STACK_RUN 512       /* step and run */
#define SAUSKINNA_STACK_LISTING 69632 /* listing */

/* Declarations: (kind, value). Cells are given out from address 0 in row order. */
enum sauskinna_declaration {
    SAUSKINNA_CONSTANT = 1, /* value: the constant */
    SAUSKINNA_VARIABLE = 2, /* value: 0; one cell */
    SAUSKINNA_ARRAY = 3     /* value: its cells, 1 to 65,536 */
};

/*
 * Nodes: (kind, word, word, word), words that are not used are 0. A name is a
 * declaration's row number from 0, a child a lower node row. The last row is
 * the whole rule, a command; every other row is the child of one parent, once.
 */
enum sauskinna_node {
    SAUSKINNA_VALUE = 1,           /* v */
    SAUSKINNA_IDENTIFIER = 2,      /* name of a constant or variable */
    SAUSKINNA_ELEMENT = 3,         /* name of an array, index */
    SAUSKINNA_PLUS = 4,            /* left, right */
    SAUSKINNA_MINUS = 5,           /* left, right */
    SAUSKINNA_TIMES = 6,           /* left, right */
    SAUSKINNA_LESS = 7,            /* left, right */
    SAUSKINNA_EQUAL = 8,           /* left, right */
    SAUSKINNA_AND = 9,             /* left, right: both are worked out */
    SAUSKINNA_OR = 10,             /* left, right: both are worked out */
    SAUSKINNA_NOT = 11,            /* operand */
    SAUSKINNA_SKIP = 16,           /* */
    SAUSKINNA_ASSIGN = 17,         /* name of a variable, value */
    SAUSKINNA_ASSIGN_ELEMENT = 18, /* name of an array, index, value */
    SAUSKINNA_SEQUENCE = 19,       /* first, second */
    SAUSKINNA_IF = 20,             /* test, then, else */
    SAUSKINNA_WHILE = 21           /* test, body */
};

/*
 * Code: (operation, word, word, word), words that are not used are 0. A label
 * is an instruction's number, from 0; so is a place.
 */
enum sauskinna_operation {
    SAUSKINNA_HALT = 0,
    SAUSKINNA_NOP = 1,
    SAUSKINNA_ADD = 2,   /* a b c: $a = $b + $c */
    SAUSKINNA_ADDI = 3,  /* a N c: $a = N + $c */
    SAUSKINNA_SUB = 4,   /* a b c: $a = $b - $c */
    SAUSKINNA_MUL = 5,   /* a b c: $a = $b * $c */
    SAUSKINNA_LOAD = 6,  /* a b i: $a = memory[$b + $i] */
    SAUSKINNA_STORE = 7, /* b i a: memory[$b + $i] = $a */
    SAUSKINNA_JMP = 8,   /* L */
    SAUSKINNA_BNE = 9,   /* a b L: to L if $a and $b differ */
    SAUSKINNA_BEQ = 10,  /* a b L: to L if $a and $b are equal */
    SAUSKINNA_SLT = 11   /* a b c: $a = 1 if $b < $c, else 0 */
};

/* The words of an answer. */
enum sauskinna_answer {
    SAUSKINNA_ANSWER_INSTRUCTIONS = 0, /* compile, accepted: instructions emitted */
    SAUSKINNA_ANSWER_CELLS = 1,        /* compile, accepted: cells that the declarations take */
    SAUSKINNA_ANSWER_NEED = 2,         /* compile, accepted: registers that the rule needs */
    SAUSKINNA_ANSWER_BYTES = 0,        /* listing, accepted: bytes written; the others are 0 */
    SAUSKINNA_ANSWER_VALUE = 0,        /* compile, listing, refused: the refusal's value; the others are 0 */
    SAUSKINNA_ANSWER_ENDING = 0,       /* step, run: how it ended */
    SAUSKINNA_ANSWER_FAULT = 1,        /* step, run: the fault's number, or 0 */
    SAUSKINNA_ANSWER_STEPS = 2,        /* step, run: steps taken */
    SAUSKINNA_ANSWER_WORDS = 3
};

/* Endings: step answers one of the first three, run one of the last three. */
enum sauskinna_ending {
    SAUSKINNA_WENT_ON = 0,
    SAUSKINNA_HALTED = 1,
    SAUSKINNA_FAULTED = 2,
    SAUSKINNA_UNFINISHED = 3
};

/*
 * Refusals, in the order in which they are looked for. Declarations and then
 * node rows are read from row 0; the first bad row decides, and within a row
 * the lowest number. After the colon stands the value that compile and listing
 * answer.
 */
enum sauskinna_refusal {
    SAUSKINNA_ACCEPTED = 0,
    SAUSKINNA_REFUSED_NODE_WORDS = 1,        /* not a multiple of 4, no rows, or above 1,024 rows: 0 */
    SAUSKINNA_REFUSED_DECLARATION_WORDS = 2, /* odd, or above 256 rows: 0 */
    SAUSKINNA_REFUSED_POOL = 3,              /* bit 0 is set: 0 */
    SAUSKINNA_REFUSED_DECLARATION = 4,       /* its kind or value is none of the above: its row */
    SAUSKINNA_REFUSED_CELLS = 5,             /* they pass 65,536 with this declaration: its row */
    SAUSKINNA_REFUSED_NODE = 6,              /* unknown kind, unused word not 0, or a child no lower row: its row */
    SAUSKINNA_REFUSED_SORT = 7,              /* an expression for a command, or the other way round: the parent's
                                                row, or the last row if that is no command */
    SAUSKINNA_REFUSED_NAME = 8,              /* no declaration row: the node's row */
    SAUSKINNA_REFUSED_NAME_KIND = 9,         /* constant, variable or array where another is asked: the node's row */
    SAUSKINNA_REFUSED_USES = 10,             /* a row but the last not used exactly once: the lowest such row */
    SAUSKINNA_REFUSED_REGISTERS = 11,        /* too few in the pool: the registers needed */
    SAUSKINNA_REFUSED_ROOM = 12,             /* code buffer too short: the instructions needed */
    SAUSKINNA_REFUSED_CODE_WORDS = 13,       /* step, run, listing: not a multiple of 4, or above 262,144: 0 */
    SAUSKINNA_REFUSED_MEMORY = 14,           /* step, run: above 65,536 cells */
    SAUSKINNA_REFUSED_INSTRUCTION = 21,      /* listing: a form of fault 2, or a label outside the code, whether the jump
                                                would be taken or not: the lowest such instruction's number */
    SAUSKINNA_REFUSED_TEXT_ROOM = 22         /* listing: text too short: the bytes needed */
};

/*
 * Faults, in the order in which an instruction is looked at. A fault counts no
 * step and changes nothing: the place stays at the instruction that faulted.
 */
enum sauskinna_fault {
    SAUSKINNA_NO_FAULT = 0,
    SAUSKINNA_FAULT_PLACE = 1,       /* the place is outside the code */
    SAUSKINNA_FAULT_INSTRUCTION = 2, /* unknown operation, unused word not 0, or a register number outside 0..63 */
    SAUSKINNA_FAULT_ZERO = 3,        /* a result written to $0 */
    SAUSKINNA_FAULT_ADDRESS = 4,     /* a load or store outside memory (base + index, which does not wrap) */
    SAUSKINNA_FAULT_LABEL = 5        /* a jump that is taken to a label outside the code */
};

/* Returns the version of the archive: SAUSKINNA_VERSION of the header that it was made with. */
uint32_t sauskinna_version(void);

/*
 * Compiles a rule.
 *
 *   declarations, declaration_words   two words a row, 0 to 256 rows
 *   nodes, node_words                 four words a row, 1 to 1,024 rows
 *   pool                              bit k set: the code may use $k. Bit 0 is
 *                                     clear. Registers outside the pool are the
 *                                     host's: no run of the code changes them.
 *   code, code_words                  receives the code, four words an
 *                                     instruction; words beyond it stay as they
 *                                     are. SAUSKINNA_ROOM(rows) words are enough.
 *
 * Accepted: returns 0; answer is the instructions emitted, the cells of memory
 * that the declarations take, and the registers that the rule needs.
 * Refused: returns 1 to 12; answer is the refusal's value, 0, 0.
 */
uint32_t sauskinna_compile(const int32_t *declarations, size_t declaration_words,
                           const int32_t *nodes, size_t node_words,
                           uint64_t pool, int32_t *code, size_t code_words,
                           uint32_t answer[SAUSKINNA_ANSWER_WORDS]);

/*
 * Takes one step.
 *
 *   code, code_words   four words an instruction, for a compiled rule 4 times
 *                      the instructions that compile answered
 *   memory, cells      0 to 65,536 cells, used with the values that they hold
 *   place              the instruction to do, from 0. After a step that went
 *                      on it is the next instruction's number, and after a
 *                      jump that was taken its label; after a halt or a fault
 *                      it is that instruction's own number.
 *   registers          $0 to $63. $0 reads as 0 whatever registers[0]
 *                      holds, and that holds after the call what it held
 *                      before; during the call it may be 0.
 *
 * Returns 0; answer is an ending (0 went on, 1 halted, 2 faulted), the fault's
 * number or 0, and the steps taken (1, or 0 at a fault). A halt counts as a
 * step and keeps its place.
 * Refused: returns 13 or 14; answer is 0, 0, 0.
 */
uint32_t sauskinna_step(const int32_t *code, size_t code_words,
                        int32_t *memory, size_t cells, uint32_t *place,
                        int32_t registers[SAUSKINNA_REGISTERS], uint32_t answer[SAUSKINNA_ANSWER_WORDS]);

/*
 * Takes steps until the code halts or faults, or the budget is spent. A rule
 * starts at place 0. An unfinished run is resumed by a run with the place,
 * registers and memory that it left.
 *
 *   budget   the steps that may be taken, 0 to 4,294,967,295
 *
 * The other arguments are those of sauskinna_step; place is left as the last
 * instruction leaves it. Returns 0; answer is an ending (1 halted, 2 faulted, 3
 * unfinished), the fault's number or 0, and the steps taken.
 * Refused: returns 13 or 14; answer is 0, 0, 0.
 */
uint32_t sauskinna_run(const int32_t *code, size_t code_words,
                       int32_t *memory, size_t cells, uint32_t *place,
                       int32_t registers[SAUSKINNA_REGISTERS], uint32_t budget, uint32_t answer[SAUSKINNA_ANSWER_WORDS]);

/*
 * Lists code: a line of text for each instruction.
 *
 *   code, code_words   as for sauskinna_step
 *   text, text_bytes   receives the listing; bytes beyond it stay as they are,
 *                      and no zero is put behind it. SAUSKINNA_LINE bytes for
 *                      each instruction are enough.
 *
 * The words of a line are parted by one blank, and byte 10 ends it:
 *
 *   halt              addi $1 -2 $3      load $1 $2[$0]     jmp L7
 *   nop               add $1 $2 $3       store $2[$0] $1    bne $1 $2 L7
 *
 * Sub, mul and slt are written as add is, beq as bne. A line that a jump names,
 * taken or not, starts with its label, a colon and a blank: "L7: halt".
 *
 * Accepted: returns 0; answer is the bytes written, 0, 0.
 * Refused: returns 13, 21 or 22; answer is the refusal's value, 0, 0.
 */
uint32_t sauskinna_listing(const int32_t *code, size_t code_words,
                           uint8_t *text, size_t text_bytes, uint32_t answer[SAUSKINNA_ANSWER_WORDS]);

#ifdef __cplusplus
}
#endif

#endif
