/* paper.h: the numbers of the build scope, written from the document and not from the header. */
#ifndef PAPER_H
#define PAPER_H

/* "Tables handed in": declarations, nodes and code. */
enum { CONSTANT = 1, VARIABLE = 2, ARRAY = 3 };

enum {
    VALUE = 1, IDENTIFIER = 2, ELEMENT = 3, PLUS = 4, MINUS = 5, TIMES = 6, LESS = 7, EQUAL = 8, AND = 9, OR = 10, NOT = 11,
    SKIP = 16, ASSIGN = 17, ASSIGN_ELEMENT = 18, SEQUENCE = 19, IF = 20, WHILE = 21,
    KINDS = WHILE + 1
};

enum {
    HALT = 0, NOP = 1, ADD = 2, ADDI = 3, SUB = 4, MUL = 5, LOAD = 6, STORE = 7, JMP = 8, BNE = 9, BEQ = 10, SLT = 11,
    OPERATIONS = SLT + 1
};

/* Limits. */
enum { NAME_LIMIT = 256, ROW_LIMIT = 1024, CELL_LIMIT = 65536, CODE_WORD_LIMIT = 262144, INSTRUCTION_LIMIT = CODE_WORD_LIMIT / 4 };
enum { REGISTER_COUNT = 64, REFUSAL_COUNT = 14, FAULT_COUNT = 5 };

/* Endings, as the C library numbers them. */
enum { WENT_ON = 0, HALTED = 1, FAULTED = 2, UNFINISHED = 3, ENDINGS = UNFINISHED + 1 };

/* Words of a row, of an instruction and of an answer. */
enum { NODE = 4, DECLARATION = 2, INSTRUCTION = 4, ANSWER = 3 };

#endif
