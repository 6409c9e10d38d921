/* switch.c: a run as a careful C programmer writes it: a switch, $0 cleared for the reads, register numbers checked together. */
#include "direct.h"
#include "plain.h"
#include "sauskinna.h"

#define REQUIRE(condition, number) \
    do { \
        if (!(condition)) { \
            fault = number; \
            goto out; \
        } \
    } while (0)

uint32_t switch_run(const int32_t *restrict code, size_t code_words,
                    int32_t *restrict memory, size_t cells, uint32_t *place,
                    int32_t registers[restrict 64], uint32_t budget, uint32_t answer[3])
{
    if (code_words % 4 != 0 || code_words > SAUSKINNA_CODE_WORDS)
        return say(answer, 0, 0, 0, SAUSKINNA_REFUSED_CODE_WORDS);
    if (cells > SAUSKINNA_CELLS)
        return say(answer, 0, 0, 0, SAUSKINNA_REFUSED_MEMORY);
    size_t count = code_words / 4, p = *place;
    uint32_t left = budget, ending = SAUSKINNA_UNFINISHED, fault = SAUSKINNA_NO_FAULT;
    uint32_t *r = (uint32_t *)registers, kept = r[0];
    uint64_t at;
    r[0] = 0;
    while (left > 0) {
        REQUIRE(p < count, SAUSKINNA_FAULT_PLACE);
        const uint32_t *words = (const uint32_t *)code + 4 * p;
        uint32_t a = words[1], b = words[2], c = words[3];
        switch (words[0]) {
        case SAUSKINNA_HALT:
            REQUIRE((a | b | c) == 0, SAUSKINNA_FAULT_INSTRUCTION);
            ending = SAUSKINNA_HALTED;
            left--;
            goto out;
        case SAUSKINNA_NOP:
            REQUIRE((a | b | c) == 0, SAUSKINNA_FAULT_INSTRUCTION);
            p++;
            break;
        case SAUSKINNA_ADD:
            REQUIRE_RESULT(a | b | c);
            r[a] = r[b] + r[c];
            p++;
            break;
        case SAUSKINNA_SUB:
            REQUIRE_RESULT(a | b | c);
            r[a] = r[b] - r[c];
            p++;
            break;
        case SAUSKINNA_MUL:
            REQUIRE_RESULT(a | b | c);
            r[a] = r[b] * r[c];
            p++;
            break;
        case SAUSKINNA_SLT:
            REQUIRE_RESULT(a | b | c);
            r[a] = (int32_t)r[b] < (int32_t)r[c];
            p++;
            break;
        case SAUSKINNA_ADDI:
            REQUIRE_RESULT(a | c);
            r[a] = b + r[c];
            p++;
            break;
        case SAUSKINNA_LOAD:
            REQUIRE_RESULT(a | b | c);
            at = address_of(r[b], r[c]);
            REQUIRE(at < cells, SAUSKINNA_FAULT_ADDRESS);
            r[a] = (uint32_t)memory[at];
            p++;
            break;
        case SAUSKINNA_STORE:
            REQUIRE((a | b | c) < SAUSKINNA_REGISTERS, SAUSKINNA_FAULT_INSTRUCTION);
            at = address_of(r[a], r[b]);
            REQUIRE(at < cells, SAUSKINNA_FAULT_ADDRESS);
            memory[at] = (int32_t)r[c];
            p++;
            break;
        case SAUSKINNA_JMP:
            REQUIRE((b | c) == 0, SAUSKINNA_FAULT_INSTRUCTION);
            REQUIRE(a < count, SAUSKINNA_FAULT_LABEL);
            p = a;
            break;
        case SAUSKINNA_BNE:
            REQUIRE((a | b) < SAUSKINNA_REGISTERS, SAUSKINNA_FAULT_INSTRUCTION);
            if (r[a] != r[b]) {
                REQUIRE(c < count, SAUSKINNA_FAULT_LABEL);
                p = c;
            } else {
                p++;
            }
            break;
        case SAUSKINNA_BEQ:
            REQUIRE((a | b) < SAUSKINNA_REGISTERS, SAUSKINNA_FAULT_INSTRUCTION);
            if (r[a] == r[b]) {
                REQUIRE(c < count, SAUSKINNA_FAULT_LABEL);
                p = c;
            } else {
                p++;
            }
            break;
        default:
            REQUIRE(0, SAUSKINNA_FAULT_INSTRUCTION);
        }
        left--;
    }
out:
    r[0] = kept;
    *place = (uint32_t)p;
    return say(answer, fault != SAUSKINNA_NO_FAULT ? SAUSKINNA_FAULTED : ending, fault, budget - left, 0);
}
