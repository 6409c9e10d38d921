/* plain.h: the library's functions in plain C (plain.c, printer.c), compile, step and run in plain Rust (plain.rs), run in faster forms
   of C (switch.c, and goto.c compiled in two ways), and listing with snprintf (snprintf.c); all with the same answers. */
#ifndef PLAIN_H
#define PLAIN_H

#include <stddef.h>
#include <stdint.h>

uint32_t plain_compile(const int32_t *declarations, size_t declaration_words,
                       const int32_t *nodes, size_t node_words,
                       uint64_t pool, int32_t *code, size_t code_words,
                       uint32_t answer[3]);

uint32_t plain_step(const int32_t *code, size_t code_words,
                    int32_t *memory, size_t cells, uint32_t *place,
                    int32_t registers[64], uint32_t answer[3]);

uint32_t plain_run(const int32_t *code, size_t code_words,
                   int32_t *memory, size_t cells, uint32_t *place,
                   int32_t registers[64], uint32_t budget, uint32_t answer[3]);

uint32_t plain_listing(const int32_t *code, size_t code_words, uint8_t *text, size_t text_bytes, uint32_t answer[3]);

uint32_t snprintf_listing(const int32_t *code, size_t code_words, uint8_t *text, size_t text_bytes, uint32_t answer[3]);

uint32_t switch_run(const int32_t *code, size_t code_words,
                    int32_t *memory, size_t cells, uint32_t *place,
                    int32_t registers[64], uint32_t budget, uint32_t answer[3]);

uint32_t goto_run(const int32_t *code, size_t code_words,
                  int32_t *memory, size_t cells, uint32_t *place,
                  int32_t registers[64], uint32_t budget, uint32_t answer[3]);

uint32_t threaded_run(const int32_t *code, size_t code_words,
                      int32_t *memory, size_t cells, uint32_t *place,
                      int32_t registers[64], uint32_t budget, uint32_t answer[3]);

uint32_t plain_rust_compile(const int32_t *declarations, size_t declaration_words,
                            const int32_t *nodes, size_t node_words,
                            uint64_t pool, int32_t *code, size_t code_words,
                            uint32_t answer[3]);

uint32_t plain_rust_step(const int32_t *code, size_t code_words,
                         int32_t *memory, size_t cells, uint32_t *place,
                         int32_t registers[64], uint32_t answer[3]);

uint32_t plain_rust_run(const int32_t *code, size_t code_words,
                        int32_t *memory, size_t cells, uint32_t *place,
                        int32_t registers[64], uint32_t budget, uint32_t answer[3]);

#endif
