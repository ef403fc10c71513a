/* A plain interpreter of RV32I words: the loop of loop_object.py in C, to compare the time with. It
   decodes each word anew, and records nothing. */
#include <stdint.h>
#include <stdio.h>
#include <stdlib.h>
#include <string.h>

#define MEMORY 0x2000000u

static uint32_t number(const uint8_t *at) {
    return (uint32_t)at[0] | (uint32_t)at[1] << 8 | (uint32_t)at[2] << 16 | (uint32_t)at[3] << 24;
}

int main(int count, char **words) {
    static uint8_t file[1 << 20];
    uint8_t *memory = calloc(MEMORY, 1);
    FILE *in = count > 1 ? fopen(words[1], "rb") : NULL;
    if (!in || !memory || fread(file, 1, sizeof file, in) < 16) return 1;
    uint32_t pc = number(file + 8), length = number(file + 12);
    memcpy(memory + 0x10000, file + 16, 4 * (size_t)length);
    uint32_t x[32] = {0}, end = 0x10000 + 4 * length;
    uint64_t executed = 0;
    x[2] = MEMORY;
    for (;;) {
        if (pc < 0x10000 || pc >= end || pc % 4) return 2;
        uint32_t w = number(memory + pc), next = pc + 4, address, value = 0;
        uint32_t rd = w >> 7 & 31, f3 = w >> 12 & 7, a = x[w >> 15 & 31], b = x[w >> 20 & 31];
        int32_t imm = (int32_t)w >> 20;
        executed++;
        switch (w & 127) {
        case 0x37: value = w & 0xfffff000u; break;
        case 0x67: value = next; next = (a + (uint32_t)imm) & ~1u; break;
        case 0x13:
            switch (f3) {
            case 0: value = a + (uint32_t)imm; break;
            case 1: value = a << (imm & 31); break;
            case 3: value = a < (uint32_t)imm; break;
            default: return 3;
            }
            break;
        case 0x33:
            switch (f3) {
            case 0: value = a + b; break;
            case 4: value = a ^ b; break;
            default: return 3;
            }
            break;
        case 0x03:
            address = a + (uint32_t)imm;
            if (f3 != 2 || address % 4 || address > MEMORY - 4) return 4;
            value = number(memory + address);
            break;
        case 0x23:
            address = a + (uint32_t)((int32_t)w >> 25 << 5 | (int32_t)rd);
            if (f3 != 2 || address % 4 || address > MEMORY - 4 || (address >= 0x10000 && address < end)) return 4;
            memory[address] = (uint8_t)b;
            memory[address + 1] = (uint8_t)(b >> 8);
            memory[address + 2] = (uint8_t)(b >> 16);
            memory[address + 3] = (uint8_t)(b >> 24);
            rd = 0;
            break;
        case 0x73:
            printf("instructions: %llu\n", (unsigned long long)executed);
            return x[17] == 3 ? 0 : 5;
        default: return 3;
        }
        if (rd) x[rd] = value;
        pc = next;
    }
}
