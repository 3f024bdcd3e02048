/* What the syndrome of an A64 instruction's data abort should be, by the instruction. */
#ifndef SYNDROME_H
#define SYNDROME_H

#include "board.h"

/* The ISS without its fault status: Arm DDI 0601 on the fields, DDI 0487 on the encodings. A syndrome is valid for a
   load or store of one general-purpose register that does not write back and is not exclusive. */
static inline uint64_t iss_of(uint32_t instruction)
{
    const uint64_t size = instruction >> 30;
    const uint64_t rt = instruction & 31;
    const uint64_t load = instruction >> 22 & 1;
    /* LDR, STR and their kin, with an unsigned, an unscaled or a register offset, and unprivileged. */
    const int unsigned_offset = (instruction & 0x3f000000) == 0x39000000;
    const int unscaled = (instruction & 0x3f200c00) == 0x38000000;
    const int unprivileged = (instruction & 0x3f200c00) == 0x38000800;
    const int register_offset = (instruction & 0x3f200c00) == 0x38200800;
    if (unsigned_offset || unscaled || unprivileged || register_offset) {
        /* 0 is a store, 1 a load, 2 and 3 a signed load to 64 and to 32 bits. */
        const uint64_t opc = instruction >> 22 & 3;
        const int sf = opc < 2 ? size == 3 : opc == 2;
        return ISS_ISV | ISS_SAS(size) | (opc >= 2 ? ISS_SSE : 0) | ISS_SRT(rt) | (sf ? ISS_SF : 0) |
               (opc == 0 ? ISS_WNR : 0);
    }
    /* LDAR and STLR. */
    if ((instruction & 0x3fa08000) == 0x08808000) {
        return ISS_ISV | ISS_SAS(size) | ISS_SRT(rt) | (size == 3 ? ISS_SF : 0) | ISS_AR | (load ? 0 : ISS_WNR);
    }
    return load ? 0 : ISS_WNR;
}

#endif
