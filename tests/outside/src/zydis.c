// Zydis behind two functions, with the fields that zydis.rs takes.
#include <Zydis/Zydis.h>
#include <stdint.h>
#include <string.h>

enum { NONE, REGISTER_8, REGISTER_16, SEGMENT, MEMORY, IMMEDIATE, RELATIVE, POINTER, OTHER };

struct operand {
    uint8_t kind;
    uint8_t number;   // of the register; of the memory's base, as r/m counts it, 8 for none
    uint8_t size;     // of the memory, in bits
    uint8_t segment;  // in effect for the memory
    uint16_t value;   // displacement, immediate, distance, offset
    uint16_t pointed; // segment of a far target
};

struct decoded {
    uint8_t length; // 0: no instruction at the front, or not all of it
    uint8_t count;  // operands that an assembler writes
    uint16_t mnemonic;
    struct operand operands[3];
    uint8_t memory_segment; // of the first memory operand, also of one that is not written (XLAT); 255 for none
    uint8_t prefix;         // the last segment prefix, 0 for none
    uint8_t more;           // length 0: the bytes are the front of an instruction
    uint8_t repeat;         // F2 or F3 where Zydis says REPNE, REP or REPE, else 0
};

static uint8_t base_of(const ZydisDecodedOperandMem *m) {
    static const ZydisRegister pairs[8][2] = {
        { ZYDIS_REGISTER_BX, ZYDIS_REGISTER_SI }, { ZYDIS_REGISTER_BX, ZYDIS_REGISTER_DI },
        { ZYDIS_REGISTER_BP, ZYDIS_REGISTER_SI }, { ZYDIS_REGISTER_BP, ZYDIS_REGISTER_DI },
        { ZYDIS_REGISTER_SI, ZYDIS_REGISTER_NONE }, { ZYDIS_REGISTER_DI, ZYDIS_REGISTER_NONE },
        { ZYDIS_REGISTER_BP, ZYDIS_REGISTER_NONE }, { ZYDIS_REGISTER_BX, ZYDIS_REGISTER_NONE },
    };
    for (uint8_t i = 0; i < 8; i++)
        if (m->base == pairs[i][0] && m->index == pairs[i][1])
            return i;
    return m->base == ZYDIS_REGISTER_NONE && m->index == ZYDIS_REGISTER_NONE ? 8 : 255;
}

static void take(struct operand *to, const ZydisDecodedOperand *from) {
    switch (from->type) {
    case ZYDIS_OPERAND_TYPE_REGISTER: {
        ZydisRegisterClass class = ZydisRegisterGetClass(from->reg.value);
        to->kind = class == ZYDIS_REGCLASS_GPR8 ? REGISTER_8 : class == ZYDIS_REGCLASS_GPR16 ? REGISTER_16
            : class == ZYDIS_REGCLASS_SEGMENT ? SEGMENT : OTHER;
        to->number = (uint8_t) ZydisRegisterGetId(from->reg.value);
        break;
    }
    case ZYDIS_OPERAND_TYPE_MEMORY:
        to->kind = MEMORY;
        to->number = base_of(&from->mem);
        if (to->number == 255)
            to->kind = OTHER;
        to->size = (uint8_t) from->size;
        to->segment = (uint8_t) ZydisRegisterGetId(from->mem.segment);
        to->value = (uint16_t) from->mem.disp.value;
        break;
    case ZYDIS_OPERAND_TYPE_IMMEDIATE:
        to->kind = from->imm.is_relative ? RELATIVE : IMMEDIATE;
        to->value = (uint16_t) from->imm.value.u;
        break;
    case ZYDIS_OPERAND_TYPE_POINTER:
        to->kind = POINTER;
        to->value = (uint16_t) from->ptr.offset;
        to->pointed = from->ptr.segment;
        break;
    default:
        to->kind = OTHER;
    }
}

void zydis_read(const uint8_t *bytes, size_t length, struct decoded *out) {
    static ZydisDecoder decoder;
    static int ready;
    ZydisDecodedInstruction instruction;
    ZydisDecodedOperand operands[ZYDIS_MAX_OPERAND_COUNT];
    if (!ready) {
        ZydisDecoderInit(&decoder, ZYDIS_MACHINE_MODE_REAL_16, ZYDIS_STACK_WIDTH_16);
        ready = 1;
    }
    memset(out, 0, sizeof *out);
    out->memory_segment = 255;
    ZyanStatus status = ZydisDecoderDecodeFull(&decoder, bytes, length, &instruction, operands);
    if (!ZYAN_SUCCESS(status)) {
        out->more = status == ZYDIS_STATUS_NO_MORE_DATA;
        return;
    }
    out->length = instruction.length;
    out->mnemonic = (uint16_t) instruction.mnemonic;
    out->count = instruction.operand_count_visible;
    out->repeat = instruction.attributes & ZYDIS_ATTRIB_HAS_REPNE ? 0xF2 : instruction.attributes & (ZYDIS_ATTRIB_HAS_REP | ZYDIS_ATTRIB_HAS_REPE) ? 0xF3 : 0;
    for (uint8_t i = 0; i < instruction.operand_count_visible && i < 3; i++)
        take(&out->operands[i], &operands[i]);
    for (uint8_t i = instruction.operand_count; i-- > 0;)
        if (operands[i].type == ZYDIS_OPERAND_TYPE_MEMORY)
            out->memory_segment = (uint8_t) ZydisRegisterGetId(operands[i].mem.segment);
    for (uint8_t i = 0; i < instruction.raw.prefix_count; i++) {
        uint8_t value = instruction.raw.prefixes[i].value;
        if (value == 0x26 || value == 0x2E || value == 0x36 || value == 0x3E)
            out->prefix = value;
    }
}

// The name of a mnemonic's number, or null past the last.
const char *zydis_mnemonic(uint16_t number) {
    return number > ZYDIS_MNEMONIC_MAX_VALUE ? NULL : ZydisMnemonicGetString((ZydisMnemonic) number);
}
