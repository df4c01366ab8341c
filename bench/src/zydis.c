// Zydis with all of the operands, as our reader gives them: real mode, 16 bits. The decoder is made once.
#include <Zydis/Zydis.h>

size_t zydis_read(const uint8_t *bytes, size_t length) {
    static ZydisDecoder decoder;
    static int ready;
    static ZydisDecodedInstruction instruction;
    static ZydisDecodedOperand operands[ZYDIS_MAX_OPERAND_COUNT];
    if (!ready) {
        ZydisDecoderInit(&decoder, ZYDIS_MACHINE_MODE_REAL_16, ZYDIS_STACK_WIDTH_16);
        ready = 1;
    }
    ZyanStatus status = ZydisDecoderDecodeFull(&decoder, bytes, length, &instruction, operands);
    return ZYAN_SUCCESS(status) ? instruction.length : 0;
}
