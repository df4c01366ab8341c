//! The functions and numbers of library/include/fsq.h. tools/bindings.py writes this file.

#![allow(dead_code, unused_macros, unused_imports)] // a driver may use some of them

extern "C" {
    pub fn fsq_encode(
        record: *const u8,
        record_len: usize,
        offset: u16,
        out: *mut u8,
        out_len: usize,
        report: *mut u8,
        report_len: usize,
    ) -> u8;
    pub fn fsq_shortest(
        record: *const u8,
        record_len: usize,
        offset: u16,
        out: *mut u8,
        out_len: usize,
        report: *mut u8,
        report_len: usize,
    ) -> u8;
    pub fn fsq_list(
        record: *const u8,
        record_len: usize,
        offset: u16,
        out: *mut u8,
        out_len: usize,
        report: *mut u8,
        report_len: usize,
    ) -> u8;
    pub fn fsq_form(
        record: *const u8,
        record_len: usize,
        offset: u16,
        out: *mut u8,
        out_len: usize,
        report: *mut u8,
        report_len: usize,
    ) -> u8;
    pub fn fsq_read(bytes: *const u8, bytes_len: usize, offset: u16, out: *mut u8, out_len: usize) -> u8;
    pub fn fsq_load(file: *const u8, file_len: usize, image: *mut u8, image_len: usize, report: *mut u8, report_len: usize) -> u8;
    pub fn fsq_evaluate(text: *const u8, text_len: usize, report: *mut u8, report_len: usize) -> u8;
    pub fn fsq_cue(cues: *const u8, cues_len: usize, image: *mut u8, image_len: usize, report: *mut u8, report_len: usize) -> u8;
    pub fn fsq_run(image: *const u8, image_len: usize, budget: u32, log: *mut u8, log_len: usize, out: *mut u8, out_len: usize) -> u8;
    pub fn fsq_check(file: *const u8, file_len: usize, report: *mut u8, report_len: usize) -> u8;
    pub fn fsq_convert(file: *const u8, file_len: usize, out: *mut u8, out_len: usize, report: *mut u8, report_len: usize) -> u8;
}

// enum fsq_answer
pub const FSQ_DONE: u8 = 0;
pub const FSQ_INVALID_OPERANDS: u8 = 1;
pub const FSQ_OPERAND_SIZE_NOT_SPECIFIED: u8 = 2;
pub const FSQ_OPERAND_SIZES_DO_NOT_MATCH: u8 = 3;
pub const FSQ_INVALID_OPERAND_SIZE: u8 = 4;
pub const FSQ_IMMEDIATE_OUT_OF_RANGE: u8 = 5;
pub const FSQ_RELATIVE_JUMP_OUT_OF_RANGE: u8 = 6;
pub const FSQ_NOT_SUPPORTED: u8 = 7;
pub const FSQ_NOT_WELL_FORMED: u8 = 8;
pub const FSQ_SLICE_TOO_SHORT: u8 = 9;
pub const FSQ_NOT_AN_INSTRUCTION: u8 = 10;
pub const FSQ_NOT_COMPLETE: u8 = 11;
pub const FSQ_NO_MARK: u8 = 12;
pub const FSQ_WRONG_VERSION: u8 = 13;
pub const FSQ_WRONG_LENGTH: u8 = 14;
pub const FSQ_UNKNOWN_CODE: u8 = 15;
pub const FSQ_NOT_A_SUM: u8 = 16;
pub const FSQ_TOO_DEEP: u8 = 17;
pub const FSQ_VALUE_OUT_OF_RANGE: u8 = 18;
pub const FSQ_NOT_A_CUE_LIST: u8 = 19;
pub const FSQ_NO_DELAY: u8 = 20;
pub const FSQ_NOT_CARRIED_OUT: u8 = 21;
pub const FSQ_BUDGET_SPENT: u8 = 22;
pub const FSQ_INVALID_REPEAT: u8 = 23;
pub const FSQ_SHIFT_COUNT_OUT_OF_RANGE: u8 = 24;
pub const FSQ_NO_RECORD_AT_TARGET: u8 = 25;

// enum fsq_length
pub const FSQ_RECORD_LENGTH: usize = 56;
pub const FSQ_REPEAT_RECORD_LENGTH: usize = 57;
pub const FSQ_REPORT_LENGTH: usize = 28;
pub const FSQ_STRING_LENGTH: usize = 7;
pub const FSQ_READING_LENGTH: usize = 24;
pub const FSQ_ENTRY_LENGTH: usize = 8;
pub const FSQ_LIST_LENGTH: usize = 96;
pub const FSQ_FORM_LENGTH: usize = 64;
pub const FSQ_RUN_RESULT_LENGTH: usize = 16;
pub const FSQ_REACH_LENGTH: usize = 65536;
pub const FSQ_HEADER_LENGTH: usize = 9;
pub const FSQ_OPERAND_LENGTH: usize = 23;
pub const FSQ_IMAGE_LENGTH: usize = 56000;
pub const FSQ_FILE_LENGTH: usize = 456009;
pub const FSQ_CONVERTED_LENGTH: usize = 56009;
pub const FSQ_CUE_LENGTH: usize = 4;
pub const FSQ_CUE_CODE_LENGTH: usize = 9;
pub const FSQ_CUE_IMAGE_LENGTH: usize = 1801;

// enum fsq_limit
pub const FSQ_MOST_RECORDS: u16 = 8000;
pub const FSQ_SHORT_RECORDS: u16 = 1000;
pub const FSQ_MOST_ENTRIES: u16 = 12;
pub const FSQ_MOST_DEPTH: u16 = 16;
pub const FSQ_MOST_CUES: u16 = 200;
pub const FSQ_FILE_VERSION: u16 = 1;
pub const FSQ_LONG_VERSION: u16 = 2;
pub const FSQ_REPEAT_VERSION: u16 = 3;

// enum fsq_report
pub const FSQ_REPORT_LENGTH_AT: usize = 0;
pub const FSQ_REPORT_SPAN_START_AT: usize = 4;
pub const FSQ_REPORT_SPAN_END_AT: usize = 8;
pub const FSQ_REPORT_VALUE_AT: usize = 12;
pub const FSQ_REPORT_LOW_AT: usize = 16;
pub const FSQ_REPORT_HIGH_AT: usize = 20;
pub const FSQ_REPORT_RECORD_AT: usize = 24;

// enum fsq_run_result
pub const FSQ_RUN_COUNT_AT: usize = 0;
pub const FSQ_RUN_LOG_LENGTH_AT: usize = 8;

// enum fsq_header
pub const FSQ_HEADER_MARK_AT: usize = 0;
pub const FSQ_HEADER_VERSION_AT: usize = 3;
pub const FSQ_HEADER_ORIGIN_AT: usize = 5;
pub const FSQ_HEADER_COUNT_AT: usize = 7;

// enum fsq_cue_field
pub const FSQ_CUE_DELAY_AT: usize = 0;
pub const FSQ_CUE_PORT_AT: usize = 2;
pub const FSQ_CUE_MASK_AT: usize = 3;

// enum fsq_record
pub const FSQ_OPERATION_AT: usize = 0;
pub const FSQ_COUNT_AT: usize = 1;
pub const FSQ_REPEAT_AT: usize = 2;
pub const FSQ_SPAN_START_AT: usize = 2;
pub const FSQ_SPAN_END_AT: usize = 6;
pub const FSQ_FIRST_AT: usize = 10;
pub const FSQ_SECOND_AT: usize = 33;

// enum fsq_operand
pub const FSQ_KIND_AT: usize = 0;
pub const FSQ_SIZE_AT: usize = 1;
pub const FSQ_PREFIX_AT: usize = 2;
pub const FSQ_DISPLACEMENT_SIZE_AT: usize = 3;
pub const FSQ_JUMP_AT: usize = 4;
pub const FSQ_MODE_AT: usize = 5;
pub const FSQ_RM_AT: usize = 6;
pub const FSQ_IMMEDIATE_AT: usize = 7;
pub const FSQ_DISPLACEMENT_AT: usize = 11;
pub const FSQ_OPERAND_SPAN_START_AT: usize = 15;
pub const FSQ_OPERAND_SPAN_END_AT: usize = 19;

// enum fsq_kind
pub const FSQ_IMM: u8 = 0;
pub const FSQ_REG: u8 = 1;
pub const FSQ_SEG: u8 = 2;
pub const FSQ_MEM: u8 = 3;

// enum fsq_size
pub const FSQ_UNSPECIFIED: u8 = 0;
pub const FSQ_BYTE: u8 = 1;
pub const FSQ_WORD: u8 = 2;

// enum fsq_jump
pub const FSQ_NO_KIND: u8 = 0;
pub const FSQ_FAR: u8 = 1;
pub const FSQ_NEAR: u8 = 2;
pub const FSQ_SHORT: u8 = 3;

// enum fsq_repeat
pub const FSQ_REPEAT_NONE: u8 = 0;
pub const FSQ_REPEAT_REPNE: u8 = 242;
pub const FSQ_REPEAT_REP: u8 = 243;

// enum fsq_reading
pub const FSQ_READ_LENGTH_AT: usize = 0;
pub const FSQ_READ_OPERATION_AT: usize = 1;
pub const FSQ_READ_WIDTH_AT: usize = 2;
pub const FSQ_READ_OPCODE_AT: usize = 3;
pub const FSQ_READ_EXTENSION_AT: usize = 4;
pub const FSQ_READ_REPEAT_AT: usize = 5;
pub const FSQ_READ_FIRST_AT: usize = 8;
pub const FSQ_READ_SECOND_AT: usize = 16;

// enum fsq_read_operand
pub const FSQ_READ_KIND_AT: usize = 0;
pub const FSQ_READ_NUMBER_AT: usize = 1;
pub const FSQ_READ_SEGMENT_AT: usize = 2;
pub const FSQ_READ_VALUE_AT: usize = 4;
pub const FSQ_READ_FAR_SEGMENT_AT: usize = 6;

// enum fsq_read_kind
pub const FSQ_READ_NONE: u8 = 0;
pub const FSQ_READ_REGISTER: u8 = 1;
pub const FSQ_READ_SEGMENT_REGISTER: u8 = 2;
pub const FSQ_READ_MEMORY: u8 = 3;
pub const FSQ_READ_IMMEDIATE: u8 = 4;
pub const FSQ_READ_NEAR: u8 = 5;
pub const FSQ_READ_FAR: u8 = 6;
pub const FSQ_READ_ONE: u8 = 7;

// enum fsq_extension
pub const FSQ_EXTENSION_NONE: u8 = 0;
pub const FSQ_EXTENSION_PLUS_REGISTER: u8 = 1;
pub const FSQ_EXTENSION_PLUS_SEGMENT: u8 = 2;
pub const FSQ_EXTENSION_MODRM: u8 = 3;
pub const FSQ_EXTENSION_0A: u8 = 4;
pub const FSQ_EXTENSION_DIGIT: u8 = 8;

// enum fsq_register
pub const FSQ_AL: u8 = 0;
pub const FSQ_CL: u8 = 1;
pub const FSQ_DL: u8 = 2;
pub const FSQ_BL: u8 = 3;
pub const FSQ_AH: u8 = 4;
pub const FSQ_CH: u8 = 5;
pub const FSQ_DH: u8 = 6;
pub const FSQ_BH: u8 = 7;
pub const FSQ_AX: u8 = 8;
pub const FSQ_CX: u8 = 9;
pub const FSQ_DX: u8 = 10;
pub const FSQ_BX: u8 = 11;
pub const FSQ_SP: u8 = 12;
pub const FSQ_BP: u8 = 13;
pub const FSQ_SI: u8 = 14;
pub const FSQ_DI: u8 = 15;

// enum fsq_segment
pub const FSQ_ES: u8 = 0;
pub const FSQ_CS: u8 = 1;
pub const FSQ_SS: u8 = 2;
pub const FSQ_DS: u8 = 3;

// enum fsq_base
pub const FSQ_BASE_BX_SI: u8 = 0;
pub const FSQ_BASE_BX_DI: u8 = 1;
pub const FSQ_BASE_BP_SI: u8 = 2;
pub const FSQ_BASE_BP_DI: u8 = 3;
pub const FSQ_BASE_SI: u8 = 4;
pub const FSQ_BASE_DI: u8 = 5;
pub const FSQ_BASE_BP: u8 = 6;
pub const FSQ_BASE_BX: u8 = 7;
pub const FSQ_BASE_NONE: u8 = 8;

pub const FSQ_NO_RECORD: u32 = 4294967295;

/// The operations in the order of their numbers, handed to the macro named.
macro_rules! operations {
    ($use:ident) => {
        $use! {
            MOV PUSH POP XCHG IN OUT XLATB LEA LDS LES LAHF SAHF PUSHF POPF ADD ADC INC AAA DAA SUB SBB DEC NEG CMP AAS DAS MUL IMUL AAM DIV
            IDIV AAD CBW CWD NOT SHL SHR SAR ROL ROR RCL RCR AND TEST OR XOR REP REPNE MOVSB MOVSW CMPSB CMPSW SCASB SCASW LODSB LODSW STOSB
            STOSW CALL JMP RET JE JL JLE JB JBE JP JO JS JNE JNL JNLE JNB JNBE JNP JNO JNS LOOP LOOPZ LOOPNZ JCXZ INT INT1 INT3 INTO IRET
            CLC CMC STC CLD STD CLI STI HLT WAIT ESC LOCK NOP SALC
        }
    };
}
pub(crate) use operations;
