/* Compiles a sheet of three cues and runs its image on the desk, with the instructions that its delays take and HLT; prints what is put out, and shows a refusal
 * in words: one instruction less. */
#include "fsq.h"
#include <stdio.h>

int main(void) {
    fsq_cue_t sheet[] = {fsq_cue_of(125, 0x61, 0x01), fsq_cue_of(0x1234, 0x61, 0x80), fsq_cue_of(65535, 0x62, 0x00)};
    uint8_t image[FSQ_CUE_IMAGE_LENGTH], log[2 * 3];
    fsq_run_result_t result;
    uint32_t budget = 1;
    int answer, length = fsq_compile_cues(sheet, 3, image, sizeof image);
    if (length < 0)
        return -length;
    /* A cue takes as many instructions as its delay, and three. */
    for (int i = 0; i < 3; i++)
        budget += fsq_get_u16(sheet[i].bytes + FSQ_CUE_DELAY_AT) + 3u;

    answer = fsq_run_image(image, (size_t) length, budget, log, sizeof log, &result);
    if (answer < 0)
        return -answer;
    for (size_t i = 0; i < fsq_run_log_length(&result); i += 2)
        printf("port %02X mask %02X\n", log[i], log[i + 1]);
    printf("halted: %lu instructions\n", (unsigned long) fsq_run_count(&result));

    answer = fsq_run_image(image, (size_t) length, budget - 1, log, sizeof log, NULL);
    printf("refused: %d, %s\n%s\n", -answer, fsq_refusal_name(answer), fsq_refusal_sentence(answer));
    return 0;
}
