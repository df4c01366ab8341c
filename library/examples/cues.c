/* Compiles a sheet of three cues to the image of a field module, prints its instructions as they are read back, and shows a refusal in words: a delay of 0. */
#include "fsq.h"
#include <stdio.h>

int main(void) {
    /* After so many turns of LOOP the port gets the mask. */
    fsq_cue_t sheet[] = {fsq_cue_of(125, 0x61, 0x01), fsq_cue_of(0x1234, 0x61, 0x80), fsq_cue_of(65535, 0x62, 0x00)};
    uint8_t image[FSQ_CUE_IMAGE_LENGTH];
    fsq_reading_t reading;

    int length = fsq_compile_cues(sheet, 3, image, sizeof image);
    if (length < 0)
        return -length;
    printf("compiled: %d bytes\n", length);
    for (int at = 0, read; at < length; at += read) {
        read = fsq_read_at(image + at, (size_t) (length - at), (uint16_t) at, &reading);
        if (read < 0)
            return -read;
        printf("%04X", (unsigned) at);
        for (int i = 0; i < read; i++)
            printf(" %02X", image[at + i]);
        printf(" %s\n", fsq_operation_name(fsq_reading_operation(&reading)));
    }

    sheet[1] = fsq_cue_of(0, 0x61, 0x80);
    length = fsq_compile_cues(sheet, 3, image, sizeof image);
    printf("refused: %d, %s\n%s\n", -length, fsq_refusal_name(length), fsq_refusal_sentence(length));
    return 0;
}
