/* The example of document 01's practice program, from C: one point is drawn, and its place, intensity and blink, the address of the word that drew it, the
   ending and the beats are written. Then a run with too large a budget, which is refused. Then the words of the example as a listing, which is read back into
   another memory, and refused once a line is spoiled. */
#include "eveglome.h"
#include <stdio.h>

static uint16_t memory[EVEGLOME_MEMORY], copy[EVEGLOME_MEMORY];

int main(void) {
    const uint16_t loan[EVEGLOME_LOAN] = {0, EVEGLOME_MEMORY, 0, EVEGLOME_MEMORY};
    uint16_t registers[EVEGLOME_ROW];
    uint64_t points[16] = {0};
    uint32_t answer[EVEGLOME_ANSWER];
    uint8_t text[4 * 43];
    uint32_t listed[EVEGLOME_LISTING_ANSWER];

    memory[00200] = 01101;
    memory[00201] = 04144;
    memory[00202] = 04310;
    memory[00203] = 01400;

    eveglome_fresh(registers);
    eveglome_operate(registers, EVEGLOME_START, 00200, answer);
    eveglome_run(registers, loan, memory, EVEGLOME_MEMORY, points, 16, 65535, answer);
    for (uint32_t i = 0; i < answer[EVEGLOME_POINTS]; i++)
        printf("%u %u %u %u %05o\n", EVEGLOME_POINT_X(points[i]), EVEGLOME_POINT_Y(points[i]), EVEGLOME_POINT_INTENSITY(points[i]),
               EVEGLOME_POINT_BLINK(points[i]), EVEGLOME_POINT_LAST_WORD(points[i]));
    printf("ending %u beats %u\n", (unsigned)answer[EVEGLOME_ENDING], (unsigned)answer[EVEGLOME_BEATS]);

    eveglome_run(registers, loan, memory, EVEGLOME_MEMORY, points, 16, 65536, answer);
    printf("refused %u\n", (unsigned)answer[EVEGLOME_ENDING]);

    eveglome_list(memory, EVEGLOME_MEMORY, 00200, 00204, 0, 0, text, sizeof text, listed);
    size_t length = listed[EVEGLOME_LISTING_LENGTH];
    fwrite(text, 1, length, stdout);
    eveglome_read(text, length, copy, EVEGLOME_MEMORY, 00200, 00204, 0, 0, listed);
    printf("read %u: %04o %04o %04o %04o\n", (unsigned)listed[EVEGLOME_LISTING_REFUSAL], copy[00200], copy[00201], copy[00202], copy[00203]);

    text[length - 2] = 'p';
    eveglome_read(text, length, copy, EVEGLOME_MEMORY, 00200, 00204, 0, 0, listed);
    printf("refused %u at line %u\n", (unsigned)listed[EVEGLOME_LISTING_REFUSAL], (unsigned)listed[EVEGLOME_LISTING_LINE]);
    return 0;
}
