/* Resolves a section file, prints its actions as words and whether the checker passes them:
   example FILE SUBTABLES POINTER_SIZE */
#include <inttypes.h>
#include <stdio.h>
#include <stdlib.h>

#include "mizgalon.h"

#define ACTIONS 1024

int main(int argc, char **argv)
{
    static uint8_t file[MIZGALON_MAX_FILE + 1];
    static uint64_t actions[ACTIONS * MIZGALON_ACTION_WORDS];
    static uint64_t temporaries[MIZGALON_MAX_TEMPORARIES];
    uint64_t result[MIZGALON_RESULT_NUMBERS];

    if (argc != 4) {
        fprintf(stderr, "example: name a section file, its subtables and its pointer size\n");
        return 2;
    }
    FILE *input = fopen(argv[1], "rb");
    if (!input) {
        fprintf(stderr, "example: %s cannot be opened\n", argv[1]);
        return 2;
    }
    size_t length = fread(file, 1, sizeof file, input);
    fclose(input);

    mizgalon_resolve(file, length, actions, ACTIONS * MIZGALON_ACTION_WORDS, temporaries,
                     MIZGALON_MAX_TEMPORARIES, result);
    if (result[MIZGALON_REFUSAL] != 0) {
        printf("refused: %" PRIu64 " at %" PRIu64 "\n", result[MIZGALON_REFUSAL],
               result[MIZGALON_ORDINAL]);
        return 1;
    }
    for (uint64_t i = 0; i < result[MIZGALON_ACTIONS]; i++) {
        const uint64_t *action = actions + i * MIZGALON_ACTION_WORDS;
        printf("kind %" PRIu64 " operation %" PRIu64 " number %" PRIu64, action[0], action[1],
               action[2]);
        for (uint64_t k = 0; k < action[3]; k++) {
            uint64_t word = action[7 + 2 * k];
            printf(" %u.%" PRIu64 ":%u", mizgalon_value_kind(word), action[6 + 2 * k],
                   mizgalon_value_size(word));
        }
        printf("\n");
    }
    bool passes = mizgalon_check(actions, ACTIONS * MIZGALON_ACTION_WORDS, result[MIZGALON_ACTIONS],
                                 result[MIZGALON_TEMPORARIES], strtoull(argv[2], NULL, 10),
                                 strtoull(argv[3], NULL, 10));
    printf("accepted: %" PRIu64 " points, the checker says %s\n", result[MIZGALON_POINTS],
           passes ? "yes" : "no");
    return 0;
}
