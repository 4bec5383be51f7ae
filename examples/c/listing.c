/* Reads a file and prints its marks and errors, as the program marks does: 0, marks and errors; a line of kind and place per mark; a
 * line of seven numbers per error. A refusal prints its number and value. */
#include <bevelumber.h>
#include <inttypes.h>
#include <stdio.h>
#include <stdlib.h>

/* The bytes of a file, or null. One byte more than the longest source is enough to be refused. */
static uint8_t *load(const char *path, size_t *length) {
    FILE *file = fopen(path, "rb");
    if (file == NULL) return NULL;
    uint8_t *bytes = malloc(BEVELUMBER_MAX_LENGTH + 1);
    if (bytes != NULL) *length = fread(bytes, 1, BEVELUMBER_MAX_LENGTH + 1, file);
    fclose(file);
    return bytes;
}

static void print_marks(const uint32_t *tree) {
    for (size_t i = 0; i < bevelumber_marks(tree); i++)
        printf("%" PRIu32 " %" PRIu32 "\n", bevelumber_mark_kind(tree, i), bevelumber_mark_place(tree, i));
}

static void print_errors(const uint32_t *errors) {
    for (size_t i = 0; i < bevelumber_errors(errors); i++) {
        printf("%" PRIu32, bevelumber_error_kind(errors, i));
        for (size_t k = 0; k < 6; k++) printf(" %" PRIu32, bevelumber_error_group(errors, i)[k]);
        printf("\n");
    }
}

int main(int argc, char **argv) {
    size_t length;
    uint8_t *source = argc == 2 ? load(argv[1], &length) : NULL;
    if (source == NULL) {
        fprintf(stderr, "usage: %s FILE\n", argv[0]);
        return 2;
    }
    size_t tree_length = BEVELUMBER_TREE_WORDS(length), errors_length = BEVELUMBER_ERROR_WORDS(length);
    uint32_t *tree = malloc(tree_length * sizeof *tree), *errors = malloc(errors_length * sizeof *errors);
    if (tree == NULL || errors == NULL) return 2;
    uint64_t returned;
    uint32_t answer = bevelumber_read(source, length, tree, tree_length, errors, errors_length, &returned);
    if (answer == BEVELUMBER_ACCEPTED) {
        printf("0 %zu %zu\n", bevelumber_marks(tree), bevelumber_errors(errors));
        print_marks(tree);
        print_errors(errors);
    } else {
        printf("%" PRIu32 " %" PRIu64 "\n", answer, returned);
    }
    free(errors);
    free(tree);
    free(source);
    return answer == BEVELUMBER_ACCEPTED ? 0 : 1;
}
