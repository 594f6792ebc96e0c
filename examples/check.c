/*
 * Judges the form of a folder by its names.txt, sheet.bin and form.txt, and prints the verdict, and each node's symbol and state word.
 *
 *     compare/library
 *     cc -Iinclude examples/check.c target/staticlib/libcapi.a -o target/check
 *     target/check crates/formcheck/data
 */
#include <inttypes.h>
#include <stdio.h>

#include "formcheck.h"

/* One word more than the longest file that passes, a sheet's: the verdict on a longer file is the same. */
enum { MOST_BYTES = 4 * (FORMCHECK_SHEET_WORDS + 1) };

static uint8_t list[MOST_BYTES], file[MOST_BYTES], text[MOST_BYTES];
static uint32_t sheet[FORMCHECK_SHEET_WORDS], tree[FORMCHECK_TREE_WORDS], states[FORMCHECK_STATE_WORDS];

static size_t read_file(const char *folder, const char *name, uint8_t *bytes)
{
    char path[4096];
    snprintf(path, sizeof path, "%s/%s", folder, name);
    FILE *opened = fopen(path, "rb");
    if (!opened)
        return 0;
    size_t n = fread(bytes, 1, MOST_BYTES, opened);
    fclose(opened);
    return n;
}

static void print_answer(const uint64_t *answer)
{
    static const char *const kinds[] = {"count", "accepted", "refused", "stuck", "error"};
    printf("%s %" PRIu64 " %" PRIu64 "\n", kinds[answer[0]], answer[1], answer[2]);
}

int main(int arguments, char **argument)
{
    const char *folder = arguments > 1 ? argument[1] : ".";
    size_t list_bytes = read_file(folder, "names.txt", list);
    size_t file_bytes = read_file(folder, "sheet.bin", file);
    size_t text_bytes = read_file(folder, "form.txt", text);
    uint64_t answer[3];

    /* All checks at once, in the order of the program formcheck. */
    formcheck_verdict(list, list_bytes, file, file_bytes, text, text_bytes, answer, 3);
    print_answer(answer);
    if (answer[0] == FORMCHECK_ERROR)
        return 1;

    /* The calls one by one, to have the tree and its states as well. After a verdict none of them refuses. */
    formcheck_sheet_from_file(file, file_bytes, sheet, FORMCHECK_SHEET_WORDS, answer, 3);
    size_t sheet_words = answer[1];
    formcheck_read(list, list_bytes, text, text_bytes, tree, FORMCHECK_TREE_WORDS, answer, 3);
    size_t nodes = answer[1];
    formcheck_judge(sheet, sheet_words, tree, 4 * nodes, states, FORMCHECK_STATE_WORDS, answer, 3);
    print_answer(answer);
    for (size_t i = 0; i < nodes; i++)
        printf("node %zu: symbol %" PRIu32 ", state word %" PRIu32 "\n", i, tree[4 * i], states[i]);
    return 0;
}
