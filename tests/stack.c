/* Makes calls of peliranopi.h on a painted stack and prints for each how many bytes of it were touched, from the return address down:
 * stack EXAMPLE, the example file. An answer that is not due is named; the status is 1. */
#define _GNU_SOURCE
#include "peliranopi.h"

#include <stdio.h>
#include <stdlib.h>
#include <string.h>
#include <ucontext.h>

#define PAINT 0xA5

/* On x86-64 a function takes the arguments that it has and leaves further ones alone: so each is called with eleven words. */
typedef uintptr_t word;
typedef uint32_t call(word, word, word, word, word, word, word, word, word, word, word);
typedef void any(void);

static unsigned char stack[1 << 16];
static ucontext_t here, there;
static call *called;
static const word *with;
static uint32_t answer;

/* The end of the stack that whoever is called may use: one past the return address. */
static unsigned char *top;

static uint32_t mark_top(void)
{
    top = (unsigned char *)__builtin_frame_address(0) + 2 * sizeof(word);
    return 0;
}

static void enter(void)
{
    answer = called(with[0], with[1], with[2], with[3], with[4], with[5], with[6], with[7], with[8], with[9], with[10]);
}

/* Makes a call on the painted stack. */
static void run(any *function, const word *arguments)
{
    memset(stack, PAINT, sizeof stack);
    called = (call *)function;
    with = arguments;
    getcontext(&there);
    there.uc_stack.ss_sp = stack;
    there.uc_stack.ss_size = sizeof stack;
    there.uc_link = &here;
    makecontext(&there, enter, 0);
    swapcontext(&here, &there);
}

static void print(const char *name, any *function, uint32_t due, const word *arguments)
{
    run(function, arguments);
    const unsigned char *lowest = stack;
    while (*lowest == PAINT)
        lowest++;
    if (answer != due || lowest == stack) {
        printf("tests/stack: %s answered %u and not %u, or needs a longer stack\n", name, (unsigned)answer, (unsigned)due);
        exit(1);
    }
    printf("%s %zu\n", name, (size_t)(top - lowest));
}

#define PRINT(name, due, ...) print(#name, (any *)peliranopi_##name, due, (const word[11]){__VA_ARGS__})
#define AT(pointer) (word)(pointer)
#define TEXT(text) AT(text), sizeof(text) - 1

int main(int argc, char **argv)
{
    static uint8_t file[PELIRANOPI_FILE_LEN_MAX], output[128];
    static uint32_t list[16], kind, next;
    static size_t one, two, place;
    static uint64_t cents;
    static peliranopi_identcode_parts parts;
    static const size_t ends[10] = {3, 3, 8, 11, 17, 37, 45, 45, 45, 45};
    FILE *example = argc == 2 ? fopen(argv[1], "rb") : NULL;
    if (!example) {
        fprintf(stderr, "usage: stack EXAMPLE\n");
        return 2;
    }
    size_t length = fread(file, 1, sizeof file, example);
    fclose(example);
    run((any *)mark_top, (const word[11]){0});
    PRINT(judge, PELIRANOPI_ACCEPTED, AT(file), length, TEXT("CH"), AT(list), 16, AT(&one), AT(&two), AT(&cents), AT(&place));
    PRINT(read_line, PELIRANOPI_ACCEPTED, PELIRANOPI_FILE_VERSION_5, AT(file), length, 216, AT(&kind), AT(&one), AT(&two), AT(&place));
    PRINT(find_field, PELIRANOPI_ACCEPTED, PELIRANOPI_FILE_VERSION_5, AT(file), length, 216, 6, AT(&one), AT(&two), AT(&place));
    PRINT(write_line, PELIRANOPI_ACCEPTED, PELIRANOPI_FILE_VERSION_5, PELIRANOPI_FEATURE,
          TEXT("00612.50EURMusterAT611904300234573201ABCDATWW"), AT(ends), 10, AT(output), 128, 0, AT(&one), AT(&place));
    PRINT(read_line, PELIRANOPI_ACCEPTED, PELIRANOPI_FILE_VERSION_7, AT(file), length, 216, AT(&kind), AT(&one), AT(&two), AT(&place));
    PRINT(find_field, PELIRANOPI_ACCEPTED, PELIRANOPI_FILE_VERSION_7, AT(file), length, 216, 6, AT(&one), AT(&two), AT(&place));
    PRINT(write_line, PELIRANOPI_ACCEPTED, PELIRANOPI_FILE_VERSION_7, PELIRANOPI_FEATURE,
          TEXT("00612.50EURMusterAT611904300234573201ABCDATWW"), AT(ends), 10, AT(output), 128, 0, AT(&one), AT(&place));
    PRINT(write_purpose, PELIRANOPI_ACCEPTED, AT(file), length, TEXT("CH"), 5, AT(list), 16, AT(output), 128, AT(&one), AT(&place));
    PRINT(check_number, PELIRANOPI_ACCEPTED, TEXT("0002800099800000200371550566"), AT(&kind), AT(&place));
    PRINT(check_numbers, PELIRANOPI_ACCEPTED, TEXT("09980000020041F09980000020041G09980000020041f"), AT(output), 128, AT(&one), AT(&place));
    PRINT(issue_number, PELIRANOPI_ACCEPTED, TEXT("000280009980000020037155056"), AT(output), 128, AT(&one), AT(&place));
    PRINT(next_carry, PELIRANOPI_ACCEPTED, PELIRANOPI_CARRY_START, 'Z', AT(&next), AT(&place));
    PRINT(check_iban, PELIRANOPI_ACCEPTED, TEXT("AT611904300234573201"), AT(&place));
    PRINT(check_iban, PELIRANOPI_ACCEPTED, TEXT("HR38X13MXFE93T97YPN5GULXIZPWM6OZ39"), AT(&place));
    PRINT(check_iban, PELIRANOPI_WRONG_CHECK, TEXT("AT161904300234573201"), AT(&place));
    PRINT(check_identcode, PELIRANOPI_ACCEPTED, TEXT("1000000000000000000007"), AT(&place));
    PRINT(read_identcode, PELIRANOPI_ACCEPTED, TEXT("1000000000000000000007"), AT(&parts), AT(&place));
    PRINT(issue_identcode, PELIRANOPI_ACCEPTED, TEXT("100000000000000000000"), AT(output), 128, AT(&one), AT(&place));
    return 0;
}
