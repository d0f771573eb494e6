/* Compares koshirga_mul_add, koshirga_minimum_number, koshirga_sqrt and koshirga_sqrt_by_digits with
 * MPFR, rounded to binary64, and koshirga_to_f32 with MPFR, rounded to binary32.
 *
 * Standard input, from `compare cases`: for each class of cases a line with the number of operands,
 * the number of cases and the name, which begins with the function's (mul_add, minimum_number, sqrt
 * for both roots, to_f32), then the operands as they lie in memory.
 * Each class has its line on standard output, with the number of comparisons: two for a radicand,
 * one for other operands. The sums have theirs in the file that the argument
 * names, as `compare` writes it.
 * Exit status: 0 no difference; 1 some; 2 input that can't be read, or a file that can't be written.
 */
#define _POSIX_C_SOURCE 200809L

#include <inttypes.h>
#include <stdio.h>
#include <stdlib.h>
#include <string.h>
#include <time.h>

#include <mpfr.h>

#include "koshirga.h"

enum {
    DESCRIBED = 3, /* differences that a class shows; the others are counted */
    OPERANDS = 3,
    NAME = 64
};

/* Digits of a significand, and the exponents of MPFR's significands, which are below 1: the least
 * subnormal of binary64, 2^-1074, is 1/2 * 2^-1073, that of binary32, 2^-149, is 1/2 * 2^-148. */
typedef struct {
    mpfr_prec_t precision;
    mpfr_exp_t least_exponent;
    mpfr_exp_t greatest_exponent;
} format;

static const format BINARY64 = {53, -1073, 1024};
static const format BINARY32 = {24, -148, 128};

enum { MUL_ADD, MINIMUM_NUMBER, SQRT, TO_F32, FUNCTIONS };

/* The beginning of a class's name, the number of operands, the calls that are compared, and what the
 * result is rounded to. */
static const struct {
    const char *name;
    int operands;
    int calls;
    const format *rounded_to;
} FUNCTION[FUNCTIONS] = {
    {"mul_add", 3, 1, &BINARY64},
    {"minimum_number", 2, 1, &BINARY64},
    {"sqrt", 1, 2, &BINARY64},
    {"to_f32", 1, 1, &BINARY32},
};

static mpfr_t operand[OPERANDS];
static mpfr_t result;

typedef struct {
    int function;
    uint64_t count;
    char name[NAME];
} class_head;

static uint64_t bits_of(double x) {
    uint64_t bits;
    memcpy(&bits, &x, sizeof bits);
    return bits;
}

/* NaN bits are free. */
static int same(double x, double y) {
    return bits_of(x) == bits_of(y) || (x != x && y != y);
}

/* The exact value, rounded once: subnormalize rounds what mpfr_fma, mpfr_sqrt and mpfr_set_d have
 * rounded to the format's digits and knows from `inexact` on which side of the exact value that lies.
 * Of zeros of different signs mpfr_min gives -0, and of a number and a NaN the number, as
 * minimumNumber does (IEEE 754-2019, 9.6). */
static double by_mpfr(int function, const double *x) {
    int inexact;
    if (function != TO_F32)
        for (int i = 0; i < FUNCTION[function].operands; i++)
            mpfr_set_d(operand[i], x[i], MPFR_RNDN);
    if (function == MUL_ADD)
        inexact = mpfr_fma(result, operand[0], operand[1], operand[2], MPFR_RNDN);
    else if (function == MINIMUM_NUMBER)
        inexact = mpfr_min(result, operand[0], operand[1], MPFR_RNDN);
    else if (function == SQRT)
        inexact = mpfr_sqrt(result, operand[0], MPFR_RNDN);
    else
        inexact = mpfr_set_d(result, x[0], MPFR_RNDN);
    mpfr_subnormalize(result, inexact, MPFR_RNDN);
    return mpfr_get_d(result, MPFR_RNDN);
}

/* A float is widened, which changes no number. */
static double by_koshirga(int function, int call, const double *x) {
    if (function == MUL_ADD)
        return koshirga_mul_add(x[0], x[1], x[2]);
    if (function == MINIMUM_NUMBER)
        return koshirga_minimum_number(x[0], x[1]);
    if (function == TO_F32)
        return koshirga_to_f32(x[0]);
    return call == 0 ? koshirga_sqrt(x[0]) : koshirga_sqrt_by_digits(x[0]);
}

static void describe(int function, int call, const double *x, double ours, double mpfr) {
    printf("    call %d differs:", call);
    for (int i = 0; i < FUNCTION[function].operands; i++)
        printf(" 0x%016" PRIx64, bits_of(x[i]));
    printf(": %a, MPFR %a\n", ours, mpfr);
}

static void unreadable(void) {
    fprintf(stderr, "judge: the input isn't what `compare cases` writes\n");
    exit(2);
}

/* The function whose name begins that of a class, or FUNCTIONS. */
static int function_of(const char *name) {
    const size_t length = strcspn(name, ",");
    int function = 0;
    while (function < FUNCTIONS
           && (strlen(FUNCTION[function].name) != length
               || memcmp(FUNCTION[function].name, name, length) != 0))
        function++;
    return function;
}

/* Reads the line that begins a class. 0 at the end of the input. */
static int read_head(class_head *head) {
    char line[2 * NAME];
    int name_at = 0, operands = 0;
    if (!fgets(line, sizeof line, stdin))
        return 0;
    line[strcspn(line, "\n")] = '\0';
    if (sscanf(line, "%d %" SCNu64 " %n", &operands, &head->count, &name_at) != 2
        || strlen(line + name_at) >= NAME)
        unreadable();
    strcpy(head->name, line + name_at);
    head->function = function_of(head->name);
    if (head->function == FUNCTIONS || operands != FUNCTION[head->function].operands)
        unreadable();
    return 1;
}

static double seconds(void) {
    struct timespec now;
    clock_gettime(CLOCK_MONOTONIC, &now);
    return (double)now.tv_sec + (double)now.tv_nsec * 1e-9;
}

/* Judges the cases of a class and prints its line. Gives the number of differences. */
static uint64_t judge(const class_head *head) {
    const int function = head->function, calls = FUNCTION[function].calls;
    const size_t operands = (size_t)FUNCTION[function].operands;
    const format *rounded_to = FUNCTION[function].rounded_to;
    const double start = seconds();
    const uint64_t comparisons = head->count * (uint64_t)calls;
    double described[DESCRIBED][OPERANDS];
    int described_call[DESCRIBED];
    uint64_t differences = 0;
    mpfr_set_prec(result, rounded_to->precision);
    mpfr_set_emin(rounded_to->least_exponent);
    mpfr_set_emax(rounded_to->greatest_exponent);
    for (uint64_t i = 0; i < head->count; i++) {
        double x[OPERANDS];
        if (fread(x, sizeof *x, operands, stdin) != operands)
            unreadable();
        const double mpfr = by_mpfr(function, x);
        for (int call = 0; call < calls; call++) {
            if (same(by_koshirga(function, call, x), mpfr))
                continue;
            if (differences < DESCRIBED) {
                memcpy(described[differences], x, sizeof x);
                described_call[differences] = call;
            }
            differences++;
        }
    }
    printf("%-10s  %-30s  %11" PRIu64 "  %11" PRIu64 "  %7.2f\n", "mpfr", head->name, comparisons,
           differences, seconds() - start);
    for (uint64_t i = 0; i < differences && i < DESCRIBED; i++)
        describe(function, described_call[i], described[i],
                 by_koshirga(function, described_call[i], described[i]),
                 by_mpfr(function, described[i]));
    fflush(stdout);
    return differences;
}

int main(int arguments, char **argument) {
    class_head head;
    uint64_t classes = 0, count = 0, differences = 0;
    const double start = seconds();
    FILE *summary = arguments == 2 ? fopen(argument[1], "w") : NULL;
    if (!summary) {
        fprintf(stderr, "usage: judge SUMMARY, a file that can be written\n");
        return 2;
    }
    for (int i = 0; i < OPERANDS; i++)
        mpfr_init2(operand[i], BINARY64.precision);
    mpfr_init2(result, BINARY64.precision);
    printf("judge: MPFR %s\n", mpfr_get_version());
    while (read_head(&head)) {
        differences += judge(&head);
        count += head.count * (uint64_t)FUNCTION[head.function].calls;
        classes++;
    }
    if (classes == 0)
        unreadable();
    fprintf(summary, "mpfr\t%" PRIu64 "\t%" PRIu64 "\t%" PRIu64 "\t%.2f\n", classes, count,
            differences, seconds() - start);
    if (fclose(summary) != 0) {
        fprintf(stderr, "judge: %s can't be written\n", argument[1]);
        return 2;
    }
    return differences != 0;
}
