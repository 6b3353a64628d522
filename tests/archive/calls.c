/* Holds the calls of the static library beside gv_site and gv_list to stored answers. Usage: calls CASES EXPECTED
   The files are those of tests/archive_frames.py. Every struct and output has exactly its length. */
#include "compare.h"

struct call {
    uint32_t which, a, b, c, first_len, second_len, out_len;
    uint8_t *first, *second;
};

static uint8_t *bytes(size_t n, FILE *f)
{
    uint8_t *p = malloc(n ? n : 1);
    need(p, n, f);
    return p;
}

static struct call next(FILE *f)
{
    struct call x = {.which = word(f)};
    x.a = word(f), x.b = word(f), x.c = word(f);
    x.first_len = word(f), x.second_len = word(f), x.out_len = word(f);
    x.first = bytes(x.first_len, f), x.second = bytes(x.second_len, f);
    return x;
}

/* A struct that has its length goes by the function of gv.h that takes structs, which calls the one that takes bytes. */
static uint64_t made(const struct call *x, uint8_t *out)
{
    const struct gv_header *header = x->first_len == GV_STRUCT ? (const void *)x->first : NULL;
    const struct gv_contaminant *contaminant = x->second_len == GV_STRUCT ? (const void *)x->second : NULL;
    switch (x->which) {
    case 1:
        if (header && contaminant && x->out_len == GV_GUIDELINES)
            return gv_single(x->a, header, contaminant, (void *)out);
        return gv_guideline(x->a, x->first, x->first_len, x->second, x->second_len, out, x->out_len);
    case 2:
        if (header)
            return gv_put_header(out, x->out_len, x->a, header);
        return gv_write_header(out, x->out_len, x->a, x->first, x->first_len);
    case 3:
        if (contaminant)
            return gv_put_contaminant(out, x->out_len, x->a, contaminant);
        return gv_write_contaminant(out, x->out_len, x->a, x->second, x->second_len);
    default:
        return gv_write_built_in(out, x->out_len, x->a, x->b, x->c);
    }
}

int main(int argc, char **argv)
{
    FILE *cases = argc == 3 ? fopen(argv[1], "rb") : NULL, *expected = argc == 3 ? fopen(argv[2], "rb") : NULL;
    if (!cases || !expected) {
        fprintf(stderr, "usage: calls CASES EXPECTED\n");
        return 2;
    }
    unsigned long count = 0, wrong = 0;
    for (int c; (c = fgetc(cases)) != EOF; count++) {
        ungetc(c, cases);
        struct call x = next(cases);
        uint64_t answer = number(expected);
        uint8_t *left = bytes(x.out_len, expected), *out = filled(x.out_len);
        int same = made(&x, out) == answer && memcmp(out, left, x.out_len) == 0 && guarded(out, x.out_len);
        if (!same) {
            printf("call %lu, of kind %u: differs\n", count, x.which);
            wrong++;
        }
        free(x.first), free(x.second), free(left), free(out);
    }
    printf("%lu calls of guideline and writers, %lu differ\n", count, wrong);
    return wrong != 0;
}
