/* Holds the static library to stored answers. Usage: compare CASES EXPECTED
   A case is the site's length, the output's length (4 bytes each) and the site; its answer is the number that gv_site
   returns (8 bytes), the output afterwards, the length of the listing (4 bytes) and the listing. Every buffer has exactly
   its length, so that valgrind sees a byte read or written past it; the output is filled before, with guard bytes behind it. */
#include "compare.h"

/* What gv.h reads out of the summary and the results of an accepted site is what stands there, byte by byte. */
static int read_right(const uint8_t *out, uint32_t site_len, uint64_t answer)
{
    struct gv_summary s = gv_read_summary(out);
    if (s.risk_verdict != gv_risk_verdict(answer) || s.hazard_verdict != gv_hazard_verdict(answer) || memcmp(&s, out + 16, sizeof s) != 0)
        return 0;
    for (uint32_t k = 1; k < site_len / GV_BLOCK; k++) {
        struct gv_result r = gv_read_result(out + GV_BLOCK * k);
        if (r.place != k || memcmp(&r, out + GV_BLOCK * k + 4, sizeof r) != 0)
            return 0;
    }
    return 1;
}

/* The first thing that differs, or null. */
static const char *differs(const uint8_t *site, uint32_t site_len, uint32_t out_len, uint64_t answer, const uint8_t *left,
                           const uint8_t *text, uint32_t text_len)
{
    const char *what = NULL;
    uint8_t *out = filled(out_len), *again = filled(out_len), *listed = filled(GV_TEXT_ROOM);
    if (gv_site(site, site_len, out, out_len) != answer)
        what = "answer";
    else if (memcmp(out, left, out_len) != 0)
        what = "output";
    else if (gv_refusal(answer) == GV_ACCEPTED && !read_right(out, site_len, answer))
        what = "summary or result";
    else if (gv_list(site, site_len, again, out_len, listed, GV_TEXT_ROOM) != text_len || memcmp(listed, text, text_len) != 0)
        what = "listing";
    else if (memcmp(again, left, out_len) != 0)
        what = "output of the listing";
    else if (listed[text_len] != FILL)
        what = "byte after the listing";
    else if (gv_list(site, site_len, again, out_len, listed, GV_TEXT_ROOM - 1) != 0)
        what = "length in a short text";
    else if (!guarded(out, out_len) || !guarded(again, out_len) || !guarded(listed, GV_TEXT_ROOM))
        what = "guard bytes";
    free(out), free(again), free(listed);
    return what;
}

int main(int argc, char **argv)
{
    FILE *cases = argc == 3 ? fopen(argv[1], "rb") : NULL, *expected = argc == 3 ? fopen(argv[2], "rb") : NULL;
    if (!cases || !expected) {
        fprintf(stderr, "usage: compare CASES EXPECTED\n");
        return 2;
    }
    unsigned long count = 0, wrong = 0;
    for (int c; (c = fgetc(cases)) != EOF; count++) {
        ungetc(c, cases);
        uint32_t site_len = word(cases), out_len = word(cases);
        uint8_t *site = malloc(site_len), *left = malloc(out_len);
        need(site, site_len, cases);
        uint64_t answer = number(expected);
        need(left, out_len, expected);
        uint32_t text_len = word(expected);
        uint8_t *text = malloc(text_len);
        need(text, text_len, expected);
        const char *what = differs(site, site_len, out_len, answer, left, text, text_len);
        if (what) {
            printf("case %lu: %s differs\n", count, what);
            wrong++;
        }
        free(site), free(left), free(text);
    }
    printf("%lu sites, %lu differ\n", count, wrong);
    return wrong != 0;
}
