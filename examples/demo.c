/* The whole way in C: a site is written, evaluated and listed, and its verdicts are read; then the same scenario by concentration.
   Build and run: examples/run.sh */
#include "gv.h"
#include <stdio.h>
#include <string.h>

static uint8_t site[2 * GV_BLOCK], out[2 * GV_BLOCK], text[GV_TEXT_ROOM];

/* Writes the contaminant of the site, evaluates it, prints its verdicts and its listing; 1 where something is refused. */
static int show(const struct gv_contaminant *chemical)
{
    unsigned refusal = gv_put_contaminant(site + GV_BLOCK, GV_BLOCK, 1, chemical);
    if (refusal != GV_ACCEPTED) {
        printf("contaminant refused: %u\n", refusal);
        return 1;
    }
    uint64_t answer = gv_site(site, sizeof site, out, sizeof out);
    if (gv_refusal(answer) != GV_ACCEPTED) {
        printf("site refused: %u in block %u\n", gv_refusal(answer), gv_block(answer));
        return 1;
    }
    printf("verdicts: risk %u, hazard %u\n", gv_risk_verdict(answer), gv_hazard_verdict(answer));
    uint64_t length = gv_list(site, sizeof site, out, sizeof out, text, sizeof text);
    fwrite(text, 1, (size_t)length, stdout);
    return 0;
}

int main(void)
{
    /* The office worker in soil, one contaminant. Built-in scenarios are of kind 1: inhalation by intake. */
    unsigned refusal = gv_write_built_in(site, sizeof site, 1, 1, 1);
    if (refusal != GV_ACCEPTED) {
        printf("header refused: %u\n", refusal);
        return 1;
    }
    /* A chemical: oral slope factor 1 per mg/kg-day, oral reference dose 0.02 mg/kg-day, 2 mg/kg measured. */
    struct gv_contaminant swallowed = {
        .class_ = 1, .id = 1, .sfo = {.m = 1}, .rfdo = {.m = 2, .e = -2}, .c = {.m = 2}};
    if (show(&swallowed)) {
        return 1;
    }
    /* The same scenario by concentration, eight hours of the day in the air: bytes 8 to 507 of its block are the struct. */
    struct gv_header header;
    memcpy(&header, site + 8, sizeof header);
    header.a.m = 8;
    refusal = gv_put_header(site, sizeof site, GV_CONCENTRATION, &header);
    if (refusal != GV_ACCEPTED) {
        printf("header refused: %u\n", refusal);
        return 1;
    }
    /* A chemical: unit risk 7.8e-6 per ug/m3, reference concentration 0.03 mg/m3, volatilization 19,000 m3/kg, 2 mg/kg measured. */
    struct gv_contaminant inhaled = {
        .class_ = 1, .id = 1, .u = {.m = 78, .e = -7}, .q = {.m = 3, .e = -2}, .vf = {.m = 19000}, .c = {.m = 2}};
    return show(&inhaled);
}
