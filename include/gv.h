/* gv.h: guideline values for contaminated soil and water, as a static library.

   Link libgv.a, which `bash tools/library.sh` writes to target/staticlib/. Every function ends, reads and writes only inside
   the bytes that it is lent, and refuses what breaks a rule: there is nothing to set up and nothing to free. What each
   returns and leaves in each byte is proved; docs/FORMAT.md describes the blocks and the refusals. Bytes are lent as a
   pointer and a length. The structs below are bytes 8 to 507 of a block on little-endian machines: their size stays the same
   when a field is added, which takes the place of unused bytes. The kind of a header, bytes 0 to 3 of its block, is not in its
   struct: gv_write_header and gv_guideline take it as a number. The functions at the end take the structs themselves. */
#ifndef GV_H
#define GV_H

#include <stddef.h>
#include <stdint.h>

#ifdef __cplusplus
extern "C" {
#endif

enum {
    GV_BLOCK = 512,        /* bytes in a block */
    GV_STRUCT = 500,       /* bytes in a struct gv_header and in a struct gv_contaminant */
    GV_MOST = 120,         /* contaminants in a site at the most */
    GV_SITE_MOST = 61952,  /* bytes in a site at the most: 121 blocks */
    GV_TEXT_ROOM = 24576,  /* room that gv_list asks for its text */
    GV_GUIDELINES = 64     /* bytes that gv_guideline writes: eight decimals */
};

/* The kind of a header: how inhalation of chemicals is worked out. Take GV_CONCENTRATION, EPA's RAGS Part F (2009), where the
   toxicity of what is inhaled is a unit risk (u) or a reference concentration (q); take GV_INTAKE where it is a slope factor per
   mg/kg-day (sfi) or a reference dose (rfdi), or where results have to agree with older ones. Radionuclides and tritium have the
   same terms under both. */
enum {
    GV_INTAKE = 1,        /* by intake: sfi, rfdi, ira, bw */
    GV_CONCENTRATION = 6  /* by exposure concentration: u, q, a */
};

/* What a call sends back: 0, or the number of one of the eleven refusals, 1 to 8 and 10 to 12. 9 is not used. */
enum {
    GV_ACCEPTED = 0,
    GV_LENGTH = 1,    /* the site's length is wrong */
    GV_CHECK = 2,     /* a block's words do not add to zero, or its place is wrong */
    GV_KIND = 3,      /* a block's kind is wrong: not 1 or 6 at place 0, not 2 at a later one */
    GV_FIELD = 4,     /* a decimal, medium, class, id or unused byte breaks its rule; a writer's count or place; a kind, given
                         as a number, that is not 1 or 6 */
    GV_COUNT = 5,     /* the count is not the number of blocks less one */
    GV_FACTOR = 6,    /* EF, ED, BW, AT, TR or THI is zero, under either kind; a and those of child and adult may be */
    GV_ORDER = 7,     /* an id is not above the one before */
    GV_PATHWAY = 8,   /* a contaminant has no pathway on either side */
    GV_ROOM = 10,     /* the output is too short */
    GV_SCENARIO = 11, /* there is no built-in scenario of that number */
    GV_HOUSE = 12     /* tritium and L or W zero, or in soil; or the later of a chemical and tritium in one site */
};

/* Verdict of a side. */
enum {
    GV_WITHIN = 1,     /* the exact sum is at most the target */
    GV_ABOVE = 2,      /* the exact sum is more than the target */
    GV_UNDECIDED = 3,  /* the target is within 2/1,000,000 of the exact sum */
    GV_NONE = 4        /* no contaminant has a pathway on this side */
};

/* m * 10^e, m from 0 to 999,999,999 and e from -20 to 20; zero, with e = 0, means not known. `zero` is 0. */
struct gv_decimal {
    uint32_t m;
    int16_t e;
    uint16_t zero;
};

/* Soil on skin of a child or of an adult: sa cm2 of skin that meets soil, ef days a year, ed years, bw kg. */
struct gv_age {
    struct gv_decimal sa, ef, ed, bw;
};

/* A header: medium 1 soil, 2 water; how many contaminants follow, 1 to 120; the scenario. Its m to k are for tritium in water: m
   g/m3, f share of the day, n showers a day, s shower volumes, v and w m3, l per hour, k m/hour. Its a is for inhalation of
   chemicals in a header of kind 6: the hours of a day in the air, 24 for a whole day; zero leaves that pathway out. Under kind 1
   a is checked and not used. Its child, adult and af are for soil on skin, of chemicals in soil: af mg of soil on a cm2 of skin;
   hazard is averaged over the header's own ed there (docs/USERS.md). With tritium in the site the header's own sa is in square
   metres and its ira in cubic metres an hour, otherwise in square centimetres and cubic metres a day. Every byte of
   `zero_before_a` and of `zero` is 0, as it is where a struct is initialized, = {0} or by names. */
struct gv_header {
    uint32_t medium, count;
    struct gv_decimal ef, ed, bw, at, ir, ira, pef, et, rf, sa, tr, thi;
    struct gv_decimal m, f, n, s, v, l, w, k;
    uint8_t zero_before_a[16];
    struct gv_decimal a;
    struct gv_age child, adult;
    struct gv_decimal af;
    uint8_t zero[236];
};

/* A contaminant: class 1 chemical, 2 radionuclide, 3 tritium (in water, and in no site with a chemical); id from 1 on; toxicity,
   volatilization, permeability, concentration; saturation, mg/kg of soil, of a chemical in soil, zero for none; u, the unit risk
   per ug/m3 of air, and q, the reference concentration in mg/m3 of air, both of a chemical inhaled, under kind 6; abs, the
   fraction of a chemical in soil on skin that the skin absorbs. Zero in u, q and abs is not known. Under kind 6 sfi and rfdi of a
   chemical are checked and not used, under kind 1 u and q. Every byte of `zero_before_u` and of `zero` is 0, as in a header. */
struct gv_contaminant {
    uint32_t class_, id;
    struct gv_decimal sfo, sfi, sfx, rfdo, rfdi, vf, pc, c, saturation;
    uint8_t zero_before_u[8];
    struct gv_decimal u, q, abs;
    uint8_t zero[388];
};

/* A struct that does not have 500 bytes, or has some behind `zero`, is refused when it is compiled: an array of size -1. */
#define GV_ENDS(type) (sizeof(type) == GV_STRUCT && offsetof(type, zero) + sizeof((type *)0)->zero == GV_STRUCT ? 1 : -1)
typedef char gv_header_has_its_size[GV_ENDS(struct gv_header)];
typedef char gv_contaminant_has_its_size[GV_ENDS(struct gv_contaminant)];
#undef GV_ENDS

/* What a result block holds: risk and hazard by pathway 1, 2, 3 and in total, zero where absent. Pathway 2 of a chemical is
   worked out by the kind of the header, which the result block does not name. Pathway 2 of a chemical in soil that has a
   saturation is at most the saturation, under either kind; the total does not look at it and can be above pathway 2. Pathway 3 of
   a chemical in soil is soil on skin, and the total counts it. */
struct gv_result {
    uint32_t place, class_, id;
    struct gv_decimal risk[4], hazard[4];
};

/* What the summary block holds: lower and upper sum and verdict of each side. */
struct gv_summary {
    struct gv_decimal risk_lower, risk_upper, hazard_lower, hazard_upper;
    uint32_t risk_verdict, hazard_verdict;
};

/* Writes a header block of this kind into the first 512 bytes of out, or returns 10, 4 or 6 and writes nothing. kind is GV_INTAKE
   or GV_CONCENTRATION; any other number is 4. header points to a struct gv_header, header_len is its size. */
uint32_t gv_write_header(uint8_t *out, size_t out_len, uint32_t kind, const uint8_t *header, size_t header_len);

/* Writes a header block of kind 1 with a built-in scenario: 1 office worker, 2 archeologist, 3 bird watcher. Or 11, 10 or 4. */
uint32_t gv_write_built_in(uint8_t *out, size_t out_len, uint32_t number, uint32_t medium, uint32_t count);

/* Writes the block of the contaminant at a place, 1 to 120, or returns 10 or 4 and writes nothing.
   contaminant points to a struct gv_contaminant, contaminant_len is its size. */
uint32_t gv_write_contaminant(uint8_t *out, size_t out_len, uint32_t place, const uint8_t *contaminant, size_t contaminant_len);

/* The single guideline of one contaminant. kind is that of the header, GV_INTAKE or GV_CONCENTRATION. header points to a struct
   gv_header, whose count is not looked at, contaminant to a struct gv_contaminant. Accepted: eight decimals in the first 64
   bytes of out, risk by pathway 1, 2, 3 and in total, then hazard likewise, as in a result block; each is zero or has nine
   digits, and e is from -999 to 999. Refused: out as it was; 4 or 6 in block 0 for the header, where any other kind is 4, then 4,
   12 or 8 in block 1 for the contaminant, last 10. Returns the refusal number in bits 0 to 7 and its block in 8 to 15. */
uint64_t gv_guideline(uint32_t kind, const uint8_t *header, size_t header_len, const uint8_t *contaminant, size_t contaminant_len, uint8_t *out,
                      size_t out_len);

/* Evaluates a site. Accepted: a summary block and a result block for each contaminant in the first site_len bytes of out,
   later bytes as they were. Refused: out as it was. Returns the refusal number in bits 0 to 7, its block in 8 to 15, the
   verdict of risk in 16 to 23 and that of hazard in 24 to 31. */
uint64_t gv_site(const uint8_t *site, size_t site_len, uint8_t *out, size_t out_len);

/* Evaluates a site as gv_site does and puts its listing at the start of text. Returns the listing's length; 0, with text
   as it was, if text_len is under GV_TEXT_ROOM. */
uint64_t gv_list(const uint8_t *site, size_t site_len, uint8_t *out, size_t out_len, uint8_t *text, size_t text_len);

/* The parts of an answer. */
static inline unsigned gv_refusal(uint64_t answer) { return (unsigned)(answer & 255); }
static inline unsigned gv_block(uint64_t answer) { return (unsigned)(answer >> 8 & 255); }
static inline unsigned gv_risk_verdict(uint64_t answer) { return (unsigned)(answer >> 16 & 255); }
static inline unsigned gv_hazard_verdict(uint64_t answer) { return (unsigned)(answer >> 24 & 255); }

/* ---- the calls above with structs in the place of bytes ---- */

/* gv_write_header of this kind and this header. */
static inline uint32_t gv_put_header(uint8_t *out, size_t out_len, uint32_t kind, const struct gv_header *header)
{
    return gv_write_header(out, out_len, kind, (const uint8_t *)header, sizeof *header);
}

/* gv_write_contaminant of this contaminant. */
static inline uint32_t gv_put_contaminant(uint8_t *out, size_t out_len, uint32_t place, const struct gv_contaminant *contaminant)
{
    return gv_write_contaminant(out, out_len, place, (const uint8_t *)contaminant, sizeof *contaminant);
}

/* gv_guideline of this kind, this header and this contaminant; the eight guidelines are left in out. */
static inline uint64_t gv_single(uint32_t kind, const struct gv_header *header, const struct gv_contaminant *contaminant, struct gv_decimal out[8])
{
    return gv_guideline(kind, (const uint8_t *)header, sizeof *header, (const uint8_t *)contaminant, sizeof *contaminant, (uint8_t *)out, GV_GUIDELINES);
}

/* The word, and the decimal, whose bytes begin here. */
static inline uint32_t gv_read_word(const uint8_t *at)
{
    return at[0] | (uint32_t)at[1] << 8 | (uint32_t)at[2] << 16 | (uint32_t)at[3] << 24;
}

static inline struct gv_decimal gv_read_decimal(const uint8_t *at)
{
    struct gv_decimal d = {0, 0, 0};
    int e = at[4] | at[5] << 8;
    d.m = gv_read_word(at);
    d.e = (int16_t)(e < 32768 ? e : e - 65536);
    return d;
}

/* What stands in the result block that begins here: block k of the output for the contaminant at place k. */
static inline struct gv_result gv_read_result(const uint8_t *block)
{
    struct gv_result r;
    int i;
    r.place = gv_read_word(block + 4);
    r.class_ = gv_read_word(block + 8);
    r.id = gv_read_word(block + 12);
    for (i = 0; i < 4; i++) {
        r.risk[i] = gv_read_decimal(block + 16 + 8 * i);
        r.hazard[i] = gv_read_decimal(block + 48 + 8 * i);
    }
    return r;
}

/* What stands in the summary block that begins here: block 0 of the output. */
static inline struct gv_summary gv_read_summary(const uint8_t *block)
{
    struct gv_summary s;
    s.risk_lower = gv_read_decimal(block + 16);
    s.risk_upper = gv_read_decimal(block + 24);
    s.hazard_lower = gv_read_decimal(block + 32);
    s.hazard_upper = gv_read_decimal(block + 40);
    s.risk_verdict = gv_read_word(block + 48);
    s.hazard_verdict = gv_read_word(block + 52);
    return s;
}

#ifdef __cplusplus
}
#endif
#endif
