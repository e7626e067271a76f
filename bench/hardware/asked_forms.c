#include <stdio.h>
#include <stdlib.h>
#include <string.h>

#include "forms.h"

/* A text of forms, what they change, the bytes of memory that they touch (0: their width), the boundary of these, and
   what /proc/cpuinfo calls what they need ($CPUINFO may name another file of this form). */
static const struct row {
    const char *text, *changes;
    int touches, aligned;
    const char *feature;
} ROWS[] = {
    { "mul b= f6 /4 - -", "a", 0, 0, "" },
    { "mul v= f7 /4 - -", "ad", 0, 0, "" },
    { "imul b= f6 /5 - -", "a", 0, 0, "" },
    { "imul v= f7 /5 - -", "ad", 0, 0, "" },
    { "div b= f6 /6 - -", "a", 0, 0, "" },
    { "div v= f7 /6 - z", "ad", 0, 0, "" },
    { "idiv b= f6 /7 - -", "a", 0, 0, "" },
    { "idiv v= f7 /7 - z", "ad", 0, 0, "" },
    { "imul v= 0faf /r - -", "r", 0, 0, "" },
    { "imul v= 69 /r iz -", "r", 0, 0, "" },
    { "imul v= 6b /r ib -", "r", 0, 0, "" },
    { "shld v= 0fa4 /r ib -", "mw", 0, 0, "" },
    { "shld v= 0fa5 /r - n", "mw", 0, 0, "" },
    { "shrd v= 0fac /r ib -", "mw", 0, 0, "" },
    { "shrd v= 0fad /r - n", "mw", 0, 0, "" },
    { "bt v= 0fa3 /e - -", "", 0, 0, "" },
    { "bt v= 0fba /4 ib -", "", 0, 0, "" },
    { "bts v= 0fab /e - -", "m", 0, 0, "" },
    { "bts v= 0fba /5 ib -", "mw", 0, 0, "" },
    { "btr v= 0fb3 /e - -", "m", 0, 0, "" },
    { "btr v= 0fba /6 ib -", "mw", 0, 0, "" },
    { "btc v= 0fbb /e - -", "m", 0, 0, "" },
    { "btc v= 0fba /7 ib -", "mw", 0, 0, "" },
    { "bsf v= 0fbc /r - -", "r", 0, 0, "" },
    { "bsr v= 0fbd /r - -", "r", 0, 0, "" },
    { "popcnt v= f30fb8 /r - -", "r", 0, 0, "popcnt" },
    { "tzcnt v= f30fbc /r - -", "r", 0, 0, "bmi1" },
    { "lzcnt v= f30fbd /r - -", "r", 0, 0, "abm" },
    { "bswap d= 0fc8 +r - -", "m", 0, 0, "" },
    { "xadd b= 0fc0 /r - -", "rmw", 0, 0, "" },
    { "xadd v= 0fc1 /r - -", "rmw", 0, 0, "" },
    { "cmpxchg b= 0fb0 /r - -", "amw", 0, 0, "" },
    { "cmpxchg v= 0fb1 /r - -", "amw", 0, 0, "" },
    { "cmpxch8 q= 0fc7 /1m - -", "adw", 8, 0, "cx8" },
    { "cmpxc16 Q= 0fc7 /1m - -", "adw", 16, 16, "cx16" },
    { "xchg b= 86 /m - -", "rw", 0, 0, "" },
    { "xchg v= 87 /m - -", "rw", 0, 0, "" },
    { "l-add v= f001 /m - -", "w", 0, 0, "" },
    { "l-or v= f081 /1m iz -", "w", 0, 0, "" },
    { "l-inc v= f0ff /0m - -", "w", 0, 0, "" },
    { "l-neg v= f0f7 /3m - -", "w", 0, 0, "" },
    { "l-xadd v= f00fc1 /m - -", "rw", 0, 0, "" },
    { "l-cmpx v= f00fb1 /m - -", "aw", 0, 0, "" },
    { "movs b= a4 - - SD", "SD", 0, 0, "" },
    { "movs v= a5 - - SD", "SD", 0, 0, "" },
    { "movs b= f3a4 - - SDc", "SDc", 0, 0, "" },
    { "movs v= f3a5 - - SDc", "SDc", 0, 0, "" },
    { "stos b= f3aa - - Dc", "Dc", 0, 0, "" },
    { "stos v= ab - - D", "D", 0, 0, "" },
    { "lods b= ac - - S", "aS", 0, 0, "" },
    { "lods v= ad - - S", "aS", 0, 0, "" },
    { "cmps b= f3a6 - - SDc", "SDc", 0, 0, "" },
    { "cmps v= f2a7 - - SDc", "SDc", 0, 0, "" },
    { "scas b= f2ae - - Dc", "Dc", 0, 0, "" },
    { "scas v= af - - D", "D", 0, 0, "" },
    { "xlat q= d7 - - x", "a", 0, 0, "" },
    { "pushfq q= 9c - - p", "s", 0, 0, "" },
    { "enter q= c8 - en p", "sp", 0, 0, "" },
    { "movsxd qd 63 /r - -", "r", 0, 0, "" },
    { "movseg qw 8c /3 - -", "mw", 2, 0, "" },
    { "movbe q= 0f38f0 /m - -", "r", 4, 0, "movbe" },
    { "movbe q= 0f38f1 /m - -", "w", 4, 0, "movbe" },
    { "crc32 q= f20f38f1 /r - -", "r", 4, 0, "sse4_2" },
    { "adcx q= 660f38f6 /r - -", "r", 4, 0, "adx" },
    { "adox q= f30f38f6 /r - -", "r", 4, 0, "adx" },
    { "prefet q= 0f18 /1m - -", "", 1, 0, "" },
    { "movups q= 0f10 /r - -", "", 16, 0, "" },
    { "movups q= 0f11 /r - -", "w", 16, 0, "" },
    { "movaps q= 0f28 /r - -", "", 16, 16, "" },
    { "movaps q= 0f29 /r - -", "w", 16, 16, "" },
    { "movss q= f30f10 /r - -", "", 4, 0, "" },
    { "movsd q= f20f11 /r - -", "w", 8, 0, "" },
    { "movdqa q= 660f7f /r - -", "w", 16, 16, "" },
    { "movdqu q= f30f6f /r - -", "", 16, 0, "" },
    { "addps q= 0f58 /r - -", "", 16, 16, "" },
    { "mulpd q= 660f59 /r - -", "", 16, 16, "" },
    { "subss q= f30f5c /r - -", "", 4, 0, "" },
    { "divsd q= f20f5e /r - -", "", 8, 0, "" },
    { "sqrtps q= 0f51 /r - -", "", 16, 16, "" },
    { "shufps q= 0fc6 /r ib -", "", 16, 16, "" },
    { "ucomis q= 0f2e /r - -", "", 4, 0, "" },
    { "cvtsi q= f20f2a /r - -", "", 4, 0, "" },
    { "cvtsd q= f20f2c /r - -", "r", 8, 0, "" },
    { "movd q= 660f6e /r - -", "", 4, 0, "" },
    { "movd q= 660f7e /r - -", "mw", 4, 0, "" },
    { "movmsk q= 0f50 /e - -", "r", 0, 0, "" },
    { "pmovms q= 660fd7 /e - -", "r", 0, 0, "" },
    { "pinsrw q= 660fc4 /r ib -", "", 2, 0, "" },
    { "pextrw q= 660fc5 /e ib -", "r", 0, 0, "" },
    { "movnti q= 0fc3 /m - -", "w", 4, 0, "" },
    { "paddd q= 660ffe /r - -", "", 16, 16, "" },
    { "pxor q= 660fef /r - -", "", 16, 16, "" },
    { "pshufb q= 660f3800 /r - -", "", 16, 16, "ssse3" },
    { "palign q= 660f3a0f /r ib -", "", 16, 16, "ssse3" },
    { "maskmo q= 660ff7 /e - D", "D", 0, 0, "" },
    { "paddb q= 0ffc /r - -", "", 8, 0, "" },
    { "movq q= 0f7f /r - -", "w", 8, 0, "" },
    { "emms q= 0f77 - - -", "", 0, 0, "" },
    { "vaddps q= c5e858 /r - -", "", 16, 0, "avx" },
    { "vaddps q= c5ec58 /r - -", "", 32, 0, "avx" },
    { "vmovup q= c5fc11 /r - -", "w", 32, 0, "avx" },
    { "vzeroup q= c5f877 - - -", "", 0, 0, "avx" },
    { "vpmovm q= c5f9d7 /e - -", "r", 0, 0, "avx" },
    { "vbroad q= c4e27d18 /m - -", "", 4, 0, "avx" },
    { "vpxor q= c5edef /r - -", "", 32, 0, "avx2" },
    { "vpshuf q= c4e26d00 /r - -", "", 32, 0, "avx2" },
    { "vpalig q= c4e36d0f /r ib -", "", 32, 0, "avx2" },
    { "vfmadd q= c4e26d98 /r - -", "", 32, 0, "fma" },
    { "andn q= c4e268f2 /r - -", "r", 4, 0, "bmi1" },
    { "andn q= c4e2e8f2 /r - -", "r", 8, 0, "bmi1" },
    { "bextr q= c4e268f7 /r - -", "r", 4, 0, "bmi1" },
    { "blsr q= c4e268f3 /1 - -", "d", 4, 0, "bmi1" },
    { "mulx q= c4e26bf6 /r - -", "rd", 4, 0, "bmi2" },
    { "pdep q= c4e26bf5 /r - -", "r", 4, 0, "bmi2" },
    { "rorx q= c4e37bf0 /r ib -", "r", 4, 0, "bmi2" },
    { "shlx q= c4e269f7 /r - -", "r", 4, 0, "bmi2" },
    { "fadd q= d8 /0m - -", "", 4, 0, "fpu" },
    { "fmul q= dc /1m - -", "", 8, 0, "fpu" },
    { "fld q= d9 /0m - -", "", 4, 0, "fpu" },
    { "fst q= d9 /2m - -", "w", 4, 0, "fpu" },
    { "fstp q= dd /3m - -", "w", 8, 0, "fpu" },
    { "fild q= db /0m - -", "", 4, 0, "fpu" },
    { "fistp q= db /3m - -", "w", 4, 0, "fpu" },
    { "fnstcw q= d9 /7m - -", "w", 2, 0, "fpu" },
    { "fldcw q= d9 /5m - -", "", 2, 0, "fpu" },
    { "fadd q= d8c1 - - -", "", 0, 0, "fpu" },
    { "fsqrt q= d9fa - - -", "", 0, 0, "fpu" },
    { "fnstsw q= dfe0 - - -", "a", 0, 0, "fpu" },
};

static struct form_list asked;

/* The processor's line of flags, each between blanks. */
static int read_features(char *line, int room) {
    const char *named = getenv("CPUINFO");
    FILE *file = fopen(named ? named : "/proc/cpuinfo", "r");
    int found = 0;
    while (file && !found && fgets(line, room, file))
        found = !strncmp(line, "flags", 5);
    if (file)
        fclose(file);
    line[strcspn(line, "\n")] = ' ';
    return found;
}

static int has_feature(const char *line, const char *feature) {
    char word[32];
    snprintf(word, sizeof word, " %s ", feature);
    return !feature[0] || strstr(line, word) != NULL;
}

/* Rotates, by each kind of count. */
static void add_rotates(void) {
    static const char *const names[] = { "rol", "ror", "rcl", "rcr", "sal" };
    static const char *const rest[] = { "b= c0 /%d ic -", "v= c1 /%d ic -", "b= d0 /%d - -",
                                        "v= d1 /%d - -",  "b= d2 /%d - n",  "v= d3 /%d - n" };
    struct form more = { .changes = "mw" };
    for (int op = 0; op < 5; op++)
        for (int at = 0; at < 6; at++) {
            char text[48], tail[32];
            snprintf(tail, sizeof tail, rest[at], op < 4 ? op : 6);
            snprintf(text, sizeof text, "%s %s", names[op], tail);
            add_forms(&asked, text, &more);
        }
}

const struct form *asked_forms(size_t *count) {
    char features[8192] = "";
    if (asked.count == 0) {
        read_features(features, sizeof features);
        for (size_t at = 0; at < sizeof ROWS / sizeof *ROWS; at++) {
            struct form more = { .changes = ROWS[at].changes,
                                 .touches = ROWS[at].touches,
                                 .aligned = ROWS[at].aligned };
            if (has_feature(features, ROWS[at].feature))
                add_forms(&asked, ROWS[at].text, &more);
            else
                printf("no %s here: %s is skipped\n", ROWS[at].feature, ROWS[at].text);
        }
        add_rotates();
    }
    *count = asked.count;
    return asked.all;
}
