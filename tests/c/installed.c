/* A caller of the installed library: it knows nothing but the header, by its
 * name. Compiled as C99 and as C++; prints one line, status 1 if an answer is
 * wrong. tests/c/smoke.c asks the rest. */
#include <fidshore.h>
#include <stdio.h>

#define LENT(s) (const uint8_t *)(s), sizeof(s) - 1

int main(void)
{
    /* March: the fleet's line first, then the site's, which must win. */
    static const char rules[] = "*.nc fill\nh17.nc -fill\n";
    int right = fidshore_attribute(LENT(rules), LENT("h17.nc"), LENT("fill"), 0) == FIDSHORE_UNSET
        && fidshore_attribute(LENT(rules), LENT("h12.nc"), LENT("fill"), 0) == FIDSHORE_SET
        && fidshore_ignore(LENT("cal/\n"), LENT("CAL"), FIDSHORE_DIRECTORY | FIDSHORE_FOLD) == FIDSHORE_IGNORED
        && fidshore_ignore(NULL, 0, LENT("cal"), 0) == FIDSHORE_NOTHING_SAID
        && fidshore_match(LENT("2026*.nc"), LENT("2026/h05.nc"), FIDSHORE_PATH_MODE) == FIDSHORE_NO_MATCH
        && fidshore_match(LENT("[a-z"), LENT("a"), 0) == FIDSHORE_BROKEN
        && fidshore_match(LENT("a"), LENT("a"), 4) == FIDSHORE_REFUSED + 9;
#ifdef __cplusplus
    printf("installed, from C++: %s\n", right ? "all right" : "wrong");
#else
    printf("installed, from C: %s\n", right ? "all right" : "wrong");
#endif
    return !right;
}
