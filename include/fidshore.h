/* fidshore: gitignore and gitattributes rules from C. Link with libfidshore.a (x86-64). C99 or C++.
 *
 * What holds of every call:
 *
 * - Bytes and numbers in, one code number out. Any bytes and any numbers may
 *   be passed, and every call ends. Lengths are in bytes, without the 0 that
 *   ends a C string; no buffer needs one.
 * - Buffers are only read, and not after the call. They may overlap.
 * - A null pointer with length 0 is the empty byte string. With any other
 *   length the pointer must lead to that many readable bytes.
 * - Nothing is allocated, no state is kept, no lock is taken, errno is left
 *   alone: any number of threads may call at once, over the same buffers too.
 * - A code above FIDSHORE_REFUSED is a refusal: 16 plus its number, and nothing
 *   else is told. Each is given exactly when its condition holds; where several
 *   hold, the lowest. A caller that is refused knows nothing: do not fill.
 *
 *   | No. | Given exactly when                                          | By           |
 *   |-----|-------------------------------------------------------------|--------------|
 *   | 1   | the path is empty, over 4,096 bytes, holds a control byte   | ignore,      |
 *   |     | (any below 32, as the CR of a listing with CRLF line ends,  | attribute    |
 *   |     | or 127), has `/` first, last or doubled, or a component `.` |              |
 *   |     | or `..`                                                     |              |
 *   | 2   | rule files wrongly lent: no C call can get it, since each   | none from C  |
 *   |     | lends one file                                              |              |
 *   | 3   | the rule bytes are over 65,536                              | ignore, attr.|
 *   | 4   | byte 0 in the rule bytes                                    | ignore, attr.|
 *   | 5   | a line of the rules over 2,048 bytes, counted with BOM and  | ignore, attr.|
 *   |     | CR but without its newline                                  |              |
 *   | 6   | the attribute's name is empty, over 255 bytes, begins with  | attribute    |
 *   |     | `-`, or has a byte outside letters, digits, `-`, `.`, `_`   |              |
 *   | 7   | the pattern has over 2,048 bytes, or the text over 4,096    | match        |
 *   | 8   | byte 0 in the pattern or the text                           | match        |
 *   | 9   | the flags number is above 3                                 | all          |
 *
 * - Answers and refusals are proved. Stack and time are measured, not proved:
 *   docs/COSTS.md has the figures and how each was got.
 *
 * The rules are one file at the archive's top. examples/loader.c shows how
 * several layers are asked about in one call, and why not file by file. */
#ifndef FIDSHORE_H
#define FIDSHORE_H

#include <stddef.h>
#include <stdint.h>

#ifdef __cplusplus
extern "C" {
#endif

/* Each call has its own codes below FIDSHORE_REFUSED: 2 is FIDSHORE_BROKEN from
 * fidshore_match, FIDSHORE_RE_INCLUDED from fidshore_ignore, FIDSHORE_UNSET from
 * fidshore_attribute. */

/* Codes of fidshore_match. A pattern that is broken, as `[a-z` without its `]`,
 * matches nothing; where it is broken is not told. */
#define FIDSHORE_NO_MATCH 0
#define FIDSHORE_MATCH 1
#define FIDSHORE_BROKEN 2

/* The code of both questions where no line decides. */
#define FIDSHORE_NOTHING_SAID 0

/* Other codes of fidshore_ignore. */
#define FIDSHORE_IGNORED 1
#define FIDSHORE_RE_INCLUDED 2

/* Other codes of fidshore_attribute. */
#define FIDSHORE_SET 1
#define FIDSHORE_UNSET 2
#define FIDSHORE_VALUE 3
#define FIDSHORE_UNSPECIFIED 4

/* Of any call: a refusal's code is this plus its number. */
#define FIDSHORE_REFUSED 16

/* Flags, added up: the first is the matcher's, the second the questions', the last everyone's. */
#define FIDSHORE_PATH_MODE 1
#define FIDSHORE_DIRECTORY 1
#define FIDSHORE_FOLD 2

/* The most bytes that are taken; one more is refused. */
#define FIDSHORE_PATTERN_LIMIT 2048
#define FIDSHORE_TEXT_LIMIT 4096
#define FIDSHORE_RULES_LIMIT 65536
#define FIDSHORE_LINE_LIMIT 2048
#define FIDSHORE_PATH_LIMIT 4096
#define FIDSHORE_NAME_LIMIT 255

/* Does the pattern take the whole text?
 *
 * Flags: FIDSHORE_PATH_MODE (wildcards stop at `/`, `**` or more may cross it),
 *        FIDSHORE_FOLD (ASCII letters match in either case).
 * Codes: FIDSHORE_MATCH; FIDSHORE_NO_MATCH; FIDSHORE_BROKEN: the pattern cannot be
 *        read, as `[a-z` or one that ends in a lone `\`, whatever the text and
 *        the mode are; 16 plus refusal 7, 8 or 9, which come before broken.
 *        Compare with FIDSHORE_MATCH: 2, too, is not 0.
 *        The questions do not tell: to them a broken pattern is one that does not
 *        match, and its line says nothing. To find such a line, ask here with no
 *        text and the line's pattern: of an ignore line what is left without its
 *        CR, trailing spaces that are not escaped, a first `!`, one last `/` and
 *        one first `/`; of an attribute line the bytes from the first that is no
 *        blank up to the next blank (space, tab, CR), without these slashes too.
 * Limits: 2,048 bytes of pattern, 4,096 of text. Both may be empty.
 * Stack: at most 143 KB. Time: about 40 ns for a short pattern; the work grows at
 * most as pattern times text, and with no text the pattern is still read once. No
 * input found takes over 100 ms.
 * Threads, buffers, null pointers: as said above.
 *
 *     static const uint8_t pattern[] = "2026*.nc", text[] = "2026/h05.nc";
 *     fidshore_match(pattern, 8, text, 11, 0);                    is FIDSHORE_MATCH
 *     fidshore_match(pattern, 8, text, 11, FIDSHORE_PATH_MODE);   is FIDSHORE_NO_MATCH
 *     fidshore_match(pattern, 8, text, 11, 4);                    is FIDSHORE_REFUSED + 9
 *     fidshore_match((const uint8_t *)"[a-z", 4, text, 11, 0);    is FIDSHORE_BROKEN
 */
uint32_t fidshore_match(const uint8_t *pattern, size_t pattern_len,
                        const uint8_t *text, size_t text_len, uint64_t flags);

/* Is the path kept out by these ignore lines? First by its topmost ignored
 * directory, else by the last line that matches it.
 *
 * The path is relative to the archive's top, with no `/` first or last and no
 * control byte. The directories above it are judged too; the flag is about the
 * path itself.
 *
 * Flags: FIDSHORE_DIRECTORY (the path is a directory), FIDSHORE_FOLD.
 * Codes: FIDSHORE_NOTHING_SAID and FIDSHORE_RE_INCLUDED: not ignored;
 *        FIDSHORE_IGNORED; 16 plus refusal 1, 3, 4, 5 or 9.
 * Limits: 65,536 rule bytes, 2,048 a line, 4,096 of path.
 * Stack: at most 536 KB, for a path of 2,048 components; give a thread 1 MB.
 * Time: 1.2 us for 10 lines and 65 us for 1,000, with a path of six components.
 * The rules are read again for each component. A path of hundreds of
 * components with lines written against it may take minutes: bound the path's
 * depth and length where the rules come from strangers. The slowest lines known
 * take 0.5 s at 16 components and 256 bytes, over 20 s at 64 and 4,096.
 * Threads, buffers, null pointers: as said above.
 *
 *     static const uint8_t rules[] = "cal/\n!cal/h07.jpg\n", path[] = "cal/h07.jpg";
 *     fidshore_ignore(rules, sizeof rules - 1, path, 11, 0);   is FIDSHORE_IGNORED:
 *     nothing below an ignored directory comes back.
 */
uint32_t fidshore_ignore(const uint8_t *rules, size_t rules_len,
                         const uint8_t *path, size_t path_len, uint64_t flags);

/* What do these attribute lines say of one attribute of the path? The last line
 * that matches the path and names the attribute decides; on it, the last
 * mention. The directories above the path play no part.
 *
 * Flags: FIDSHORE_DIRECTORY (the path is a directory), FIDSHORE_FOLD (patterns
 *        only: the name is always compared byte by byte).
 * Codes: FIDSHORE_SET (`fill`), FIDSHORE_UNSET (`-fill`), FIDSHORE_VALUE
 *        (`fill=mean`; the value is not told), FIDSHORE_UNSPECIFIED (`!fill`: a
 *        line says so), FIDSHORE_NOTHING_SAID (no line decides);
 *        16 plus refusal 1, 3, 4, 5, 6 or 9.
 * Limits: 65,536 rule bytes, 2,048 a line, 4,096 of path, 255 of name.
 * Stack: at most 143 KB. Time: 0.7 us for 10 lines and 26 us for 1,000; the
 * slowest input found is under a second.
 * Threads, buffers, null pointers: as said above.
 *
 *     static const uint8_t rules[] = "*.nc fill\nh17.nc -fill\n", path[] = "h17.nc", name[] = "fill";
 *     fidshore_attribute(rules, sizeof rules - 1, path, 6, name, 4, 0);   is FIDSHORE_UNSET
 */
uint32_t fidshore_attribute(const uint8_t *rules, size_t rules_len,
                            const uint8_t *path, size_t path_len,
                            const uint8_t *name, size_t name_len, uint64_t flags);

#ifdef __cplusplus
}
#endif

#endif
