/* ICU's collators, and the order of the C library, from the command line. compared.py builds it, of Debian's package libicu-dev.

   usage: peers versions                    those of ICU and its data, and how many locales have a collator
          peers rules FILE                  compiles rules over the root order: the bytes that they give, or the fault as ICU tells it
          peers sort ORDER                  sorts the lines of standard input, by keys
          peers compare ORDER A B           less, equal or greater
          peers key ORDER TEXT              the sort key, in hexadecimal digits
          peers find ORDER TEXT PATTERN     where the text has the pattern, by the order
          peers print ORDER                 the whole order as rules, those of the root before those of the tailoring
          peers times ORDER FILE            nanoseconds of processor time of a key and of a comparison of neighbours, for the lines of FILE,
                                            and the mean of the bytes of a key
          peers strings LOCALE FILE         the same of the C library's strxfrm and strcoll
          peers tries A B FILE..            compares two texts by the rules of each FILE

   ORDER is the tag of a locale, as sv-u-kn, or the name of a file of rules behind an @. */

#include <locale.h>
#include <stdio.h>
#include <stdlib.h>
#include <string.h>
#include <time.h>
#include <unicode/ucol.h>
#include <unicode/uloc.h>
#include <unicode/ulocdata.h>
#include <unicode/usearch.h>
#include <unicode/ustring.h>

enum { LONGEST = 1 << 14, ROUNDS = 10 };

struct line {
    char *text;
    int32_t length;
    char *key;
};

struct lines {
    struct line *all;
    size_t count;
};

static void end(const char *what, const char *why)
{
    fprintf(stderr, "%s: %s\n", what, why);
    exit(1);
}

static void succeed(const char *what, UErrorCode status)
{
    if (U_FAILURE(status))
        end(what, u_errorName(status));
}

/* The whole text of a file, with a byte 0 behind it. */
static char *contents(FILE *file, size_t *length)
{
    size_t room = 1 << 20;
    char *text = malloc(room);
    *length = 0;
    for (size_t got; (got = fread(text + *length, 1, room - *length - 1, file)) > 0;) {
        *length += got;
        if (*length + 1 == room)
            text = realloc(text, room *= 2);
    }
    text[*length] = 0;
    return text;
}

static char *contents_of(const char *name, size_t *length)
{
    FILE *file = fopen(name, "rb");
    if (!file)
        end(name, "it can't be opened");
    char *text = contents(file, length);
    fclose(file);
    return text;
}

static struct lines lines_of(char *text, size_t length)
{
    size_t count = 0;
    for (char *at = text; (at = memchr(at, '\n', text + length - at)); at++)
        count++;
    struct lines found = {malloc(sizeof(struct line) * (count + 1)), 0};
    for (char *at = text, *last; found.count < count; at = last + 1) {
        last = memchr(at, '\n', text + length - at);
        *last = 0;
        found.all[found.count++] = (struct line){at, last - at, NULL};
    }
    return found;
}

static UChar *wide(const char *text, size_t length, int32_t *count)
{
    UErrorCode status = U_ZERO_ERROR;
    UChar *units = malloc(sizeof(UChar) * (length + 1));
    u_strFromUTF8(units, length + 1, count, text, length, &status);
    succeed("a text", status);
    return units;
}

/* The collator of a file of rules. A fault is told as ICU gives it, and ends the program. */
static UCollator *ruled(const char *name)
{
    size_t length;
    int32_t count;
    UErrorCode status = U_ZERO_ERROR, ignored = U_ZERO_ERROR;
    UParseError where = {0};
    char *text = contents_of(name, &length), before[64] = "", behind[64] = "";
    UChar *rules = wide(text, length, &count);
    UCollator *order = ucol_openRules(rules, count, UCOL_DEFAULT, UCOL_DEFAULT_STRENGTH, &where, &status);
    free(rules);
    free(text);
    if (U_SUCCESS(status))
        return order;
    u_strToUTF8(before, sizeof before, NULL, where.preContext, -1, &ignored);
    u_strToUTF8(behind, sizeof behind, NULL, where.postContext, -1, &ignored);
    printf("%s line %d offset %d before \"%s\" behind \"%s\"\n", u_errorName(status), where.line, where.offset, before, behind);
    exit(1);
}

static UCollator *opened(const char *name)
{
    UErrorCode status = U_ZERO_ERROR;
    char locale[ULOC_FULLNAME_CAPACITY];
    if (name[0] == '@')
        return ruled(name + 1);
    uloc_forLanguageTag(name, locale, sizeof locale, NULL, &status);
    UCollator *order = ucol_open(locale, &status);
    succeed(name, status);
    return order;
}

/* Writes the sort key of a text, and returns its length, the byte 0 at its end included. */
static int32_t write_key(const UCollator *order, const char *text, int32_t length, char *key)
{
    static UChar units[LONGEST];
    int32_t count;
    UErrorCode status = U_ZERO_ERROR;
    u_strFromUTF8(units, LONGEST, &count, text, length, &status);
    succeed("a line", status);
    return ucol_getSortKey(order, units, count, (uint8_t *)key, 4 * LONGEST);
}

static int by_key(const void *a, const void *b)
{
    return strcmp(((const struct line *)a)->key, ((const struct line *)b)->key);
}

static void sort(const UCollator *order)
{
    static char key[4 * LONGEST];
    size_t length;
    char *text = contents(stdin, &length);
    struct lines found = lines_of(text, length);
    for (struct line *at = found.all; at < found.all + found.count; at++) {
        int32_t size = write_key(order, at->text, at->length, key);
        at->key = memcpy(malloc(size), key, size);
    }
    qsort(found.all, found.count, sizeof(struct line), by_key);
    for (size_t i = 0; i < found.count; i++)
        puts(found.all[i].text);
}

static void versions(void)
{
    UErrorCode status = U_ZERO_ERROR;
    UVersionInfo numbers[3];
    char text[3][U_MAX_VERSION_STRING_LENGTH];
    u_getVersion(numbers[0]);
    ulocdata_getCLDRVersion(numbers[1], &status);
    ucol_getUCAVersion(ucol_open("", &status), numbers[2]);
    succeed("versions", status);
    for (int i = 0; i < 3; i++)
        u_versionToString(numbers[i], text[i]);
    printf("ICU %s CLDR %s UCA %s, %d locales\n", text[0], text[1], text[2], ucol_countAvailable());
}

static void rules(const char *name)
{
    UErrorCode status = U_ZERO_ERROR;
    UCollator *order = ruled(name);
    printf("compiled, %d bytes\n", ucol_cloneBinary(order, NULL, 0, &status));
}

static void compare(const UCollator *order, const char *a, const char *b)
{
    static const char *const names[] = {"less", "equal", "greater"};
    UErrorCode status = U_ZERO_ERROR;
    puts(names[1 + ucol_strcollUTF8(order, a, -1, b, -1, &status)]);
}

static void show_key(const UCollator *order, const char *text)
{
    static char key[4 * LONGEST];
    int32_t size = write_key(order, text, strlen(text), key);
    for (int32_t i = 0; i + 1 < size; i++)
        printf("%02X", (unsigned char)key[i]);
    puts("");
}

static void find(const UCollator *order, const char *text, const char *pattern)
{
    int32_t length, sought;
    UErrorCode status = U_ZERO_ERROR;
    UChar *all = wide(text, strlen(text), &length), *part = wide(pattern, strlen(pattern), &sought);
    UStringSearch *search = usearch_openFromCollator(part, sought, all, length, order, NULL, &status);
    int32_t at = usearch_first(search, &status);
    succeed("find", status);
    printf("at %d length %d\n", at, usearch_getMatchedLength(search));
}

static void print(const UCollator *order)
{
    UErrorCode status = U_ZERO_ERROR;
    int32_t units = ucol_getRulesEx(order, UCOL_FULL_RULES, NULL, 0), bytes;
    UChar *rules = malloc(sizeof(UChar) * (units + 1));
    char *text = malloc(4 * units + 1);
    ucol_getRulesEx(order, UCOL_FULL_RULES, rules, units);
    u_strToUTF8(text, 4 * units + 1, &bytes, rules, units, &status);
    succeed("print", status);
    fwrite(text, 1, bytes, stdout);
}

static double nanoseconds(clock_t begun, size_t times)
{
    return (clock() - begun) * (1e9 / CLOCKS_PER_SEC) / times;
}

/* Prints what a key and a comparison take, by an order of ICU's, or by the locale that was set where there is none. */
static void times(const UCollator *order, const char *name)
{
    static char key[4 * LONGEST];
    size_t length, bytes = 0;
    volatile size_t less = 0;
    UErrorCode status = U_ZERO_ERROR;
    char *text = contents_of(name, &length);
    struct lines found = lines_of(text, length);
    const struct line *all = found.all;
    clock_t begun = clock();
    for (size_t i = 0; i < ROUNDS * found.count; i++) {
        struct line at = all[i % found.count];
        bytes += order ? (size_t)write_key(order, at.text, at.length, key) - 1 : strxfrm(key, at.text, sizeof key);
    }
    double made = nanoseconds(begun, ROUNDS * found.count);
    begun = clock();
    for (size_t i = 0; i < ROUNDS * (found.count - 1); i++) {
        struct line a = all[i % (found.count - 1)], b = all[i % (found.count - 1) + 1];
        less += (order ? (int)ucol_strcollUTF8(order, a.text, a.length, b.text, b.length, &status) : strcoll(a.text, b.text)) < 0;
    }
    double compared = nanoseconds(begun, ROUNDS * (found.count - 1));
    printf("key %.1f comparison %.1f bytes %.0f\n", made, compared, (double)bytes / ROUNDS / found.count);
}

int main(int count, char **words)
{
    const char *what = count > 1 ? words[1] : "";
    if (!strcmp(what, "versions") && count == 2)
        versions();
    else if (!strcmp(what, "rules") && count == 3)
        rules(words[2]);
    else if (!strcmp(what, "sort") && count == 3)
        sort(opened(words[2]));
    else if (!strcmp(what, "compare") && count == 5)
        compare(opened(words[2]), words[3], words[4]);
    else if (!strcmp(what, "key") && count == 4)
        show_key(opened(words[2]), words[3]);
    else if (!strcmp(what, "find") && count == 5)
        find(opened(words[2]), words[3], words[4]);
    else if (!strcmp(what, "print") && count == 3)
        print(opened(words[2]));
    else if (!strcmp(what, "times") && count == 4)
        times(opened(words[2]), words[3]);
    else if (!strcmp(what, "strings") && count == 4 && setlocale(LC_CTYPE, words[2]) && setlocale(LC_COLLATE, words[2]))
        times(NULL, words[3]);
    else if (!strcmp(what, "tries") && count > 4)
        for (int i = 4; i < count; i++)
            compare(ruled(words[i]), words[2], words[3]);
    else
        end("peers", "wrong words; the head of peers.c says how it is used");
    return 0;
}
