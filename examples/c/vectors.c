/*
 * vectors FILE: judges the committees and verdicts of examples/vectors.json by the library, and compares its answers and names
 * with what stands there.
 *
 *     cc -I../../include vectors.c -L../../crates/hs_check_c/out -lhs_check_c -o vectors
 *
 * Each vector is a line of that file: so a field is found by its name, and no reader of JSON is needed.
 */
#include <hs_check.h>
#include <stdbool.h>
#include <stdio.h>
#include <stdlib.h>
#include <string.h>

enum { MOST_LINE = 32768, MOST_TEXT = MOST_LINE / 2, COMMITTEES = 8, NAME_LEN = 32 };

struct text {
    size_t len;
    uint8_t bytes[MOST_TEXT];
};

static struct {
    char name[NAME_LEN];
    struct text text;
} committees[COMMITTEES];
static size_t known;
static int compared, differ;

/* Where the value of a field of a line begins, or NULL. */
static const char *field(const char *line, const char *name)
{
    char key[NAME_LEN + 4];
    snprintf(key, sizeof key, "\"%s\": ", name);
    const char *at = strstr(line, key);
    return at == NULL ? NULL : at + strlen(key);
}

static long number(const char *line, const char *name)
{
    const char *at = field(line, name);
    return at == NULL ? -1 : strtol(at, NULL, 10);
}

/* The text of a field in quotes, cut to the room that there is. */
static void word(const char *line, const char *name, char *to, size_t room)
{
    const char *at = field(line, name);
    size_t len = at == NULL ? 0 : strcspn(at + 1, "\"");
    if (len >= room)
        len = room - 1;
    memcpy(to, len > 0 ? at + 1 : "", len);
    to[len] = 0;
}

static bool digits(const char *line, const char *name, struct text *text)
{
    const char *at = field(line, name);
    if (at == NULL)
        return false;
    unsigned byte;
    for (text->len = 0, at++; text->len < MOST_TEXT && sscanf(at, "%2x", &byte) == 1 && *at != '"'; at += 2)
        text->bytes[text->len++] = (uint8_t)byte;
    return *at == '"';
}

static const struct text *committee_of(const char *line)
{
    char name[NAME_LEN];
    word(line, "committee", name, sizeof name);
    for (size_t k = 0; k < known; k++)
        if (strcmp(committees[k].name, name) == 0)
            return &committees[k].text;
    return NULL;
}

static void compare(bool same, const char *what, const char *line)
{
    compared++;
    if (!same) {
        differ++;
        printf("FAILED: %s: %.60s\n", what, line);
    }
}

/* Whether the library's name of an answer is the one that the line has. */
static bool is_named(int answer, const char *line)
{
    char name[NAME_LEN];
    uint8_t told[HS_NAME_LEN];
    word(line, "name", name, sizeof name);
    size_t len = hs_check_name(answer, told, sizeof told);
    return len == strlen(name) && memcmp(told, name, len) == 0;
}

static void committee(const char *line, const struct text *text)
{
    struct hs_shown_committee shown;
    if (field(line, "refused") != NULL) {
        int answer = hs_committee(text->bytes, text->len, &shown);
        compare(answer == -number(line, "refused") && is_named(answer, line), "a refused committee", line);
        return;
    }
    struct text chain;
    bool same = digits(line, "chain", &chain) && chain.len == sizeof shown.chain &&
                hs_committee(text->bytes, text->len, &shown) == HS_ACCEPTED && memcmp(shown.chain, chain.bytes, chain.len) == 0 &&
                (long)shown.n == number(line, "replicas") && (long)shown.total == number(line, "weight") &&
                (long)shown.quorum == number(line, "quorum");
    compare(same, "a committee", line);
    if (known < COMMITTEES) {
        word(line, "name", committees[known].name, NAME_LEN);
        committees[known++].text = *text;
    }
}

static void verdict(const char *line, const struct text *text)
{
    struct hs_finding finding;
    const struct text *under = committee_of(line);
    if (under == NULL) {
        compare(false, "a verdict with no committee", line);
        return;
    }
    int answer = hs_check(under->bytes, under->len, text->bytes, text->len, &finding);
    if (field(line, "refused") != NULL)
        compare(answer == number(line, "refused") && is_named(answer, line), "a refused verdict", line);
    else
        compare(answer == HS_ACCEPTED && (long)finding.replica == number(line, "replica") &&
                    (long)finding.rule == number(line, "rule") && (long)finding.view == number(line, "view"),
                "a verdict", line);
}

int main(int argc, char **argv)
{
    static char line[MOST_LINE];
    static struct text text;
    FILE *file = argc == 2 ? fopen(argv[1], "r") : NULL;
    if (file == NULL) {
        fputs("usage: vectors FILE\n", stderr);
        return 2;
    }
    while (fgets(line, sizeof line, file) != NULL) {
        if (digits(line, "verdict", &text))
            verdict(line, &text);
        else if (field(line, "vote") == NULL && digits(line, "committee", &text))
            committee(line, &text);
    }
    fclose(file);
    printf("%d vectors, %d differ\n", compared, differ);
    return differ == 0 && compared > 0 ? 0 : 1;
}
