/*
 * check COMMITTEE VERDICT: judges a verdict by the library, and prints what the program hs_check prints.
 *
 *     cc -I../../include check.c -L../../crates/hs_check_c/out -lhs_check_c -o check
 *     cc check.c $(pkg-config --cflags --libs hs_check) -o check        with the library that ./install put in its place
 *
 * Ends with status 0 where the verdict is accepted, 1 where it is refused, and 2 where there is nothing to judge.
 */
#include <hs_check.h>
#include <inttypes.h>
#include <stdbool.h>
#include <stdio.h>

/* As much of a file is read, as by hs_check: no text that is longer can be accepted. */
enum { MOST = 16384 };

struct text {
    size_t len;
    uint8_t bytes[MOST];
};

static bool read_text(const char *path, struct text *text)
{
    FILE *file = fopen(path, "rb");
    if (file == NULL)
        return false;
    text->len = fread(text->bytes, 1, sizeof text->bytes, file);
    bool was_read = !ferror(file);
    return fclose(file) == 0 && was_read;
}

/* Prints what hs_check answered, and gives the status that says so. */
static int tell(int answer, const struct hs_finding *finding)
{
    uint8_t name[HS_NAME_LEN];
    int len = (int)hs_check_name(answer, name, sizeof name);

    if (answer < 0) {
        fprintf(stderr, "fault committee %d %.*s\n", -answer, len, (const char *)name);
        return 2;
    }
    if (answer != HS_ACCEPTED) {
        printf("refused %d %.*s\n", answer, len, (const char *)name);
        return 1;
    }
    printf("accepted replica %" PRIu32 " rule %" PRIu32 " view %" PRIu64 "\n", finding->replica, finding->rule,
           finding->view);
    return 0;
}

int main(int argc, char **argv)
{
    static struct text committee, verdict;
    struct hs_finding finding;

    if (argc != 3) {
        fputs("usage: check COMMITTEE VERDICT\n", stderr);
        return 2;
    }
    if (!read_text(argv[1], &committee)) {
        perror(argv[1]);
        return 2;
    }
    if (!read_text(argv[2], &verdict)) {
        perror(argv[2]);
        return 2;
    }
    int status = tell(hs_check(committee.bytes, committee.len, verdict.bytes, verdict.len, &finding), &finding);
    if (fflush(stdout) != 0) {
        perror("check: standard output");
        return 2;
    }
    return status;
}
