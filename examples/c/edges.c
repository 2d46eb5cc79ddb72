/*
 * edges COMMITTEE VERDICT: what include/hs_check.h promises beside the answers, of a verdict that is accepted. Prints a
 * line for each promise, and ends with status 1 where one is not kept. It is built with WEZHGULA_VERSION, the text of the file
 * VERSION.
 */
#define _GNU_SOURCE
#include <hs_check.h>
#include <limits.h>
#include <pthread.h>
#include <stdbool.h>
#include <stdio.h>
#include <stdlib.h>
#include <string.h>
#include <sys/mman.h>
#include <unistd.h>

enum { MOST = 4096, THREADS = 8, CALLS = 20, STACK = 96 * 1024 };

/* A text that ends where its memory ends: a byte behind it can't be read. */
struct text {
    const uint8_t *bytes;
    size_t len;
};

static struct text committee, verdict;

static const struct hs_finding before = {.view = 0x1122334455667788, .replica = 0x99aabbcc, .rule = 0xddeeff00};

static struct text read_to_the_edge(const char *path)
{
    size_t page = (size_t)sysconf(_SC_PAGESIZE);
    size_t room = (MOST + page - 1) / page * page;
    static uint8_t read[MOST];
    FILE *file = fopen(path, "rb");
    uint8_t *memory = mmap(NULL, room + page, PROT_READ | PROT_WRITE, MAP_PRIVATE | MAP_ANONYMOUS, -1, 0);
    if (file == NULL || memory == MAP_FAILED) {
        perror(path);
        exit(2);
    }
    size_t len = fread(read, 1, sizeof read, file);
    fclose(file);
    memcpy(memory + room - len, read, len);
    if (mprotect(memory + room, page, PROT_NONE) != 0 || mprotect(memory, room, PROT_READ) != 0) {
        perror("mprotect");
        exit(2);
    }
    return (struct text){memory + room - len, len};
}

static bool is_same(const struct hs_finding *a, const struct hs_finding *b)
{
    return a->view == b->view && a->replica == b->replica && a->rule == b->rule;
}

/* Whether the answer is this one and, as it is no acceptance, the finding is left as it was. */
static bool refuses(int answer, const uint8_t *c, size_t c_len, const uint8_t *v, size_t v_len)
{
    struct hs_finding finding = before;
    return hs_check(c, c_len, v, v_len, &finding) == answer && is_same(&finding, &before);
}

static bool takes_null_of_length_0(void)
{
    return refuses(HS_COMMITTEE_LENGTH, NULL, 0, verdict.bytes, verdict.len)
        && refuses(HS_REFUSED_SHORT, committee.bytes, committee.len, NULL, 0)
        && refuses(HS_COMMITTEE_LENGTH, NULL, 0, NULL, 0);
}

static bool takes_length_0(void)
{
    return refuses(HS_COMMITTEE_LENGTH, committee.bytes, 0, verdict.bytes, verdict.len)
        && refuses(HS_REFUSED_SHORT, committee.bytes, committee.len, verdict.bytes, 0);
}

/* A text that is cut is not read behind its cut, at whatever length: the rest of it can't be read at all. */
static bool reads_only_what_it_is_given(void)
{
    for (size_t len = 0; len < committee.len; len++) {
        const uint8_t *end = committee.bytes + committee.len;
        struct hs_finding finding = before;
        if (hs_check(end - len, len, verdict.bytes, verdict.len, &finding) >= 0 || !is_same(&finding, &before))
            return false;
    }
    for (size_t len = 0; len < verdict.len; len++) {
        const uint8_t *end = verdict.bytes + verdict.len;
        struct hs_finding finding = before;
        if (hs_check(committee.bytes, committee.len, end - len, len, &finding) <= 0 || !is_same(&finding, &before))
            return false;
    }
    return true;
}

static bool takes_one_text_twice(void)
{
    return refuses(HS_REFUSED_MAGIC, committee.bytes, committee.len, committee.bytes, committee.len);
}

static void *checks(void *kept)
{
    for (int i = 0; i < CALLS; i++) {
        struct hs_finding finding = before;
        if (hs_check(committee.bytes, committee.len, verdict.bytes, verdict.len, &finding) != HS_ACCEPTED
            || finding.replica == before.replica || finding.rule == before.rule || finding.view == before.view
            || !refuses(HS_REFUSED_SHORT, committee.bytes, committee.len, verdict.bytes, 38))
            return NULL;
    }
    return kept;
}

/* In threads that share the texts, which no one may write, and have a stack of 96 KB each. */
static bool runs_in_threads(void)
{
    pthread_t threads[THREADS];
    pthread_attr_t small;
    bool kept = pthread_attr_init(&small) == 0 && pthread_attr_setstacksize(&small, STACK) == 0;
    int started = 0;
    while (kept && started < THREADS && pthread_create(&threads[started], &small, checks, &committee) == 0)
        started++;
    kept = kept && started == THREADS;
    while (started > 0) {
        void *answer = NULL;
        kept = pthread_join(threads[--started], &answer) == 0 && answer != NULL && kept;
    }
    return kept;
}

/* Of a committee it is said what its format lays out, of a text that is cut nothing. */
static bool shows_the_committee(void)
{
    struct hs_shown_committee shown, blank;
    memset(&blank, 0xa5, sizeof blank);
    for (size_t len = 0; len < committee.len; len++) {
        shown = blank;
        if (hs_committee(committee.bytes + committee.len - len, len, &shown) >= 0 || memcmp(&shown, &blank, sizeof shown) != 0)
            return false;
    }
    /* A committee that counts each replica once: four bytes, f, n. The verdict has its chain's id behind four bytes. */
    unsigned f = 256u * committee.bytes[4] + committee.bytes[5];
    return hs_committee(committee.bytes, committee.len, &shown) == HS_ACCEPTED && shown.n == 3 * f + 1
        && shown.total == shown.n && shown.quorum == 2 * f + 1 && shown.weighted == 0
        && memcmp(shown.chain, verdict.bytes + 4, 32) == 0;
}

/* Whether a text of this length was written to the front of the room, and nothing behind it. */
static bool is_written(const uint8_t room[HS_NAME_LEN + 2], size_t told, const char *text)
{
    for (size_t i = told; i < HS_NAME_LEN + 2; i++)
        if (room[i] != 0xa5)
            return false;
    return told == strlen(text) && memcmp(room, text, told) == 0;
}

/* Answers have the names of docs/REFUSALS.md, other numbers none; a name that does not fit is not written. */
static bool names_its_answers(void)
{
    static const struct {
        int answer;
        const char *name;
    } answers[] = {
        {HS_ACCEPTED, "Accepted"},
        {HS_REFUSED_SHORT, "Short"},
        {HS_REFUSED_HEADER_MISMATCH, "HeaderMismatch"},
        {HS_REFUSED_KEY_NUMBER, "KeyNumber"},
        {HS_COMMITTEE_LENGTH, "Length"},
        {HS_COMMITTEE_KEY_COUNT, "KeyCount"},
        {12, ""},
        {-8, ""},
        {INT_MIN, ""},
        {INT_MAX, ""},
    };
    for (size_t i = 0; i < sizeof answers / sizeof answers[0]; i++) {
        uint8_t room[HS_NAME_LEN + 2];
        size_t len = strlen(answers[i].name);
        memset(room, 0xa5, sizeof room);
        if (hs_check_name(answers[i].answer, NULL, 0) != 0)
            return false;
        if (len > 0 && (hs_check_name(answers[i].answer, room, len - 1) != 0 || !is_written(room, 0, "")))
            return false;
        if (!is_written(room, hs_check_name(answers[i].answer, room, HS_NAME_LEN), answers[i].name))
            return false;
    }
    return true;
}

static bool tells_its_version(void)
{
    uint8_t room[HS_NAME_LEN + 2];
    memset(room, 0xa5, sizeof room);
    return hs_check_version(room, 1) == 0 && is_written(room, 0, "") &&
           is_written(room, hs_check_version(room, HS_NAME_LEN), WEZHGULA_VERSION);
}

int main(int argc, char **argv)
{
    static const struct {
        const char *name;
        bool (*is_kept)(void);
    } promises[] = {
        {"a text of length 0 may have any pointer", takes_length_0},
        {"a text of length 0 may have the pointer NULL", takes_null_of_length_0},
        {"no byte behind a text is read", reads_only_what_it_is_given},
        {"both texts may be one", takes_one_text_twice},
        {"threads may share the texts, on stacks of 96 KB", runs_in_threads},
        {"a committee is said as it stands", shows_the_committee},
        {"an answer has its name", names_its_answers},
        {"the version is that of the file VERSION", tells_its_version},
    };
    bool all = true;

    if (argc != 3) {
        fputs("usage: edges COMMITTEE VERDICT\n", stderr);
        return 2;
    }
    committee = read_to_the_edge(argv[1]);
    verdict = read_to_the_edge(argv[2]);
    for (size_t i = 0; i < sizeof promises / sizeof promises[0]; i++) {
        bool is_kept = promises[i].is_kept();
        printf("%s: %s\n", is_kept ? "ok" : "FAILED", promises[i].name);
        all = all && is_kept;
    }
    return all ? 0 : 1;
}
