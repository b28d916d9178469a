/* Checks and plays example W through the static library, and prints the entries of its interface, what its charter leaves over and the
 * records of its log; then explains why another charter refuses it, compares the two charters, and moves the sheet back to the old form
 * and over again. */
#include "velimhaw.h"
#include "w.h"
#include <inttypes.h>
#include <stdio.h>

static const velimhaw_bytes sheet = {w_sheet, sizeof w_sheet};
static const velimhaw_bytes charter = {w_charter, sizeof w_charter};
static const velimhaw_bytes script = {w_script, sizeof w_script};
static const velimhaw_bytes strict_charter = {w_strict_charter, sizeof w_strict_charter};
static const velimhaw_bytes names = {(const uint8_t *)w_names, W_NAMES_LENGTH};

/* The answer of a service. Whether it accepts. */
static bool show_answer(const char *service, uint64_t answer) {
    if (answer >= VELIMHAW_ACCEPTED) {
        printf("%s: accepted, %" PRIu64 "\n", service, answer - VELIMHAW_ACCEPTED);
        return true;
    }
    const char *line = velimhaw_question(answer);
    printf("%s: refused %" PRIu64 ", not met: %s\n", service, answer, line != NULL ? line : "no question has this number");
    return false;
}

/* A path and, after a colon, a purpose. */
static void show_path(const uint8_t *path, int length, int purpose) {
    for (int i = 0; i < length; i++)
        printf("%c%d", i == 0 ? ' ' : '.', path[i]);
    printf(":%d", purpose);
}

static void show_disclosure(const velimhaw_disclosure *d) {
    if (d->count == VELIMHAW_UNLIMITED)
        printf(", disclose into group %d (unlimited)", d->group);
    else
        printf(", disclose into group %d (%d)", d->group, d->count);
}

static void show_entry(const velimhaw_entry *e) {
    printf("  kind %d, path and purpose", e->kind);
    show_path(e->path, e->path_length, e->purpose);
    printf("%s%s%s", e->read ? ", read" : "", e->write ? ", write" : "", e->access ? ", access" : "");
    for (int i = 0; i < e->disclose_length; i++)
        show_disclosure(&e->disclose[i]);
    printf("\n");
}

static void show_sum(uint16_t sum) {
    if (sum == VELIMHAW_UNLIMITED)
        printf("*");
    else
        printf("%d", sum);
}

/* An entry of the slack form as the program list prints it. */
static void show_slack_entry(const velimhaw_slack_entry *e) {
    printf("  %d", e->kind);
    show_path(e->path, e->path_length, e->purpose);
    printf("%s%s%s", e->read ? " r" : "", e->write ? " w" : "", e->access ? " a" : "");
    for (int i = 0; i < e->disclose_length; i++) {
        printf(" d%d:", e->disclose[i].group);
        show_sum(e->disclose[i].needed);
        printf("/");
        show_sum(e->disclose[i].granted);
    }
    printf("\n");
}

/* What was sent or received, on what and where. */
static void show_act(const char *act, const velimhaw_record *r) {
    printf("  %s of name %d on channel %d at component %d", act, r->name, r->channel, r->component);
}

static void show_taken(const velimhaw_record *r) {
    switch (r->label) {
    case VELIMHAW_COMMUNICATION:
        show_act("communication", r);
        printf(" to component %d", r->receiver);
        break;
    case VELIMHAW_INPUT: show_act("input", r); break;
    case VELIMHAW_OUTPUT: show_act("output", r); break;
    case VELIMHAW_EXTRUSION: show_act("first output", r); break;
    case VELIMHAW_ENVIRONMENT_NAME: printf("  name %d made by the environment", r->name); break;
    case VELIMHAW_UNFOLDING: printf("  unfolding at component %d", r->component); break;
    }
    printf("\n");
}

static void show_record(const velimhaw_record *r) {
    if (r->refused != 0)
        printf("  refused %d, not met: %s\n", r->refused, velimhaw_question(r->refused));
    else
        show_taken(r);
}

static void check_and_show(const char *service, velimhaw_bytes against, velimhaw_lent output) {
    uint64_t answer = velimhaw_check(sheet, against, output);
    if (!show_answer(service, answer))
        return;
    velimhaw_bytes written = {output.bytes, (size_t)(answer - VELIMHAW_ACCEPTED)};
    velimhaw_entry entry;
    while (velimhaw_next_entry(&written, &entry))
        show_entry(&entry);
}

static void slack_and_show(const char *service, velimhaw_lent output) {
    uint64_t answer = velimhaw_slack(sheet, charter, output);
    if (!show_answer(service, answer))
        return;
    velimhaw_bytes written = {output.bytes, (size_t)(answer - VELIMHAW_ACCEPTED)};
    velimhaw_slack_entry entry;
    while (velimhaw_next_slack(&written, &entry))
        show_slack_entry(&entry);
}

/* The sentence for a refusal with 18. It has no zero byte at its end, so its length is given. */
static void explain_and_show(const char *service, velimhaw_bytes against) {
    char line[VELIMHAW_SENTENCE_MAX];
    velimhaw_lent whole_line = {(uint8_t *)line, sizeof line};
    uint64_t answer = velimhaw_explain(sheet, against, names, whole_line);
    if (answer > VELIMHAW_ACCEPTED)
        printf("%s: %.*s\n", service, (int)(answer - VELIMHAW_ACCEPTED), line);
    else
        show_answer(service, answer);
}

static void play_and_show(const char *service, velimhaw_lent log) {
    uint64_t answer = velimhaw_play(sheet, charter, script, log);
    if (!show_answer(service, answer))
        return;
    velimhaw_bytes written = {log.bytes, (size_t)(answer - VELIMHAW_ACCEPTED) * VELIMHAW_RECORD_LENGTH};
    velimhaw_record record;
    while (velimhaw_next_record(&written, &record))
        show_record(&record);
}

/* W's sheet to the form without purposes, and from there to the form with them. */
static void move_and_show(velimhaw_lent old_output, velimhaw_lent output) {
    uint64_t answer = velimhaw_downgrade(sheet, old_output);
    if (!show_answer("downgrade", answer))
        return;
    velimhaw_bytes old_sheet = {old_output.bytes, (size_t)(answer - VELIMHAW_ACCEPTED)};
    show_answer("upgrade", velimhaw_upgrade(old_sheet, output));
}

static const char *no_looser(velimhaw_bytes now, velimhaw_bytes before) {
    return velimhaw_no_looser(now, before) == 1 ? "yes" : "no";
}

/* The two charters, each in place of the other. */
static void compare_and_show(void) {
    printf("no looser: the stricter charter than W's %s, ", no_looser(strict_charter, charter));
    printf("W's than the stricter one %s\n", no_looser(charter, strict_charter));
}

int main(void) {
    static uint8_t output[VELIMHAW_SLACK_MAX];
    static uint8_t log[VELIMHAW_LOG_MAX];
    static uint8_t moved[VELIMHAW_MOVED_MAX];
    velimhaw_lent whole_output = {output, sizeof output};
    velimhaw_lent whole_log = {log, sizeof log};
    velimhaw_lent whole_moved = {moved, sizeof moved};
    velimhaw_lent three_bytes = {output, 3};
    check_and_show("check", charter, whole_output);
    slack_and_show("slack", whole_output);
    play_and_show("play", whole_log);
    check_and_show("check with 3 bytes of output", charter, three_bytes);
    check_and_show("check against a stricter charter", strict_charter, whole_output);
    explain_and_show("explain", strict_charter);
    compare_and_show();
    move_and_show(whole_moved, whole_output);
    return 0;
}
