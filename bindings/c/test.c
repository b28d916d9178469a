/* Tests velimhaw.h: entries of both forms and records taken off whole, truncated and malformed bytes, the lines of the questions, the
 * memory lent to a refused call, a count that components share, purposes, what a charter leaves over, the sentence, sheets moved between
 * the old form and the new one, and charters compared. All bytes stand right before a page that may not be touched, so a read past their
 * end is a fault. */
#define _DEFAULT_SOURCE
#include "velimhaw.h"
#include "w.h"
#undef NDEBUG
#include <assert.h>
#include <stdio.h>
#include <string.h>
#include <sys/mman.h>
#include <unistd.h>

static const uint8_t w_interface[] = {0x00, 0x02, 0x00, 0x01, 0x00, 0x10, 0x01, 0x00, 0x01, 0x00, 0x00, 0x02, 0x00, 0x02, 0x00, 0x05};
static const uint8_t w_slack[] = {0x00, 0x02, 0x00, 0x01, 0x00, 0x10, 0x01, 0x00, 0x01,
                                  0x00, 0x01, 0x00, 0x00, 0x02, 0x00, 0x02, 0x00, 0x05};
static const uint8_t w_log[] = {0x00, 0x01, 0x00, 0x00, 0x01, 0x00, 0x00, 0x01, 0x00, 0x05, 0xff, 0xff,
                                0x02, 0x00, 0xff, 0xff, 0x00, 0x02, 0x01, 0x00, 0x02, 0x00, 0x01, 0xff};

static const velimhaw_bytes sheet_of_w = {w_sheet, sizeof w_sheet};
static const velimhaw_bytes old_sheet_of_w = {w_old_sheet, sizeof w_old_sheet};
static const velimhaw_bytes charter_of_w = {w_charter, sizeof w_charter};
static const velimhaw_bytes strict_charter = {w_strict_charter, sizeof w_strict_charter};
static const velimhaw_bytes names_of_w = {(const uint8_t *)w_names, W_NAMES_LENGTH};
static const char sentence_of_w[] = "Society/Indexers may not disclose to Society: Entries";

/* Two components of one path, each of which discloses a link into group 0, with one purpose and with two. */
static const uint8_t two_of_one_path[] = {2, 2, 0, 0, 0, 1, 0, 0, 2, 0, 1, 4, 1, 0, 6, 0, 1, 0, 4, 1, 0, 6, 0, 1, 0};
static const uint8_t two_purposes[] = {2, 2, 0, 0, 0, 1, 0, 0, 2, 0, 1, 4, 1, 9, 6, 0, 1, 0, 4, 1, 15, 6, 0, 1, 0};
static const velimhaw_bytes sheet_of_two = {two_of_one_path, sizeof two_of_one_path};
static const velimhaw_bytes sheet_of_purposes = {two_purposes, sizeof two_purposes};

static uint8_t *page_end, *other_end;

static size_t two_pages(void) {
    return 2 * (size_t)sysconf(_SC_PAGESIZE);
}

/* Maps two pages and, after them, two that may not be touched. Where those begin. */
static uint8_t *map_pages(void) {
    uint8_t *at = mmap(NULL, 2 * two_pages(), PROT_READ | PROT_WRITE, MAP_PRIVATE | MAP_ANONYMOUS, -1, 0);
    assert(at != MAP_FAILED);
    assert(mprotect(at + two_pages(), two_pages(), PROT_NONE) == 0);
    return at + two_pages();
}

/* Some bytes, copied to right before the page that may not be touched. */
static velimhaw_bytes at_end(const uint8_t *bytes, size_t length) {
    memcpy(page_end - length, bytes, length);
    velimhaw_bytes copied = {page_end - length, length};
    return copied;
}

/* How many entries are taken off; the bytes are what is left. */
static int count_entries(velimhaw_bytes *bytes) {
    velimhaw_entry entry;
    int count = 0;
    while (velimhaw_next_entry(bytes, &entry))
        count++;
    return count;
}

static int count_slack(velimhaw_bytes *bytes) {
    velimhaw_slack_entry entry;
    int count = 0;
    while (velimhaw_next_slack(bytes, &entry))
        count++;
    return count;
}

static int count_records(velimhaw_bytes *bytes) {
    velimhaw_record record;
    int count = 0;
    while (velimhaw_next_record(bytes, &record))
        count++;
    return count;
}

static void test_entries_of_w(void) {
    velimhaw_bytes rest = at_end(w_interface, sizeof w_interface);
    velimhaw_entry e;
    assert(velimhaw_next_entry(&rest, &e));
    assert(e.kind == 0 && e.path_length == 2 && e.path[0] == 0 && e.path[1] == 1 && e.purpose == 0);
    assert(!e.read && !e.write && !e.access);
    assert(e.disclose_length == 1 && e.disclose[0].group == 0 && e.disclose[0].count == 1);
    assert(velimhaw_next_entry(&rest, &e));
    assert(e.kind == 0 && e.path_length == 2 && e.path[0] == 0 && e.path[1] == 2 && e.purpose == 0);
    assert(e.read && !e.write && e.access && e.disclose_length == 0);
    assert(!velimhaw_next_entry(&rest, &e) && rest.length == 0);
}

static void test_slack_of_w(void) {
    velimhaw_bytes rest = at_end(w_slack, sizeof w_slack);
    velimhaw_slack_entry e;
    assert(velimhaw_next_slack(&rest, &e));
    assert(e.kind == 0 && e.path_length == 2 && e.path[0] == 0 && e.path[1] == 1 && e.purpose == 0);
    assert(!e.read && !e.write && !e.access);
    assert(e.disclose_length == 1 && e.disclose[0].group == 0 && e.disclose[0].needed == 1 && e.disclose[0].granted == 1);
    assert(velimhaw_next_slack(&rest, &e));
    assert(e.kind == 0 && e.path_length == 2 && e.path[0] == 0 && e.path[1] == 2 && e.purpose == 0);
    assert(e.read && !e.write && e.access && e.disclose_length == 0);
    assert(!velimhaw_next_slack(&rest, &e) && rest.length == 0);
}

static void test_records_of_w(void) {
    velimhaw_bytes rest = at_end(w_log, sizeof w_log);
    velimhaw_record r;
    assert(velimhaw_next_record(&rest, &r));
    assert(r.refused == 0 && r.label == VELIMHAW_COMMUNICATION && r.channel == 0 && r.name == 1 && r.component == 0 && r.receiver == 1);
    assert(velimhaw_next_record(&rest, &r));
    assert(r.label == VELIMHAW_ENVIRONMENT_NAME && r.channel == VELIMHAW_NO_NAME && r.name == 2);
    assert(r.component == VELIMHAW_NO_COMPONENT && r.receiver == VELIMHAW_NO_COMPONENT);
    assert(velimhaw_next_record(&rest, &r));
    assert(r.label == VELIMHAW_INPUT && r.channel == 1 && r.name == 2 && r.component == 1 && r.receiver == VELIMHAW_NO_COMPONENT);
    assert(!velimhaw_next_record(&rest, &r) && rest.length == 0);
}

/* Cut short anywhere, the whole entries and records are taken off, and the rest stays. */
static void test_truncated(void) {
    for (size_t length = 0; length <= sizeof w_interface; length++) {
        velimhaw_bytes rest = at_end(w_interface, length);
        int whole = (length >= 10) + (length >= 16);
        assert(count_entries(&rest) == whole && rest.length == length - (whole == 2 ? 16 : whole == 1 ? 10 : 0));
    }
    for (size_t length = 0; length <= sizeof w_slack; length++) {
        velimhaw_bytes rest = at_end(w_slack, length);
        int whole = (length >= 12) + (length >= 18);
        assert(count_slack(&rest) == whole && rest.length == length - (whole == 2 ? 18 : whole == 1 ? 12 : 0));
    }
    for (size_t length = 0; length <= sizeof w_log; length++) {
        velimhaw_bytes rest = at_end(w_log, length);
        assert(count_records(&rest) == (int)(length / 8) && rest.length == length % 8);
    }
}

/* One byte of W's first entry changed: at its place, to its value, no entry is taken off and nothing is lost. */
static void test_malformed_entries(void) {
    static const struct { int at; uint8_t value; } changes[] = {
        {0, 16}, {1, 0}, {1, 9}, {2, 64}, {3, 255}, {4, 16}, {4, 255}, {5, 0}, {5, 0x08}, {5, 0x18}, {5, 0x20}, {5, 0x30}, {6, 0}, {6, 65},
        {7, 64}, {8, 0}, {9, 0x10}};
    for (size_t i = 0; i < sizeof changes / sizeof changes[0]; i++) {
        velimhaw_bytes rest = at_end(w_interface, sizeof w_interface);
        page_end[changes[i].at - (int)sizeof w_interface] = changes[i].value;
        assert(count_entries(&rest) == 0 && rest.length == sizeof w_interface);
    }
}

/* The same of W's slack form, whose granted sum may not be below the needed one. */
static void test_malformed_slack(void) {
    static const struct { int at; uint8_t value; } changes[] = {
        {0, 16}, {1, 0}, {1, 9}, {2, 64}, {3, 255}, {4, 16}, {4, 255}, {5, 0}, {5, 0x08}, {5, 0x18}, {5, 0x20}, {5, 0x30}, {6, 0}, {6, 65},
        {7, 64}, {8, 0}, {8, 2}, {9, 0x10}, {10, 0}, {11, 0x80}};
    for (size_t i = 0; i < sizeof changes / sizeof changes[0]; i++) {
        velimhaw_bytes rest = at_end(w_slack, sizeof w_slack);
        page_end[changes[i].at - (int)sizeof w_slack] = changes[i].value;
        assert(count_slack(&rest) == 0 && rest.length == sizeof w_slack);
    }
}

/* Groups of a list rise strictly, and 65,535 is unlimited. */
static void test_lists(void) {
    static const uint8_t rising[] = {0, 1, 0, 15, 0x10, 2, 3, 0xff, 0x0f, 5, 0xff, 0xff};
    static const uint8_t falling[] = {0, 1, 0, 15, 0x10, 2, 5, 1, 0, 3, 1, 0};
    static const uint8_t equal[] = {0, 1, 0, 15, 0x10, 2, 5, 1, 0, 5, 1, 0};
    velimhaw_bytes rest = at_end(rising, sizeof rising);
    velimhaw_entry e;
    assert(velimhaw_next_entry(&rest, &e) && e.purpose == 15 && e.disclose_length == 2);
    assert(e.disclose[0].count == VELIMHAW_COUNT_MAX && e.disclose[1].count == VELIMHAW_UNLIMITED);
    rest = at_end(falling, sizeof falling);
    assert(count_entries(&rest) == 0);
    rest = at_end(equal, sizeof equal);
    assert(count_entries(&rest) == 0);
}

/* The bytes of an entry whose list has one group with these sums. */
static velimhaw_bytes with_sums(unsigned needed, unsigned granted) {
    const uint8_t bytes[] = {0, 1, 0, 8, 0x10, 1, 7, (uint8_t)needed, (uint8_t)(needed >> 8), (uint8_t)granted, (uint8_t)(granted >> 8)};
    return at_end(bytes, sizeof bytes);
}

/* Sums on both sides of their limits, and what is left over. */
static void test_sums(void) {
    static const struct { unsigned needed, granted, left_over; } fine[] = {
        {1, 1, 0}, {3, 8190, 8187}, {4096, 32760, 28664}, {1, 65535, 65535}, {65535, 65535, 65535}};
    static const unsigned malformed[][2] = {{0, 1}, {1, 0}, {2, 1}, {4097, 32760}, {1, 32761}, {1, 65534}, {65535, 4095}};
    velimhaw_slack_entry e;
    for (size_t i = 0; i < sizeof fine / sizeof fine[0]; i++) {
        velimhaw_bytes rest = with_sums(fine[i].needed, fine[i].granted);
        assert(velimhaw_next_slack(&rest, &e) && rest.length == 0 && e.purpose == 8 && e.disclose_length == 1 && e.disclose[0].group == 7);
        assert(e.disclose[0].needed == fine[i].needed && e.disclose[0].granted == fine[i].granted);
        assert(velimhaw_left_over(&e.disclose[0]) == fine[i].left_over);
    }
    for (size_t i = 0; i < sizeof malformed / sizeof malformed[0]; i++) {
        velimhaw_bytes rest = with_sums(malformed[i][0], malformed[i][1]);
        assert(!velimhaw_next_slack(&rest, &e) && rest.length == 11);
    }
}

static void test_malformed_records(void) {
    static const uint8_t malformed[][8] = {
        {29, 0, 0, 0, 0, 0, 0, 0},
        {36, 0, 0, 0, 0, 0, 0, 0},
        {30, 0, 0, 0, 0, 0, 0, 1},
        {0, 0, 0, 0, 0, 0, 0, 0},
        {0, 7, 0, 0, 0, 0, 0, 255},
        {0, 1, 0, 0, 1, 0, 0, 255},
        {0, 2, 0, 0, 1, 0, 0, 0},
        {0, 3, 0, 0, 1, 0, 32, 255},
        {0, 4, 0, 4, 1, 0, 0, 255},
        {0, 5, 0, 0, 1, 0, 255, 255},
        {0, 5, 255, 255, 255, 255, 255, 255},
        {0, 6, 255, 255, 0, 0, 0, 255},
    };
    for (size_t i = 0; i < sizeof malformed / sizeof malformed[0]; i++) {
        velimhaw_bytes rest = at_end(malformed[i], 8);
        assert(count_records(&rest) == 0 && rest.length == 8);
    }
}

static void test_refused_record(void) {
    static const uint8_t refused[] = {33, 0, 0, 0, 0, 0, 0, 0};
    velimhaw_bytes rest = at_end(refused, sizeof refused);
    velimhaw_record r;
    assert(velimhaw_next_record(&rest, &r) && r.refused == 33 && r.label == 0);
}

static void test_questions(void) {
    for (uint64_t n = 0; n < 100; n++)
        assert((velimhaw_question(n) != NULL) == ((n >= 1 && n <= 22) || (n >= 30 && n <= 35) || n == 40 || n == 41));
    assert(velimhaw_question(UINT64_MAX) == NULL);
}

/* W's sheet cut short anywhere, and W itself with an output or log one byte short: refused, and what is lent keeps its bytes. */
static void test_refused_calls(void) {
    velimhaw_bytes charter = {w_charter, sizeof w_charter};
    velimhaw_bytes script = {w_script, sizeof w_script};
    velimhaw_bytes sheet = {w_sheet, sizeof w_sheet};
    uint8_t kept[23], bytes[23];
    memset(kept, 0xaa, sizeof kept);
    memset(bytes, 0xaa, sizeof bytes);
    velimhaw_lent output = {bytes, 15}, slack = {bytes, 17}, log = {bytes, 23};
    for (size_t length = 0; length < sizeof w_sheet; length++) {
        assert(velimhaw_check(at_end(w_sheet, length), charter, output) == 2);
        assert(velimhaw_slack(at_end(w_sheet, length), charter, slack) == 2);
    }
    assert(velimhaw_check(sheet, charter, output) == 19);
    assert(velimhaw_slack(sheet, charter, slack) == 19);
    assert(velimhaw_play(sheet, charter, script, log) == 22);
    assert(memcmp(bytes, kept, sizeof kept) == 0);
}

/* One piece of memory lent as two inputs is answered as two copies of it are. */
static void test_shared_inputs(void) {
    uint8_t copy[sizeof w_sheet], bytes[16];
    memcpy(copy, w_sheet, sizeof copy);
    velimhaw_bytes sheet = {w_sheet, sizeof w_sheet}, copied = {copy, sizeof copy};
    velimhaw_lent output = {bytes, sizeof bytes};
    assert(velimhaw_check(sheet, sheet, output) == velimhaw_check(sheet, copied, output));
}

/* The output and log of W, right before the page that may not be touched. */
static void test_accepted_calls(void) {
    velimhaw_bytes sheet = {w_sheet, sizeof w_sheet};
    velimhaw_bytes charter = {w_charter, sizeof w_charter};
    velimhaw_bytes script = {w_script, sizeof w_script};
    velimhaw_lent output = {page_end - sizeof w_interface, sizeof w_interface};
    velimhaw_lent log = {page_end - sizeof w_log, sizeof w_log};
    assert(velimhaw_check(sheet, charter, output) == VELIMHAW_ACCEPTED + sizeof w_interface);
    assert(memcmp(output.bytes, w_interface, sizeof w_interface) == 0);
    assert(velimhaw_play(sheet, charter, script, log) == VELIMHAW_ACCEPTED + 3);
    assert(memcmp(log.bytes, w_log, sizeof w_log) == 0);
}

/* Two components of one path: accepted, each entry with its own count, where the charter's count covers both, and refused with 18 where
 * it is one less. */
static void test_shared_count(void) {
    static const uint8_t both[] = {1, 0, 0, 8, 1, 1, 0x10, 1, 0, 2, 0, 0};
    static const uint8_t one_less[] = {1, 0, 0, 8, 1, 1, 0x10, 1, 0, 1, 0, 0};
    static const uint8_t entries[] = {0, 2, 0, 1, 0, 0x10, 1, 0, 1, 0, 0, 2, 0, 1, 0, 0x10, 1, 0, 1, 0};
    velimhaw_bytes covering = {both, sizeof both}, strict = {one_less, sizeof one_less};
    velimhaw_lent output = {page_end - sizeof entries, sizeof entries};
    assert(velimhaw_check(sheet_of_two, strict, output) == 18);
    assert(velimhaw_check(sheet_of_two, covering, output) == VELIMHAW_ACCEPTED + sizeof entries);
    assert(memcmp(output.bytes, entries, sizeof entries) == 0);
}

/* The same with two purposes: a count each. A charter that grants it for one of them refuses with 18. */
static void test_purposes(void) {
    static const uint8_t one[] = {1, 0, 0, 8, 1, 1, 0x10, 1, 0, 1, 0, 0};
    static const uint8_t for_9_and_15[] = {1, 0, 0, 8, 1, 1, 0x30, 1, 0, 1, 0, 0x00, 0x82, 0};
    static const uint8_t for_9[] = {1, 0, 0, 8, 1, 1, 0x30, 1, 0, 1, 0, 0x00, 0x02, 0};
    static const uint8_t entries[] = {0, 2, 0, 1, 9, 0x10, 1, 0, 1, 0, 0, 2, 0, 1, 15, 0x10, 1, 0, 1, 0};
    velimhaw_bytes covering[] = {{one, sizeof one}, {for_9_and_15, sizeof for_9_and_15}}, strict = {for_9, sizeof for_9};
    velimhaw_lent output = {page_end - sizeof entries, sizeof entries};
    assert(velimhaw_check(sheet_of_purposes, strict, output) == 18);
    for (int i = 0; i < 2; i++) {
        memset(output.bytes, 0xaa, output.length);
        assert(velimhaw_check(sheet_of_purposes, covering[i], output) == VELIMHAW_ACCEPTED + sizeof entries);
        assert(memcmp(output.bytes, entries, sizeof entries) == 0);
    }
}

/* The slack form of W: in an output of its length right before the page that may not be touched, and in a longer output, which keeps the
 * bytes past it. */
static void test_accepted_slack(void) {
    velimhaw_lent output = {page_end - sizeof w_slack, sizeof w_slack};
    assert(velimhaw_slack(sheet_of_w, charter_of_w, output) == VELIMHAW_ACCEPTED + sizeof w_slack);
    assert(memcmp(output.bytes, w_slack, sizeof w_slack) == 0);
    static uint8_t bytes[VELIMHAW_SLACK_MAX], kept[VELIMHAW_SLACK_MAX];
    memset(kept, 0xaa, sizeof kept);
    memset(bytes, 0xaa, sizeof bytes);
    velimhaw_lent longer = {bytes, sizeof bytes};
    assert(velimhaw_slack(sheet_of_w, strict_charter, longer) == 18 && memcmp(bytes, kept, sizeof kept) == 0);
    assert(velimhaw_slack(sheet_of_w, charter_of_w, longer) == VELIMHAW_ACCEPTED + sizeof w_slack);
    assert(memcmp(bytes, w_slack, sizeof w_slack) == 0 && memcmp(bytes + sizeof w_slack, kept, sizeof kept - sizeof w_slack) == 0);
}

/* Two components of one path: each entry tells what both need, beside the counts of both groups. */
static void test_slack_of_a_class(void) {
    static const uint8_t most[] = {1, 0, 0, 0x10, 1, 0, 0xff, 0x0f, 1, 1, 0x10, 1, 0, 0xff, 0x0f, 0};
    static const uint8_t unlimited[] = {1, 0, 0, 0x10, 1, 0, 0xff, 0xff, 1, 1, 0x10, 1, 0, 0xff, 0x0f, 0};
    static const uint8_t of_most[] = {0, 2, 0, 1, 0, 0x10, 1, 0, 2, 0, 0xfe, 0x1f, 0, 2, 0, 1, 0, 0x10, 1, 0, 2, 0, 0xfe, 0x1f};
    velimhaw_bytes finite = {most, sizeof most}, infinite = {unlimited, sizeof unlimited};
    velimhaw_lent output = {page_end - sizeof of_most, sizeof of_most};
    assert(velimhaw_slack(sheet_of_two, finite, output) == VELIMHAW_ACCEPTED + sizeof of_most);
    assert(memcmp(output.bytes, of_most, sizeof of_most) == 0);
    assert(velimhaw_slack(sheet_of_two, infinite, output) == VELIMHAW_ACCEPTED + sizeof of_most);
    velimhaw_bytes rest = {output.bytes, output.length};
    velimhaw_slack_entry e;
    while (velimhaw_next_slack(&rest, &e))
        assert(e.disclose[0].needed == 2 && e.disclose[0].granted == VELIMHAW_UNLIMITED);
    assert(rest.length == 0);
}

/* The sentence of W under a stricter charter: in a line of its length right before the page that may not be touched, and in a longer
 * line, which keeps the bytes past it. */
static void test_sentence_of_w(void) {
    size_t length = sizeof sentence_of_w - 1;
    velimhaw_lent line = {page_end - length, length};
    assert(velimhaw_explain(sheet_of_w, strict_charter, names_of_w, line) == VELIMHAW_ACCEPTED + length);
    assert(memcmp(line.bytes, sentence_of_w, length) == 0);
    uint8_t bytes[VELIMHAW_SENTENCE_MAX], kept[VELIMHAW_SENTENCE_MAX];
    memset(kept, 0xaa, sizeof kept);
    memset(bytes, 0xaa, sizeof bytes);
    velimhaw_lent longer = {bytes, sizeof bytes};
    assert(velimhaw_explain(sheet_of_w, strict_charter, names_of_w, longer) == VELIMHAW_ACCEPTED + length);
    assert(memcmp(bytes, sentence_of_w, length) == 0 && memcmp(bytes + length, kept, sizeof kept - length) == 0);
}

/* Names cut short anywhere, a line one byte short, another refusal and an acceptance: no sentence, and the line keeps its bytes. */
static void test_no_sentence(void) {
    static const uint8_t zero[] = {0};
    velimhaw_bytes charter = {w_charter, sizeof w_charter}, no_tree = {zero, sizeof zero};
    uint8_t bytes[VELIMHAW_SENTENCE_MAX], kept[VELIMHAW_SENTENCE_MAX];
    memset(kept, 0xaa, sizeof kept);
    memset(bytes, 0xaa, sizeof bytes);
    velimhaw_lent line = {bytes, sizeof bytes}, short_line = {bytes, sizeof sentence_of_w - 2};
    for (size_t length = 0; length < W_NAMES_LENGTH; length++) {
        velimhaw_bytes names = at_end((const uint8_t *)w_names, length);
        assert(velimhaw_explain(sheet_of_w, strict_charter, names, line) == 40);
        assert(velimhaw_explain(sheet_of_w, charter, names, line) == VELIMHAW_ACCEPTED);
        assert(velimhaw_explain(sheet_of_w, no_tree, names, line) == 16);
    }
    assert(velimhaw_explain(sheet_of_w, strict_charter, names_of_w, short_line) == 19);
    assert(velimhaw_explain(sheet_of_w, charter, names_of_w, line) == VELIMHAW_ACCEPTED);
    assert(memcmp(bytes, kept, sizeof kept) == 0);
}

/* One byte of W's names changed: at its place, to its value, they break their rules. */
static void test_broken_names(void) {
    static const struct { size_t at; char value; } changes[] = {
        {0, '0'}, {0, '@'}, {0, '['}, {0, '`'}, {0, '{'}, {0, '\n'}, {7, '\r'}, {7, 'x'},
        {W_NAMES_LENGTH - 2, 'g'} /* Kbg, which stands before it */, {W_NAMES_LENGTH - 1, 'x'}};
    uint8_t bytes[VELIMHAW_SENTENCE_MAX];
    velimhaw_lent line = {bytes, sizeof bytes};
    for (size_t i = 0; i < sizeof changes / sizeof changes[0]; i++) {
        velimhaw_bytes names = at_end((const uint8_t *)w_names, W_NAMES_LENGTH);
        page_end[(ptrdiff_t)changes[i].at - (ptrdiff_t)W_NAMES_LENGTH] = (uint8_t)changes[i].value;
        assert(velimhaw_explain(sheet_of_w, strict_charter, names, line) == 40);
    }
}

/* 80 names of 20 letters, distinct by their first two. */
static void write_longest_names(uint8_t *names) {
    memset(names, 'X', VELIMHAW_NAMES_FILE_MAX);
    for (int i = 0; i < 80; i++) {
        names[21 * i] = (uint8_t)('a' + i / 8);
        names[21 * i + 1] = (uint8_t)('a' + i % 8);
        names[21 * i + 20] = '\n';
    }
}

/* A component whose path has eight groups discloses a link, and a charter that gives those groups nothing. */
static void test_longest_sentence(void) {
    static const uint8_t deep_sheet[] = {2, 2, 0, 0, 0, 1, 0, 0, 2, 0, 2, 1, 2, 2, 2, 3, 2, 4, 2, 5, 2, 6, 4, 7, 0, 6, 0, 1, 0};
    static const uint8_t deep_charter[] = {1, 0, 0, 0, 1, 1, 0, 1, 2, 0, 1, 3, 0, 1, 4, 0, 1, 5, 0, 1, 6, 0, 1, 7, 0, 0};
    static uint8_t longest[VELIMHAW_NAMES_FILE_MAX];
    write_longest_names(longest);
    velimhaw_bytes sheet = {deep_sheet, sizeof deep_sheet}, charter = {deep_charter, sizeof deep_charter};
    velimhaw_bytes names = {longest, sizeof longest};
    velimhaw_lent line = {page_end - VELIMHAW_SENTENCE_MAX, VELIMHAW_SENTENCE_MAX};
    velimhaw_lent short_line = {page_end - VELIMHAW_SENTENCE_MAX, VELIMHAW_SENTENCE_MAX - 1};
    assert(velimhaw_explain(sheet, charter, names, short_line) == 19);
    assert(velimhaw_explain(sheet, charter, names, line) == VELIMHAW_ACCEPTED + VELIMHAW_SENTENCE_MAX);
    assert(memcmp(line.bytes, "aaXX", 4) == 0 && page_end[-20] == 'i' && page_end[-19] == 'a' && page_end[-1] == 'X');
}

/* One of the two services that move a sheet. */
typedef uint64_t (*mover)(velimhaw_bytes sheet, velimhaw_lent output);

/* A sheet moved: into an output of the result's length right before the page that may not be touched, into a longer one, which keeps the
 * bytes past the result, and into one a byte short, which keeps all of its own. */
static void moves(mover move, velimhaw_bytes sheet, velimhaw_bytes result) {
    static uint8_t bytes[VELIMHAW_MOVED_MAX + 2];
    velimhaw_lent exact = {page_end - result.length, result.length}, longer = {bytes, sizeof bytes}, less = {bytes, result.length - 1};
    assert(move(sheet, exact) == VELIMHAW_ACCEPTED + result.length);
    assert(memcmp(exact.bytes, result.bytes, result.length) == 0);
    memset(bytes, 0xaa, sizeof bytes);
    assert(move(sheet, less) == 19 && bytes[0] == 0xaa && memcmp(bytes, bytes + 1, sizeof bytes - 1) == 0);
    assert(move(sheet, longer) == VELIMHAW_ACCEPTED + result.length);
    assert(memcmp(bytes, result.bytes, result.length) == 0);
    assert(bytes[result.length] == 0xaa && memcmp(bytes + result.length, bytes + result.length + 1, sizeof bytes - result.length - 1) == 0);
}

/* A sheet is refused with a number before the output is looked at, and the output keeps its bytes. */
static void refuses(mover move, velimhaw_bytes sheet, uint64_t number) {
    static uint8_t bytes[VELIMHAW_MOVED_MAX], kept[VELIMHAW_MOVED_MAX];
    memset(kept, 0xaa, sizeof kept);
    memset(bytes, 0xaa, sizeof bytes);
    velimhaw_lent output = {bytes, sizeof bytes}, none = {bytes, 0};
    assert(move(sheet, none) == number && move(sheet, output) == number && memcmp(bytes, kept, sizeof kept) == 0);
}

/* W, a sheet without components and one that no charter accepts, moved both ways; W's sheets cut short anywhere. */
static void test_moved_sheets(void) {
    static const uint8_t idle[] = {0, 0}, old_untypable[] = {0, 4, 0, 6, 9, 9, 0}, untypable[] = {0, 4, 0, 0, 6, 9, 9, 0};
    const velimhaw_bytes forms[][2] = {
        {old_sheet_of_w, sheet_of_w},
        {{idle, sizeof idle}, {idle, sizeof idle}},
        {{old_untypable, sizeof old_untypable}, {untypable, sizeof untypable}},
    };
    for (size_t i = 0; i < sizeof forms / sizeof forms[0]; i++) {
        moves(velimhaw_upgrade, forms[i][0], forms[i][1]);
        moves(velimhaw_downgrade, forms[i][1], forms[i][0]);
    }
    for (size_t length = 0; length < sizeof w_old_sheet; length++)
        refuses(velimhaw_upgrade, at_end(w_old_sheet, length), 2);
    for (size_t length = 0; length < sizeof w_sheet; length++)
        refuses(velimhaw_downgrade, at_end(w_sheet, length), 2);
}

/* A purpose of 16 at its byte, another than 0 after the whole sheet, and a group that is not new. */
static void test_sheets_that_are_not_moved(void) {
    static const struct { uint64_t number; uint8_t bytes[8]; size_t length; } cases[] = {
        {4, {0, 4, 0, 16, 0}, 5}, {3, {0, 4, 0, 1, 0, 0}, 6}, {41, {0, 4, 0, 1, 0}, 5}, {41, {0, 4, 0, 15, 0}, 5},
        {6, {0, 2, 0, 4, 0, 0, 0}, 7}};
    for (size_t i = 0; i < sizeof cases / sizeof cases[0]; i++)
        refuses(velimhaw_downgrade, at_end(cases[i].bytes, cases[i].length), cases[i].number);
    static const uint8_t not_new[] = {0, 2, 0, 4, 0, 0};
    refuses(velimhaw_upgrade, at_end(not_new, sizeof not_new), 6);
    refuses(velimhaw_downgrade, sheet_of_purposes, 41);
}

/* Writes a sheet of so many bytes with 32 components, in the old form or with purpose 0 at each. Free names, whose types have two to six
 * bytes, make up the length. */
static velimhaw_bytes write_long(uint8_t *sheet, size_t length, bool old) {
    static const uint8_t new_name[] = {3, 4, 0, 0, 0, 0, 0};
    size_t type, left = length - 32 * (17 * sizeof new_name + (old ? 4 : 5));
    velimhaw_bytes written = {sheet, length};
    memset(sheet, 0, length);
    uint8_t *at = sheet + 1;
    for (; left > 0; left -= type, at += type, sheet[0]++) {
        type = left > 7 ? 6 : left == 7 ? 5 : left;
        *at = (uint8_t)(type - 2);
    }
    for (int component = 0; component < 32; component++) {
        if (component < 31)
            *at++ = 1;
        *at = 4;
        at += old ? 2 : 3;
        for (int name = 0; name < 17; name++, at += sizeof new_name)
            memcpy(at, new_name, sizeof new_name);
        at++;
    }
    assert(at == sheet + length);
    return written;
}

/* The longest new form is moved both ways; an old sheet whose new form would be longer is refused with 1, but after 2 to 6. */
static void test_longest_moved_sheets(void) {
    static uint8_t old_bytes[VELIMHAW_SHEET_MAX + 1], bytes[VELIMHAW_SHEET_MAX + 1];
    velimhaw_bytes old = write_long(old_bytes, VELIMHAW_SHEET_MAX - 32, true), sheet = write_long(bytes, VELIMHAW_SHEET_MAX, false);
    moves(velimhaw_upgrade, old, sheet);
    moves(velimhaw_downgrade, sheet, old);
    refuses(velimhaw_upgrade, write_long(old_bytes, VELIMHAW_SHEET_MAX - 31, true), 1);
    old = write_long(old_bytes, VELIMHAW_SHEET_MAX, true);
    refuses(velimhaw_upgrade, old, 1);
    old.length--;
    refuses(velimhaw_upgrade, old, 2);
    sheet.length++;
    refuses(velimhaw_upgrade, sheet, 1);
    refuses(velimhaw_downgrade, sheet, 1);
}

/* Lets the two pages before an end be read, and written or not. */
static void let_write(uint8_t *end, bool write) {
    assert(mprotect(end - two_pages(), two_pages(), write ? PROT_READ | PROT_WRITE : PROT_READ) == 0);
}

/* Whether a charter is no looser than another. Each stands right before a page that may not be touched, and neither may be written. */
static bool compared(velimhaw_bytes a, velimhaw_bytes b) {
    velimhaw_bytes charter = at_end(a.bytes, a.length), before = {other_end - b.length, b.length};
    memcpy(other_end - b.length, b.bytes, b.length);
    let_write(page_end, false);
    let_write(other_end, false);
    uint64_t answer = velimhaw_no_looser(charter, before);
    let_write(page_end, true);
    let_write(other_end, true);
    assert(answer <= 1);
    return answer == 1;
}

/* Each of two charters compared with the other. */
static void compares(velimhaw_bytes a, velimhaw_bytes b, bool there, bool back) {
    assert(compared(a, b) == there && compared(b, a) == back);
}

/* W's charter, a stricter one and one without trees; one slice lent for both; W's charter cut short anywhere. */
static void test_charters_of_w(void) {
    static const uint8_t zero[] = {0};
    velimhaw_bytes no_tree = {zero, sizeof zero};
    compares(charter_of_w, charter_of_w, true, true);
    compares(strict_charter, charter_of_w, true, false);
    compares(no_tree, charter_of_w, true, false);
    compares(no_tree, no_tree, true, true);
    assert(velimhaw_no_looser(charter_of_w, charter_of_w) == 1);
    for (size_t length = 0; length < sizeof w_charter; length++) {
        velimhaw_bytes cut = {w_charter, length};
        compares(cut, charter_of_w, false, false);
        compares(cut, cut, false, false);
    }
}

/* Two charters, each with its length, and whether the first is no looser than the second, and the second than the first. */
static void test_compared_charters(void) {
    static const struct { bool there, back; uint8_t a_length, a[12], b_length, b[12]; } pairs[] = {
        {true, false, 5, {1, 0, 0, 0x00, 0}, 5, {1, 0, 0, 0x01, 0}},                                     /* read */
        {true, false, 5, {1, 0, 0, 0x00, 0}, 5, {1, 0, 0, 0x02, 0}},                                     /* write */
        {true, false, 5, {1, 0, 0, 0x00, 0}, 5, {1, 0, 0, 0x04, 0}},                                     /* access */
        {true, false, 5, {1, 0, 0, 0x08, 0}, 5, {1, 0, 0, 0x00, 0}},                                     /* nondisclose */
        {true, false, 5, {1, 0, 0, 0x00, 0}, 9, {1, 0, 0, 0x10, 1, 5, 1, 0, 0}},                         /* a group in its list */
        {true, false, 9, {1, 0, 0, 0x10, 1, 5, 1, 0, 0}, 12, {1, 0, 0, 0x10, 2, 4, 1, 0, 5, 1, 0, 0}},   /* another before it */
        {false, false, 9, {1, 0, 0, 0x10, 1, 5, 1, 0, 0}, 9, {1, 0, 0, 0x10, 1, 4, 1, 0, 0}},            /* another in its place */
        {true, false, 9, {1, 0, 0, 0x10, 1, 5, 1, 0, 0}, 9, {1, 0, 0, 0x10, 1, 5, 2, 0, 0}},             /* a count, 1 and 2 */
        {true, false, 9, {1, 0, 0, 0x10, 1, 5, 0xff, 0, 0}, 9, {1, 0, 0, 0x10, 1, 5, 0, 1, 0}},          /* 255 and 256 */
        {true, false, 9, {1, 0, 0, 0x10, 1, 5, 0xff, 0x0f, 0}, 9, {1, 0, 0, 0x10, 1, 5, 0xff, 0xff, 0}}, /* 4,095 and unlimited */
        {true, true, 5, {1, 0, 0, 0x00, 0}, 7, {1, 0, 0, 0x20, 0xff, 0xff, 0}},                          /* all purposes */
        {true, false, 7, {1, 0, 0, 0x20, 0xff, 0x7f, 0}, 5, {1, 0, 0, 0x00, 0}},                         /* purpose 15 */
        {true, false, 7, {1, 0, 0, 0x20, 0, 0, 0}, 7, {1, 0, 0, 0x20, 0, 1, 0}},                         /* purpose 8 */
        {true, true, 9, {2, 0, 0, 1, 0, 1, 0, 2, 0}, 9, {2, 1, 0, 2, 0, 0, 0, 1, 0}},                    /* trees exchanged */
        {true, false, 5, {1, 1, 0, 2, 0}, 9, {2, 0, 0, 1, 0, 1, 0, 2, 0}},                               /* a tree */
        {false, false, 5, {1, 0, 0, 0, 0}, 5, {1, 1, 0, 0, 0}},                                          /* another kind */
        {false, false, 5, {1, 0, 0, 0, 0}, 5, {1, 0, 1, 0, 0}},                                          /* another group */
        {false, false, 5, {1, 0, 0, 0, 0}, 8, {1, 0, 0, 0, 1, 1, 0, 0}},                                 /* a child */
        {false, false, 11, {1, 0, 0, 0, 2, 1, 0, 0, 2, 0, 0}, 11, {1, 0, 0, 0, 2, 2, 0, 0, 1, 0, 0}},    /* children exchanged */
        {false, false, 11, {1, 0, 0, 0, 2, 1, 0, 0, 2, 0, 0}, 11, {1, 0, 0, 0, 1, 1, 0, 1, 2, 0, 0}},    /* a child for a sister */
        {true, false, 11, {1, 0, 0, 0, 1, 1, 0, 1, 2, 0, 0}, 11, {1, 0, 0, 0, 1, 1, 0, 1, 2, 1, 0}},     /* read, two levels down */
    };
    for (size_t i = 0; i < sizeof pairs / sizeof pairs[0]; i++) {
        velimhaw_bytes a = {pairs[i].a, pairs[i].a_length}, b = {pairs[i].b, pairs[i].b_length};
        compares(a, b, pairs[i].there, pairs[i].back);
    }
}

/* Each pair of maps of four bits: as the low half of a permission map, in which nondisclose goes the other way, and at each quarter of a
 * map of purposes. */
static void test_maps_of_four_bits(void) {
    for (unsigned a = 0; a < 16; a++)
        for (unsigned b = 0; b < 16; b++) {
            const uint8_t of_a[] = {1, 0, 0, (uint8_t)a, 0}, of_b[] = {1, 0, 0, (uint8_t)b, 0};
            velimhaw_bytes left = {of_a, sizeof of_a}, right = {of_b, sizeof of_b};
            assert(compared(left, right) == ((a & ~b & 7) == 0 && (b & ~a & 8) == 0));
            for (int shift = 0; shift < 16; shift += 4) {
                const uint8_t for_a[] = {1, 0, 0, 0x20, (uint8_t)(a << shift), (uint8_t)(a << shift >> 8), 0};
                const uint8_t for_b[] = {1, 0, 0, 0x20, (uint8_t)(b << shift), (uint8_t)(b << shift >> 8), 0};
                velimhaw_bytes one = {for_a, sizeof for_a}, other = {for_b, sizeof for_b};
                assert(compared(one, other) == ((a & ~b) == 0));
            }
        }
}

/* Charters that fail a question of 11 to 15 are no looser than any, themselves too, and none is than they. */
static void test_charters_that_fail(void) {
    static const struct { uint8_t length, bytes[12]; } failing[] = {
        {0, {0}}, {2, {0, 0}}, {5, {1, 0, 0, 0x40, 0}}, {6, {1, 0, 0, 0x20, 0, 0}}, {9, {1, 0, 0, 0x10, 1, 5, 0, 0, 0}}, /* 11 */
        {9, {2, 0, 0, 0, 0, 0, 0, 0, 0}},                                                                                 /* 12 */
        {8, {1, 0, 0, 0, 1, 0, 0, 0}},                                                                                    /* 13 */
        {11, {1, 0, 0, 0, 2, 1, 0, 0, 1, 1, 0}},                                                                          /* 14 */
        {12, {1, 0, 0, 8, 1, 1, 0x10, 1, 5, 1, 0, 0}},                                                                    /* 15 */
    };
    for (size_t i = 0; i < sizeof failing / sizeof failing[0]; i++) {
        velimhaw_bytes charter = {failing[i].bytes, failing[i].length};
        compares(charter, charter, false, false);
        compares(charter, charter_of_w, false, false);
    }
}

/* Writes a charter of 4,096 or 4,097 bytes: a root and 20 children with a count for each of 64 groups, the last for fewer; in the shorter
 * one it has purposes too. */
static velimhaw_bytes write_long_charter(uint8_t *charter, size_t length, uint8_t count) {
    uint8_t *at = charter;
    *at++ = 1;
    *at++ = 0;
    for (uint8_t group = 0; group < 21; group++) {
        size_t left = length - (size_t)(at - charter);
        bool purposes = group == 20 && left % 3 == 0;
        uint8_t items = group < 20 ? 64 : (uint8_t)((left - 4) / 3);
        *at++ = group;
        *at++ = purposes ? 0x30 : 0x10;
        *at++ = items;
        for (uint8_t into = 0; into < items; into++) {
            *at++ = into;
            *at++ = count;
            *at++ = 0;
        }
        for (int i = 0; purposes && i < 2; i++)
            *at++ = 0x80;
        *at++ = group == 0 ? 20 : 0;
    }
    assert(at == charter + length);
    velimhaw_bytes written = {charter, length};
    return written;
}

/* The longest charters are compared to their last byte; a charter a byte longer is no looser than any, and none than it. */
static void test_longest_charters(void) {
    static uint8_t bytes[3][VELIMHAW_CHARTER_MAX + 1];
    static const uint8_t zero[] = {0};
    velimhaw_bytes no_tree = {zero, sizeof zero};
    velimhaw_bytes charter = write_long_charter(bytes[0], VELIMHAW_CHARTER_MAX, 1);
    velimhaw_bytes looser = write_long_charter(bytes[1], VELIMHAW_CHARTER_MAX, 1);
    velimhaw_bytes longer = write_long_charter(bytes[2], VELIMHAW_CHARTER_MAX + 1, 1);
    compares(charter, looser, true, true);
    bytes[1][VELIMHAW_CHARTER_MAX - 2] |= 1; /* purpose 8 at the last node */
    compares(charter, looser, true, false);
    compares(no_tree, charter, true, false);
    compares(no_tree, longer, false, false);
    compares(longer, longer, false, false);
    charter.length--;
    compares(charter, looser, false, false);
}

int main(void) {
    page_end = map_pages();
    other_end = map_pages();
    test_entries_of_w();
    test_slack_of_w();
    test_records_of_w();
    test_truncated();
    test_malformed_entries();
    test_malformed_slack();
    test_lists();
    test_sums();
    test_malformed_records();
    test_refused_record();
    test_questions();
    test_refused_calls();
    test_shared_inputs();
    test_accepted_calls();
    test_shared_count();
    test_purposes();
    test_accepted_slack();
    test_slack_of_a_class();
    test_sentence_of_w();
    test_no_sentence();
    test_broken_names();
    test_longest_sentence();
    test_moved_sheets();
    test_sheets_that_are_not_moved();
    test_longest_moved_sheets();
    test_charters_of_w();
    test_compared_charters();
    test_maps_of_four_bits();
    test_charters_that_fail();
    test_longest_charters();
    printf("test: all passed\n");
    return 0;
}
