/* Velimhaw's seven services for C and C++: check a sheet against a charter, tell how much the charter leaves over, explain a refusal with
 * 18, play a script on an accepted sheet, move an old sheet over to the form with purposes and a sheet back to the old form, and say
 * whether a charter is no looser than another; and what takes the bytes they write apart. Link target/staticlib/libvelimhaw.a
 * (x86-64 Linux), a copy of crates/velimhaw_c/out/libvelimhaw_c.a, which `rt lib` in crates/velimhaw_c writes.
 *
 * An answer is one number; that of velimhaw_no_looser is 1 for yes and 0 for no. Of all others: below VELIMHAW_ACCEPTED it is the number
 * of the first question that fails (docs/REFERENCE.md, question N; velimhaw_question gives its line), and the output, line or log keeps
 * its bytes. From VELIMHAW_ACCEPTED on the call was accepted: the answer less VELIMHAW_ACCEPTED is the number of moves (play) or the length
 * written (all others), and the bytes past what was written keep theirs.
 *
 * Memory lent to a call:
 * - Any bytes may be lent, of any length that memory can have; every call ends without a fault.
 * - The output, line or log may not overlap any input. The inputs may overlap each other, or be the same.
 * - No other thread may write what is lent before the call returns.
 * - An empty slice may have any pointer but NULL; nothing is read or written through it. */
#ifndef VELIMHAW_H
#define VELIMHAW_H

#include <stdbool.h>
#include <stddef.h>
#include <stdint.h>

#ifdef __cplusplus
extern "C" {
#endif

#define VELIMHAW_ACCEPTED 64u

/* Lengths in bytes. Longer inputs are refused, and an output, line or log of its length is always long enough. */
#define VELIMHAW_SHEET_MAX 4096u
#define VELIMHAW_CHARTER_MAX 4096u
#define VELIMHAW_SCRIPT_MAX 7168u     /* 1,024 moves of seven bytes, the longest */
#define VELIMHAW_NAMES_FILE_MAX 1680u /* 80 names of 20 letters, each with the byte that ends it */
#define VELIMHAW_INTERFACE_MAX 18944u /* with so much output check never refuses with 19 */
#define VELIMHAW_SLACK_MAX 27136u     /* with so much output slack never refuses with 19 */
#define VELIMHAW_SENTENCE_MAX 230u    /* with so long a line explain never refuses with 19 */
#define VELIMHAW_MOVED_MAX 4096u      /* with so much output neither upgrade nor downgrade refuses with 19 */
#define VELIMHAW_RECORD_LENGTH 8u
#define VELIMHAW_LOG_MAX 8192u        /* with so much log play never refuses with 22 */

/* Limits of the formats. Kinds, groups, purposes, components and names are numbered from 0. */
#define VELIMHAW_MOVES_MAX 1024u
#define VELIMHAW_KINDS 16u
#define VELIMHAW_GROUPS 64u
#define VELIMHAW_PURPOSES 16u
#define VELIMHAW_PATH_MAX 8u
#define VELIMHAW_COMPONENTS_MAX 32u
#define VELIMHAW_NAMES_MAX 1024u
#define VELIMHAW_COUNT_MAX 4095u
#define VELIMHAW_NEEDED_MAX 4096u
#define VELIMHAW_GRANTED_MAX 32760u /* a count for each group of a path */

/* Values that are no number of their field. */
#define VELIMHAW_UNLIMITED 65535u   /* a count or a sum */
#define VELIMHAW_NO_NAME 65535u     /* a channel or name that a record does not have */
#define VELIMHAW_NO_COMPONENT 255u  /* a component that a record does not have */

typedef struct {
    const uint8_t *bytes;
    size_t length;
} velimhaw_bytes;

typedef struct {
    uint8_t *bytes;
    size_t length;
} velimhaw_lent;

/* Checks a sheet against a charter, and writes the interface, the permissions that the sheet needs, into the output. */
uint64_t velimhaw_check(velimhaw_bytes sheet, velimhaw_bytes charter, velimhaw_lent output);

/* Checks a sheet against a charter as check does, and writes the slack form, what the sheet needs beside what the charter grants, into
 * the output. */
uint64_t velimhaw_slack(velimhaw_bytes sheet, velimhaw_bytes charter, velimhaw_lent output);

/* Says in words why a sheet is refused with 18, and writes that sentence into the line: the first permission that the charter does not
 * cover, entries in order, and within one read, write, access, then disclose by rising group. As in
 *
 *     Society/Indexers may not disclose to Society: Entries
 *
 * it is the names of the component's path, the permission (a disclosure with the name of the group it goes into), and the name of the
 * kind; ASCII, with neither a newline nor a zero byte at its end.
 *
 * Names are the bytes of a names file: the names of the 64 groups, then of the 16 kinds, each of 1 to 20 letters A-Z or a-z and ended by
 * the byte 0A, no two alike among the groups, no two alike among the kinds, and nothing after.
 *
 * The answer is
 * - 1 to 17, as check's, where another question fails first;
 * - VELIMHAW_ACCEPTED where questions 1 to 18 pass: there is nothing to explain, and nothing is written;
 * - 40 where question 18 fails and the names break their rules, which are asked of no other sheet;
 * - 19 where question 18 fails and the line is shorter than the sentence;
 * - VELIMHAW_ACCEPTED + n where question 18 fails and the sentence was written; it has n bytes, 1 to VELIMHAW_SENTENCE_MAX.
 * It is never 18. Below VELIMHAW_ACCEPTED the line keeps its bytes; else those past the sentence do. */
uint64_t velimhaw_explain(velimhaw_bytes sheet, velimhaw_bytes charter, velimhaw_bytes names, velimhaw_lent line);

/* Plays a script on a sheet that its charter accepts, and writes a record of eight bytes for each move into the log. */
uint64_t velimhaw_play(velimhaw_bytes sheet, velimhaw_bytes charter, velimhaw_bytes script, velimhaw_lent log);

/* Moves an old sheet, which has no purposes, over to the form that all other services read: writes it with purpose 0 at each component
 * into the output. Nothing in a sheet says of which form it is: lend this call old sheets only.
 *
 * The answer is
 * - 1 to 6, asked of the old form, where a component's process follows its group;
 * - 1 too where the old form passes those and the new one, a byte longer for each component, would have more than VELIMHAW_SHEET_MAX bytes;
 * - 19 where the output is shorter than the new form;
 * - VELIMHAW_ACCEPTED + n where the new form was written; it has n bytes.
 * Names and types are not asked (7 to 10), and there is no charter. Under a charter without purposes check accepts the new form, or
 * refuses it by the number, as it did the old one before there were purposes, the output being long enough. velimhaw_downgrade gives the
 * old form back, byte for byte. */
uint64_t velimhaw_upgrade(velimhaw_bytes sheet, velimhaw_lent output);

/* Moves a sheet back to the old form: writes it without its purposes, which must all be 0, into the output.
 *
 * The answer is
 * - 1 to 6, as check's, but that 1 is asked of the sheet alone;
 * - 41 where the sheet passes those and some component has another purpose than 0;
 * - 19 where the output is shorter than the old form;
 * - VELIMHAW_ACCEPTED + n where the old form was written; it has n bytes.
 * velimhaw_upgrade gives the sheet back, byte for byte. */
uint64_t velimhaw_downgrade(velimhaw_bytes sheet, velimhaw_lent output);

/* Says whether a charter is no looser than the one before it, which it shall replace: whatever sheet it accepts, that one accepts.
 *
 * The answer is 1 if
 * - both have at most VELIMHAW_CHARTER_MAX bytes and pass 11 to 15;
 * - each tree of the charter has one for its kind before, with the same groups and children in the same order;
 * - and at each node read, write and access stood before where they stand now, each count is at most what it was before (a group that is
 *   not listed has 0, and unlimited stands above every number), each purpose was one before (without a map all are), and nondisclose
 *   stands where it stood before;
 * and else 0, which a charter that does not pass gets even with itself. Trees may stand in another order, and before there may have been
 * more of them. 0 does not say that some sheet newly passes: it is the answer, too, where no more than a child is missing. Nothing is
 * written. */
uint64_t velimhaw_no_looser(velimhaw_bytes charter, velimhaw_bytes before);

/* ---- The interface: an entry for each component and kind with a permission, by component, then rising kind. ----
 *
 * Bytes of an entry: kind; length of the path; path; purpose; permission map (bit 0 read, 1 write, 2 access, 4 disclose); and only if
 * bit 4 stands, how many groups, then for each a group and a count of two bytes, low byte first, groups strictly rising. */

/* Links that are disclosed into a group: 1 to VELIMHAW_COUNT_MAX of them, or VELIMHAW_UNLIMITED. */
typedef struct {
    uint8_t group;
    uint16_t count;
} velimhaw_disclosure;

typedef struct {
    uint8_t kind;
    uint8_t path_length; /* 1 to VELIMHAW_PATH_MAX */
    uint8_t path[VELIMHAW_PATH_MAX];
    uint8_t purpose; /* below VELIMHAW_PURPOSES; 0 is ordinary work */
    bool read;
    bool write;
    bool access;
    uint8_t disclose_length; /* 0 to VELIMHAW_GROUPS */
    velimhaw_disclosure disclose[VELIMHAW_GROUPS];
} velimhaw_entry;

/* Takes the first byte off, if there is one and it is from least to most. */
static inline bool velimhaw_take_byte(velimhaw_bytes *rest, unsigned least, unsigned most, uint8_t *byte) {
    if (rest->length == 0 || rest->bytes[0] < least || rest->bytes[0] > most)
        return false;
    *byte = rest->bytes[0];
    rest->bytes++;
    rest->length--;
    return true;
}

/* Takes a number of two bytes off, low byte first. */
static inline bool velimhaw_take_word(velimhaw_bytes *rest, uint16_t *word) {
    uint8_t low, high;
    if (!velimhaw_take_byte(rest, 0, 255, &low) || !velimhaw_take_byte(rest, 0, 255, &high))
        return false;
    *word = (uint16_t)(low | high << 8);
    return true;
}

/* Takes a count or a sum off, if it is from least to most or unlimited. */
static inline bool velimhaw_take_count(velimhaw_bytes *rest, unsigned least, unsigned most, uint16_t *count) {
    return velimhaw_take_word(rest, count) && ((*count >= least && *count <= most) || *count == VELIMHAW_UNLIMITED);
}

static inline bool velimhaw_take_path(velimhaw_bytes *rest, uint8_t *path, uint8_t *length) {
    if (!velimhaw_take_byte(rest, 1, VELIMHAW_PATH_MAX, length))
        return false;
    for (unsigned i = 0; i < *length; i++)
        if (!velimhaw_take_byte(rest, 0, VELIMHAW_GROUPS - 1, &path[i]))
            return false;
    return true;
}

/* Takes a permission map off, of whose bits at least one of 0, 1, 2 and 4 stands, and no other; and, if bit 4 stands, how many groups its
 * list has. */
static inline bool velimhaw_take_map(velimhaw_bytes *rest, uint8_t *map, uint8_t *list_length) {
    *list_length = 0;
    if (!velimhaw_take_byte(rest, 1, 0x17, map) || (*map & 0x08) != 0)
        return false;
    return (*map & 0x10) == 0 || velimhaw_take_byte(rest, 1, VELIMHAW_GROUPS, list_length);
}

/* Takes the groups of an interface's list off, each with its count. */
static inline bool velimhaw_take_disclosures(velimhaw_bytes *rest, velimhaw_disclosure *list, unsigned length) {
    unsigned least = 0;
    for (unsigned i = 0; i < length; i++) {
        if (!velimhaw_take_byte(rest, least, VELIMHAW_GROUPS - 1, &list[i].group) ||
            !velimhaw_take_count(rest, 1, VELIMHAW_COUNT_MAX, &list[i].count))
            return false;
        least = list[i].group + 1u;
    }
    return true;
}

/* Takes the next entry off the bytes of an interface. False if none is left, or if the bytes do not begin with a whole entry, each
 * field in its range; the bytes then stay as they were (a length of 0 tells the end), and what the entry holds means nothing. */
static inline bool velimhaw_next_entry(velimhaw_bytes *interface_bytes, velimhaw_entry *entry) {
    velimhaw_bytes rest = *interface_bytes;
    uint8_t map;
    if (!velimhaw_take_byte(&rest, 0, VELIMHAW_KINDS - 1, &entry->kind) ||
        !velimhaw_take_path(&rest, entry->path, &entry->path_length) ||
        !velimhaw_take_byte(&rest, 0, VELIMHAW_PURPOSES - 1, &entry->purpose) ||
        !velimhaw_take_map(&rest, &map, &entry->disclose_length) ||
        !velimhaw_take_disclosures(&rest, entry->disclose, entry->disclose_length))
        return false;
    entry->read = (map & 0x01) != 0;
    entry->write = (map & 0x02) != 0;
    entry->access = (map & 0x04) != 0;
    *interface_bytes = rest;
    return true;
}

/* ---- The slack form: the entries of the interface, with what the charter grants beside what is needed. ----
 *
 * Bytes of an entry: as in the interface, but that each group of the list has two sums of two bytes, low byte first: the needed one, then
 * the granted one. */

/* Links that are disclosed into a group, and those that may be. VELIMHAW_UNLIMITED may stand for either; granted is at least needed. */
typedef struct {
    uint8_t group;
    uint16_t needed;  /* by all components with the same groups and purpose: 1 to VELIMHAW_NEEDED_MAX */
    uint16_t granted; /* to the groups of that path together for that purpose: 1 to VELIMHAW_GRANTED_MAX */
} velimhaw_sums;

typedef struct {
    uint8_t kind;
    uint8_t path_length; /* 1 to VELIMHAW_PATH_MAX */
    uint8_t path[VELIMHAW_PATH_MAX];
    uint8_t purpose; /* below VELIMHAW_PURPOSES; 0 is ordinary work */
    bool read;
    bool write;
    bool access;
    uint8_t disclose_length; /* 0 to VELIMHAW_GROUPS */
    velimhaw_sums disclose[VELIMHAW_GROUPS];
} velimhaw_slack_entry;

/* How much less the charter could grant: granted less needed, VELIMHAW_UNLIMITED where granted is unlimited. */
static inline uint16_t velimhaw_left_over(const velimhaw_sums *sums) {
    return sums->granted == VELIMHAW_UNLIMITED ? sums->granted : (uint16_t)(sums->granted - sums->needed);
}

/* Takes the groups of a slack form's list off, each with its sums. */
static inline bool velimhaw_take_sums(velimhaw_bytes *rest, velimhaw_sums *list, unsigned length) {
    unsigned least = 0;
    for (unsigned i = 0; i < length; i++) {
        if (!velimhaw_take_byte(rest, least, VELIMHAW_GROUPS - 1, &list[i].group) ||
            !velimhaw_take_count(rest, 1, VELIMHAW_NEEDED_MAX, &list[i].needed) ||
            !velimhaw_take_count(rest, list[i].needed, VELIMHAW_GRANTED_MAX, &list[i].granted))
            return false;
        least = list[i].group + 1u;
    }
    return true;
}

/* Takes the next entry off the bytes of a slack form, as velimhaw_next_entry does off those of an interface. */
static inline bool velimhaw_next_slack(velimhaw_bytes *slack_bytes, velimhaw_slack_entry *entry) {
    velimhaw_bytes rest = *slack_bytes;
    uint8_t map;
    if (!velimhaw_take_byte(&rest, 0, VELIMHAW_KINDS - 1, &entry->kind) ||
        !velimhaw_take_path(&rest, entry->path, &entry->path_length) ||
        !velimhaw_take_byte(&rest, 0, VELIMHAW_PURPOSES - 1, &entry->purpose) ||
        !velimhaw_take_map(&rest, &map, &entry->disclose_length) ||
        !velimhaw_take_sums(&rest, entry->disclose, entry->disclose_length))
        return false;
    entry->read = (map & 0x01) != 0;
    entry->write = (map & 0x02) != 0;
    entry->access = (map & 0x04) != 0;
    *slack_bytes = rest;
    return true;
}

/* ---- The log: a record of eight bytes for each move of the script, in order. ----
 *
 * Bytes of a record: 0; label; channel and name, two bytes each, low byte first; component that acts; component that receives. Fields
 * that the label does not have are all ones. Of a refused move: the number of the first question that fails, 30 to 35; seven zeros. */

/* What a move did, and the fields of its record. */
enum velimhaw_label {
    VELIMHAW_COMMUNICATION = 1,    /* channel, name, component (it sends), receiver */
    VELIMHAW_INPUT = 2,            /* from the environment: channel, name, component */
    VELIMHAW_OUTPUT = 3,           /* to the environment, of a name known to it: channel, name, component */
    VELIMHAW_EXTRUSION = 4,        /* to the environment, of a name not known to it before: channel, name, component */
    VELIMHAW_ENVIRONMENT_NAME = 5, /* a name made by the environment: name */
    VELIMHAW_UNFOLDING = 6         /* of a replication: component */
};

typedef struct {
    uint8_t refused;   /* 0 if the move was taken; else the question's number, and the fields below are 0 */
    uint8_t label;     /* an enum velimhaw_label */
    uint16_t channel;  /* or VELIMHAW_NO_NAME */
    uint16_t name;     /* or VELIMHAW_NO_NAME */
    uint8_t component; /* or VELIMHAW_NO_COMPONENT */
    uint8_t receiver;  /* or VELIMHAW_NO_COMPONENT */
} velimhaw_record;

/* A name below 1,024 if there is to be one, all ones if not. */
static inline bool velimhaw_name_fits(uint16_t name, bool present) {
    return present ? name < VELIMHAW_NAMES_MAX : name == VELIMHAW_NO_NAME;
}

/* A component below 32 if there is to be one, all ones if not. */
static inline bool velimhaw_component_fits(uint8_t component, bool present) {
    return present ? component < VELIMHAW_COMPONENTS_MAX : component == VELIMHAW_NO_COMPONENT;
}

/* Whether a record has the fields of its label, or is that of a refused move. */
static inline bool velimhaw_record_fits(const velimhaw_record *r) {
    if (r->refused != 0)
        return r->refused >= 30 && r->refused <= 35 && r->label == 0 && r->channel == 0 && r->name == 0 && r->component == 0 &&
               r->receiver == 0;
    return r->label >= VELIMHAW_COMMUNICATION && r->label <= VELIMHAW_UNFOLDING &&
           velimhaw_name_fits(r->channel, r->label <= VELIMHAW_EXTRUSION) &&
           velimhaw_name_fits(r->name, r->label != VELIMHAW_UNFOLDING) &&
           velimhaw_component_fits(r->component, r->label != VELIMHAW_ENVIRONMENT_NAME) &&
           velimhaw_component_fits(r->receiver, r->label == VELIMHAW_COMMUNICATION);
}

/* Takes eight bytes off as a record. */
static inline bool velimhaw_take_record(velimhaw_bytes *rest, velimhaw_record *r) {
    return velimhaw_take_byte(rest, 0, 255, &r->refused) && velimhaw_take_byte(rest, 0, 255, &r->label) &&
           velimhaw_take_word(rest, &r->channel) && velimhaw_take_word(rest, &r->name) &&
           velimhaw_take_byte(rest, 0, 255, &r->component) && velimhaw_take_byte(rest, 0, 255, &r->receiver);
}

/* Takes the next record off the bytes of a log. False if none is left, or if the bytes do not begin with a record; the bytes then stay
 * as they were (a length of 0 tells the end), and what the record holds means nothing. */
static inline bool velimhaw_next_record(velimhaw_bytes *log_bytes, velimhaw_record *record) {
    velimhaw_bytes rest = *log_bytes;
    if (!velimhaw_take_record(&rest, record) || !velimhaw_record_fits(record))
        return false;
    *log_bytes = rest;
    return true;
}

/* ---- The questions ---- */

/* What a question asks for, in one line: 1 to 22, 40 and 41 of a call, 30 to 35 of a move (docs/REFERENCE.md, question N). NULL for
 * every other number. */
static inline const char *velimhaw_question(uint64_t number) {
    switch (number) {
    case 1: return "sheet, charter and moved sheet of at most 4,096 bytes each";
    case 2: return "a byte wherever the sheet needs one";
    case 3: return "no byte left over after the sheet";
    case 4: return "each code, group, purpose, kind and count of the sheet in its range";
    case 5: return "at most 64 nested forms, 64 names in scope, 8 groups in a path and 32 components";
    case 6: return "each group new to its path";
    case 7: return "each used name in scope";
    case 8: return "each name used as a channel of a channel type";
    case 9: return "each channel carrying the type of the name sent or bound";
    case 10: return "each used channel's outermost group in the component's path";
    case 11: return "a charter that reads, in its ranges, to its end";
    case 12: return "no two trees of the charter for one kind";
    case 13: return "no node of the charter below a node of its group";
    case 14: return "the same permissions and purposes at all nodes of one group in a tree of the charter";
    case 15: return "below a node with nondisclose, disclosure only to groups of that node or of nodes below it";
    case 16: return "a tree of the charter for each entry's kind";
    case 17: return "each group of each entry's path at a node that the path reaches";
    case 18: return "each entry covered by its path's grant for its purpose, counts added over components with the same groups and purpose";
    case 19: return "an output long enough for the interface, the slack or the moved sheet, or a line for the sentence";
    case 20: return "a start of at most 64 threads and 1,024 names";
    case 21: return "a script of at most 1,024 whole moves, each field in its range";
    case 22: return "a log of at least 8 bytes a move";
    case 30: return "a thread at each number that the move gives";
    case 31: return "threads of the form that the move needs";
    case 32: return "the channel, and a name received, known to the environment";
    case 33: return "the name received of the type of the bound name";
    case 34: return "sender and receiver on the same channel";
    case 35: return "at most 64 threads and 1,024 names after the move";
    case 40: return "a name of 1 to 20 letters, ended by 0A, for each of 64 groups and 16 kinds, no two alike in a list, and nothing after";
    case 41: return "purpose 0 at each component of a sheet that goes back to the old form";
    default: return NULL;
    }
}

#ifdef __cplusplus
}
#endif

#endif
