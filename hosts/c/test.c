// Calls every function of vaskelbi.h, accepted and refused. All that a call can reach stands in one struct with canary words
// between; after each call the whole struct is held to what it must be. Each call is written with its answer.
#include "vaskelbi.h"
#include <inttypes.h>
#include <stdarg.h>
#include <stdio.h>
#include <stdlib.h>
#include <string.h>

enum { GUARD = 64, TEXT = 32768 };
static const uint64_t CANARY = 0xC0FFEE11DEADBEEF;
static const uint64_t LAST = UINT64_MAX;

static struct {
    uint64_t before[GUARD];
    vaskelbi_registry registry;
    uint64_t between[GUARD];
    vaskelbi_answer out;
    uint64_t behind[GUARD];
    uint64_t buffer[VASKELBI_ROOM];
    uint64_t further[GUARD];
    vaskelbi_slot slot;
    uint64_t beyond[GUARD];
    uint8_t text[TEXT];
    uint64_t after[GUARD];
} all, was;

static vaskelbi_registry *const m = &all.registry;
static vaskelbi_answer *const out = &all.out;
static uint64_t *const buffer = all.buffer;
static vaskelbi_slot *const slot = &all.slot;
static uint8_t *const text = all.text;

static unsigned calls;

static void expect(int holds, const char *what, const char *call) {
    if (!holds) {
        printf("FAILED: %s\n        %s\n", call, what);
        exit(1);
    }
}

static void fill(void *words, size_t size) {
    for (size_t i = 0; i < size; i += sizeof CANARY) memcpy((char *)words + i, &CANARY, sizeof CANARY);
}

// Answer, buffer and text hold canaries before a call, so that all it writes is seen.
static void before(void) {
    fill(out, sizeof *out);
    fill(buffer, sizeof all.buffer);
    fill(text, sizeof all.text);
    was = all;
}

// A number for the registry's words, so that two runs can be held to each other.
static uint64_t sum(void) {
    uint64_t h = 14695981039346656037u;
    for (int i = 0; i < VASKELBI_WORDS; i++) h = (h ^ m->word[i]) * 1099511628211u;
    return h;
}

enum { NOTHING, REGISTRY }; // what an acceptance changes besides `out`

// Holds everything to what it was, but for the numbers answered and, where that must change, the registry.
static void hold(const char *call, uint64_t status, uint64_t expected, int changes, const uint64_t *numbers, size_t count) {
    printf("%s: %" PRIu64, call, status);
    for (size_t i = 0; i < count; i++) printf(i ? " %" PRIu64 : " with %" PRIu64, out->number[i]);
    printf(", words %016" PRIx64 "\n", sum());
    calls++;
    expect(status == expected, "another status", call);
    if (changes == REGISTRY) {
        expect(memcmp(m, &was.registry, sizeof *m) != 0, "the registry did not change", call);
        was.registry = *m;
    }
    if (numbers) {
        was.out.count = count;
        memcpy(was.out.number, numbers, count * sizeof *numbers);
    }
    expect(!memcmp(&all, &was, sizeof all), "it left other words than it must", call);
}

static void hold_listed(const char *call, uint64_t status, size_t place, const uint64_t *numbers, size_t count) {
    const uint64_t pairs = count / 2;
    memcpy(was.buffer + place, numbers, count * sizeof *numbers);
    hold(call, status, 0, NOTHING, &pairs, 1);
}

static void hold_planned(const char *call, uint64_t status, size_t place, const uint64_t *ids, size_t count) {
    const uint64_t planned = count;
    memcpy(was.buffer + place, ids, count * sizeof *ids);
    hold(call, status, 0, NOTHING, &planned, 1);
}

static void hold_written(const char *call, uint64_t status, size_t place, const char *lines) {
    const uint64_t length = strlen(lines);
    memcpy(was.text + place, lines, length);
    hold(call, status, 0, NOTHING, &length, 1);
}

static const uint64_t none[1];
#define NONE none, 0
#define IS(...) ((uint64_t[]){__VA_ARGS__}), sizeof((uint64_t[]){__VA_ARGS__}) / sizeof(uint64_t)
#define CALL(call, ...) do { before(); uint64_t s_ = (call); hold(#call, s_, __VA_ARGS__); } while (0)
// Accepted: the registry changes; it changes and numbers are answered; numbers are answered; nothing changes.
#define DONE(call) CALL(call, 0, REGISTRY, NULL, 0)
#define TOLD(call, ...) CALL(call, 0, REGISTRY, __VA_ARGS__)
#define ASKED(call, ...) CALL(call, 0, NOTHING, __VA_ARGS__)
#define KEPT(call) CALL(call, 0, NOTHING, NULL, 0)
// Refused with a number, and where that is answered with the payload.
#define REFUSED(call, number) CALL(call, number, NOTHING, NULL, 0)
#define HANDED_BACK(call, number, ...) CALL(call, number, NOTHING, __VA_ARGS__)
// The number itself is returned.
#define NUMBER(call, number) CALL(call, number, NOTHING, NULL, 0)
// Pairs are listed from a place in the buffer.
#define LISTED(call, place, ...) do { before(); uint64_t s_ = (call); hold_listed(#call, s_, place, __VA_ARGS__); } while (0)
// Ids are planned from a place in the buffer.
#define PLANNED(call, place, ...) do { before(); uint64_t s_ = (call); hold_planned(#call, s_, place, __VA_ARGS__); } while (0)
// Lines are written from a place in the text.
#define WRITTEN(call, place, lines) do { before(); uint64_t s_ = (call); hold_written(#call, s_, place, lines); } while (0)
// The slot afterwards.
#define SLOT(call, ...) do { \
        before(); uint64_t s_ = (call); was.slot = (vaskelbi_slot){__VA_ARGS__}; hold(#call, s_, 0, NOTHING, NULL, 0); \
    } while (0)
// No status is returned.
#define OPENED(call) CALL((call, 0), 0, REGISTRY, NULL, 0)
#define MADE(call, ...) SLOT((call, 0), __VA_ARGS__)

// Any numbers as a realm list, with their count.
#define REALMS(...) (const vaskelbi_realms *)IS(__VA_ARGS__)
// A set or an order, with its count.
#define IDS(...) IS(__VA_ARGS__)

// Realm lists without rows, 2 numbers, and with E1's rows, 6 numbers, in both editions.
static const vaskelbi_realms plain = {.edition = VASKELBI_FIRST_EDITION};
static const vaskelbi_realms E1 = {VASKELBI_FIRST_EDITION, 0, {{2, 5}, {9, 1}}};
static const vaskelbi_realms in_8 = {VASKELBI_SECOND_EDITION, 8, {{2, 5}, {9, 1}}};
static const uint64_t many[17] = {1, 2, 3, 4, 5, 6, 7, 8, 9, 10, 11, 12, 13, 14, 15, 16, 17};

// A plugin with an anchor of its own and nothing else; accepted.
static uint64_t bare(uint64_t n) {
    expect(vaskelbi_register(m, 1000 + n, 77, n, &plain, 2, none, 0, none, 0, out) == 0, "refused", "bare");
    return out->number[0];
}

static char lines[TEXT];
static size_t length;

static void put(const char *format, ...) {
    va_list values;
    va_start(values, format);
    length += (size_t)vsnprintf(lines + length, sizeof lines - length, format, values);
    va_end(values);
}

// The number that an accepted question answers, and in words where it may be none.
static uint64_t of(uint64_t status, const vaskelbi_answer *answer) {
    expect(status == 0 && answer->count > 0, "no number", "of");
    return answer->number[0];
}

static void put_or_none(uint64_t status, const vaskelbi_answer *answer) {
    expect(status == 0, "refused", "put_or_none");
    if (answer->count) put("%" PRIu64 "\n", answer->number[0]);
    else put("none\n");
}

static void put_pairs(const char *name, const uint64_t *pairs, uint64_t count) {
    put("%ss=%" PRIu64 "\n", name, count);
    for (uint64_t i = 0; i < count; i++) put("%s=%" PRIu64 ",%" PRIu64 "\n", name, pairs[2 * i], pairs[2 * i + 1]);
}

static void put_plugin(uint64_t id) {
    uint64_t pairs[VASKELBI_ROOM], count;
    vaskelbi_answer a;
    put("id=%" PRIu64 "\nparent=", id);
    put_or_none(vaskelbi_parent(m, id, &a), &a);
    put("phase=%" PRIu64 "\n", of(vaskelbi_phase(m, id, &a), &a));
    put("retired=%" PRIu64 "\n", of(vaskelbi_retired(m, id, &a), &a));
    put("generation=%" PRIu64 "\n", of(vaskelbi_generation(m, id, &a), &a));
    put("revision=%" PRIu64 "\n", of(vaskelbi_revision(m, id, &a), &a));
    put("payload=%" PRIu64 "\n", of(vaskelbi_payload(m, id, &a), &a));
    put("root=%" PRIu64 "\n", of(vaskelbi_root(m, id, &a), &a));
    if (a.root.state == VASKELBI_QUEUED) put("queued=%" PRIu64 ",%" PRIu64 "\n", a.root.revision, a.root.argument);
    else put("queued=none\n");
    of(vaskelbi_anchor(m, id, &a), &a);
    put("anchor=%" PRIu64 ",%" PRIu64 "\n", a.port.key, a.port.realm);
    of(vaskelbi_edition(m, id, &a), &a);
    put("edition=%" PRIu64 "\ndefault=%" PRIu64 "\n", a.rule.edition, a.rule.default_realm);
    count = of(vaskelbi_list_realms(m, id, 0, pairs, VASKELBI_ROOM, &a), &a);
    put_pairs("realm", pairs, count);
    count = of(vaskelbi_list_dependencies(m, id, 0, pairs, VASKELBI_ROOM, &a), &a);
    put_pairs("dep", pairs, count);
    count = of(vaskelbi_list_provisions(m, id, 0, pairs, VASKELBI_ROOM, &a), &a);
    put("provs=%" PRIu64 "\n", count);
    for (uint64_t i = 0; i < count; i++) {
        put("prov=%" PRIu64 ",%" PRIu64 ",", pairs[2 * i], pairs[2 * i + 1]);
        put_or_none(vaskelbi_own(m, id, pairs[2 * i], pairs[2 * i + 1], &a), &a);
    }
}

// The registry as text must be what the other functions answer: into just enough room, into more from an odd place, and not
// into a byte less.
static void writing(void) {
    vaskelbi_answer a;
    length = 0;
    put("domain=%" PRIu64 "\nfirst=%" PRIu64 "\nnext=%" PRIu64 "\n", vaskelbi_domain(m), vaskelbi_first(m), vaskelbi_next(m));
    put("plugins=%" PRIu64 "\n", vaskelbi_count(m));
    for (uint64_t from = 0; vaskelbi_id_from(m, from, &a) == 0 && a.count; from = a.number[0] + 1) put_plugin(a.number[0]);
    expect(length < sizeof lines - 3, "too long a text", "writing");
    WRITTEN(vaskelbi_write_text(m, text, length, out), 0, lines);
    WRITTEN(vaskelbi_write_text(m, text + 3, TEXT - 3, out), 3, lines);
    REFUSED(vaskelbi_write_text(m, text, length - 1, out), 23);
    REFUSED(vaskelbi_write_text(m, text + 1, length - 1, out), 23);
    REFUSED(vaskelbi_write_text(m, text, 0, out), 23);
}

static void opening(void) {
    OPENED(vaskelbi_open(m, 7, 40));
    NUMBER(vaskelbi_domain(m), 7);
    NUMBER(vaskelbi_first(m), 40);
    NUMBER(vaskelbi_next(m), 40);
    NUMBER(vaskelbi_count(m), 0);
    NUMBER(vaskelbi_rows(m), 0);
    ASKED(vaskelbi_id_from(m, 0, out), NONE);
    writing();
}

static void resolving(void) { // E1, E8
    uint64_t numbers[36] = {VASKELBI_FIRST_EDITION, 0}; // of 17 rows
    const vaskelbi_realms *const rows = (const vaskelbi_realms *)numbers;
    for (uint64_t i = 0; i < 17; i++) numbers[2 + 2 * i] = i, numbers[3 + 2 * i] = i + 100;
    ASKED(vaskelbi_resolve(&E1, VASKELBI_REALM_NUMBERS(2), 2, out), IS(2, 5));
    ASKED(vaskelbi_resolve(&E1, 6, 3, out), IS(3, 0));
    ASKED(vaskelbi_resolve(&E1, 4, 9, out), IS(9, 0)); // one row of the two
    ASKED(vaskelbi_resolve(&plain, VASKELBI_REALM_NUMBERS(0), 3, out), IS(3, 0));
    ASKED(vaskelbi_resolve(rows, 34, 15, out), IS(15, 115));
    REFUSED(vaskelbi_resolve(rows, 36, 15, out), 4);
    REFUSED(vaskelbi_resolve(&E1, 5, 2, out), 4);
    REFUSED(vaskelbi_resolve(&E1, 3, 2, out), 4);
    REFUSED(vaskelbi_resolve(REALMS(1, 0, 2, 5, 2, 1), 2, out), 4);
    REFUSED(vaskelbi_resolve(REALMS(1, 0, 9, 1, 2, 5), 2, out), 4);

    // Edition 2 has a default realm, and edition 1 ignores one.
    ASKED(vaskelbi_resolve(&in_8, 6, 2, out), IS(2, 5));
    ASKED(vaskelbi_resolve(&in_8, 6, 9, out), IS(9, 1));
    ASKED(vaskelbi_resolve(&in_8, 6, 3, out), IS(3, 8));
    ASKED(vaskelbi_resolve(&in_8, 2, 9, out), IS(9, 8));
    ASKED(vaskelbi_resolve(REALMS(2, 0, 2, 5), 3, out), IS(3, 0));
    ASKED(vaskelbi_resolve(REALMS(2, LAST), LAST, out), IS(LAST, LAST));
    ASKED(vaskelbi_resolve(REALMS(1, 8, 2, 5), 3, out), IS(3, 0));
    ASKED(vaskelbi_resolve(REALMS(1, 8, 2, 5), 2, out), IS(2, 5));
    REFUSED(vaskelbi_resolve(REALMS(2, 8, 9, 1, 2, 5), 2, out), 4);
    REFUSED(vaskelbi_resolve(&in_8, 5, 2, out), 4);
    numbers[0] = VASKELBI_SECOND_EDITION;
    numbers[1] = 8;
    ASKED(vaskelbi_resolve(rows, 34, 16, out), IS(16, 8));
    REFUSED(vaskelbi_resolve(rows, 36, 16, out), 4);

    // 26 comes before 4.
    numbers[0] = 3;
    REFUSED(vaskelbi_resolve(rows, 34, 16, out), 26);
    REFUSED(vaskelbi_resolve(rows, 36, 16, out), 26);
    REFUSED(vaskelbi_resolve(&plain, 0, 3, out), 26);
    REFUSED(vaskelbi_resolve(&plain, 1, 3, out), 26);
    REFUSED(vaskelbi_resolve(&in_8, 1, 3, out), 26);
    REFUSED(vaskelbi_resolve(REALMS(0, 0), 3, out), 26);
    REFUSED(vaskelbi_resolve(REALMS(LAST, 0), 3, out), 26);
    REFUSED(vaskelbi_resolve(REALMS(3, 0, 9), 3, out), 26);
    REFUSED(vaskelbi_resolve(REALMS(0, 0, 9, 1, 2, 5), 3, out), 26);
}

// Plugin 40 provides (2,5) and (3,0) at anchor (90,0); its child 41 depends on (2,5) and (90,0).
static void registering(void) {
    const uint64_t provided[] = {2, 3}, needed[] = {2, 90}, twice[] = {8, 8}, ninety[] = {90};
    TOLD(vaskelbi_register(m, 90, 0, 501, &E1, 6, none, 0, provided, 2, out), IS(40));
    REFUSED(vaskelbi_register(m, 91, 0, 1, REALMS(3, 0, 9), many, 17, none, 0, out), 26);
    REFUSED(vaskelbi_register(m, 91, 0, 1, &plain, 1, many, 17, none, 0, out), 26);
    REFUSED(vaskelbi_register(m, 91, 0, 1, &plain, 0, none, 0, none, 0, out), 26);
    REFUSED(vaskelbi_register(m, 91, 0, 1, &E1, 5, many, 17, none, 0, out), 4);
    REFUSED(vaskelbi_register(m, 91, 0, 1, &in_8, 5, many, 17, none, 0, out), 4);
    REFUSED(vaskelbi_register(m, 91, 0, 1, &plain, 2, many, 17, none, 0, out), 5);
    REFUSED(vaskelbi_register(m, 91, 0, 1, &plain, 2, none, 0, many, 16, out), 5);
    REFUSED(vaskelbi_register(m, 91, 0, 1, &plain, 2, twice, 2, twice, 2, out), 6);
    REFUSED(vaskelbi_register(m, 91, 0, 1, &plain, 2, none, 0, twice, 2, out), 7);
    REFUSED(vaskelbi_register(m, 8, 0, 1, &plain, 2, none, 0, twice, 1, out), 7);
    REFUSED(vaskelbi_register(m, 90, 0, 1, &plain, 2, none, 0, none, 0, out), 8);
    REFUSED(vaskelbi_register(m, 2, 5, 1, &plain, 2, none, 0, none, 0, out), 8);
    REFUSED(vaskelbi_register(m, 91, 0, 1, &plain, 2, none, 0, ninety, 1, out), 8);

    TOLD(vaskelbi_register_child(m, 40, 91, 6, 502, &E1, 6, needed, 2, none, 0, out), IS(41));
    REFUSED(vaskelbi_register_child(m, 39, 92, 0, 1, REALMS(0, 0, 9), many, 17, none, 0, out), 26);
    REFUSED(vaskelbi_register_child(m, 39, 92, 0, 1, &plain, 1, many, 17, none, 0, out), 26);
    REFUSED(vaskelbi_register_child(m, 39, 92, 0, 1, &E1, 5, many, 17, none, 0, out), 4);
    REFUSED(vaskelbi_register_child(m, 39, 92, 0, 1, &plain, 2, many, 17, none, 0, out), 5);
    REFUSED(vaskelbi_register_child(m, 39, 92, 0, 1, &plain, 2, twice, 2, none, 0, out), 1);
    REFUSED(vaskelbi_register_child(m, 40, 92, 0, 1, &plain, 2, twice, 2, none, 0, out), 6);
    REFUSED(vaskelbi_register_child(m, 40, 92, 0, 1, &plain, 2, none, 0, twice, 2, out), 7);
    REFUSED(vaskelbi_register_child(m, 40, 91, 6, 1, &plain, 2, none, 0, none, 0, out), 8);
    NUMBER(vaskelbi_next(m), 42);
    NUMBER(vaskelbi_count(m), 2);
    NUMBER(vaskelbi_rows(m), 6);
    writing();
}

static void listing(void) {
    LISTED(vaskelbi_list_dependencies(m, 41, 0, buffer, 4, out), 0, IS(2, 5, 90, 0));
    LISTED(vaskelbi_list_dependencies(m, 41, 92, buffer, 96, out), 92, IS(2, 5, 90, 0));
    LISTED(vaskelbi_list_dependencies(m, 40, 96, buffer, 96, out), 0, NONE);
    LISTED(vaskelbi_list_dependencies(m, 40, 0, buffer, 0, out), 0, NONE);
    REFUSED(vaskelbi_list_dependencies(m, 39, 97, buffer, 96, out), 1);
    REFUSED(vaskelbi_list_dependencies(m, 40, 97, buffer, 96, out), 23);
    REFUSED(vaskelbi_list_dependencies(m, 41, 93, buffer, 96, out), 23);
    REFUSED(vaskelbi_list_dependencies(m, 41, LAST, buffer, 96, out), 23);
    LISTED(vaskelbi_list_provisions(m, 40, 7, buffer, 11, out), 7, IS(2, 5, 3, 0));
    REFUSED(vaskelbi_list_provisions(m, 39, 0, buffer, 96, out), 1);
    REFUSED(vaskelbi_list_provisions(m, 40, 7, buffer, 10, out), 23);
    LISTED(vaskelbi_list_realms(m, 40, 20, buffer, 96, out), 20, IS(2, 5, 9, 1));
    REFUSED(vaskelbi_list_realms(m, 39, 0, buffer, 96, out), 1);
    REFUSED(vaskelbi_list_realms(m, 40, 0, buffer, 3, out), 23);
}

static void asking(void) {
    ASKED(vaskelbi_lookup(m, 41, 90, out), IS(90, 0));
    ASKED(vaskelbi_lookup(m, 41, 3, out), NONE);
    REFUSED(vaskelbi_lookup(m, 42, 90, out), 1);
    ASKED(vaskelbi_parent(m, 41, out), IS(40));
    ASKED(vaskelbi_parent(m, 40, out), NONE);
    REFUSED(vaskelbi_parent(m, 42, out), 1);
    ASKED(vaskelbi_anchor(m, 41, out), IS(91, 6));
    REFUSED(vaskelbi_anchor(m, 42, out), 1);
    ASKED(vaskelbi_edition(m, 41, out), IS(1, 0));
    REFUSED(vaskelbi_edition(m, 42, out), 1);
    ASKED(vaskelbi_phase(m, 41, out), IS(VASKELBI_IDLE));
    REFUSED(vaskelbi_phase(m, 42, out), 1);
    ASKED(vaskelbi_retired(m, 41, out), IS(0));
    REFUSED(vaskelbi_retired(m, 42, out), 1);
    ASKED(vaskelbi_generation(m, 41, out), IS(0));
    REFUSED(vaskelbi_generation(m, 42, out), 1);
    ASKED(vaskelbi_revision(m, 41, out), IS(0));
    REFUSED(vaskelbi_revision(m, 42, out), 1);
    ASKED(vaskelbi_payload(m, 41, out), IS(502));
    REFUSED(vaskelbi_payload(m, 42, out), 1);
    ASKED(vaskelbi_root(m, 41, out), IS(VASKELBI_UNISSUED));
    REFUSED(vaskelbi_root(m, 42, out), 1);
    ASKED(vaskelbi_id_from(m, 0, out), IS(40));
    ASKED(vaskelbi_id_from(m, 40, out), IS(40));
    ASKED(vaskelbi_id_from(m, 41, out), IS(41));
    ASKED(vaskelbi_id_from(m, 42, out), NONE);
    ASKED(vaskelbi_matches(m, 40, (uint64_t[]){2, 5, 3, 0}, 4, out), IS(1));
    ASKED(vaskelbi_matches(m, 40, (uint64_t[]){3, 0, 2, 5}, 4, out), IS(0));
    ASKED(vaskelbi_matches(m, 40, (uint64_t[]){2, 5, 3}, 3, out), IS(0));
    ASKED(vaskelbi_matches(m, 41, none, 0, out), IS(1));
    REFUSED(vaskelbi_matches(m, 42, none, 0, out), 1);
    ASKED(vaskelbi_declares(m, 40, 2, 5, out), IS(1));
    ASKED(vaskelbi_declares(m, 41, 2, 5, out), IS(0));
    REFUSED(vaskelbi_declares(m, 42, 2, 5, out), 1);
    ASKED(vaskelbi_child(m, 41, out), IS(7, 40, 41));
    ASKED(vaskelbi_child(m, 40, out), NONE);
    REFUSED(vaskelbi_child(m, 42, out), 1);
    ASKED(vaskelbi_fits(m, 41, LAST, out), IS(1));
    REFUSED(vaskelbi_fits(m, 42, 0, out), 1);
}

// Plugin 40 to Active, by way of a stale call.
static void calling(void) {
    REFUSED(vaskelbi_begin(m, 41, out), 14);
    REFUSED(vaskelbi_begin(m, 42, out), 1);
    TOLD(vaskelbi_begin(m, 40, out), IS(7, 40, 1, VASKELBI_SETUP));
    REFUSED(vaskelbi_begin(m, 40, out), 3);
    ASKED(vaskelbi_phase(m, 40, out), IS(VASKELBI_LOADING));
    ASKED(vaskelbi_generation(m, 40, out), IS(1));

    ASKED(vaskelbi_admits(m, 7, 40, 1, 1, out), IS(1));
    ASKED(vaskelbi_admits(m, 8, 40, 1, 1, out), IS(0));
    REFUSED(vaskelbi_admit(m, 8, 42, 1, 1, 600, out), 3);
    REFUSED(vaskelbi_admit(m, 7, 42, 1, 2, 600, out), 3);
    REFUSED(vaskelbi_admit(m, 7, 42, 1, 1, 600, out), 1);
    REFUSED(vaskelbi_admit(m, 7, 40, 2, 1, 600, out), 13);
    REFUSED(vaskelbi_admit(m, 7, 41, 0, 1, 600, out), 13);
    TOLD(vaskelbi_admit(m, 7, 40, 1, 1, 600, out), IS(7, 40, 1, 0, 600));
    REFUSED(vaskelbi_admit(m, 7, 40, 1, 1, 600, out), 3);
    ASKED(vaskelbi_admits(m, 7, 40, 1, 1, out), IS(0));
    ASKED(vaskelbi_root(m, 40, out), IS(VASKELBI_QUEUED, 0, 600));
    writing();

    REFUSED(vaskelbi_call(m, 8, 42, 1, 0, 600, out), 3);
    REFUSED(vaskelbi_call(m, 7, 42, 1, 0, 600, out), 1);
    REFUSED(vaskelbi_call(m, 7, 40, 2, 0, 600, out), 13);
    REFUSED(vaskelbi_call(m, 7, 40, 1, 1, 600, out), 13);
    REFUSED(vaskelbi_call(m, 7, 40, 1, 0, 601, out), 13);
    TOLD(vaskelbi_replace(m, 40, 501, out), IS(501)); // E9
    REFUSED(vaskelbi_call(m, 7, 40, 1, 0, 600, out), 13);
    HANDED_BACK(vaskelbi_replace(m, 42, 503, out), 1, IS(503));
    ASKED(vaskelbi_revision(m, 40, out), IS(1));

    REFUSED(vaskelbi_fail(m, 42), 1);
    DONE(vaskelbi_fail(m, 40));
    writing();
    REFUSED(vaskelbi_fail(m, 40), 3);
    REFUSED(vaskelbi_register_child(m, 40, 92, 0, 1, &plain, 2, none, 0, none, 0, out), 3);
    REFUSED(vaskelbi_finish(m, 42), 1);
    DONE(vaskelbi_finish(m, 40));
    REFUSED(vaskelbi_finish(m, 40), 3);

    TOLD(vaskelbi_begin(m, 40, out), IS(7, 40, 2, 1));
    TOLD(vaskelbi_admit(m, 7, 40, 2, 1, 600, out), IS(7, 40, 2, 1, 600));
    REFUSED(vaskelbi_ready(m, 42), 1);
    REFUSED(vaskelbi_ready(m, 41), 3);
    REFUSED(vaskelbi_ready(m, 40), 17);
    TOLD(vaskelbi_call(m, 7, 40, 2, 1, 600, out), IS(7, 40, 2, 0, 501, 600)); // E10
    REFUSED(vaskelbi_call(m, 7, 40, 2, 1, 600, out), 13);
    ASKED(vaskelbi_root(m, 40, out), IS(VASKELBI_SPENT));
    REFUSED(vaskelbi_ready(m, 40), 22);
}

static void offering(void) {
    ASKED(vaskelbi_missing(m, 40, out), IS(2, 5));
    REFUSED(vaskelbi_missing(m, 42, out), 1);
    REFUSED(vaskelbi_offer(m, 42, 2, 5, 700), 1);
    REFUSED(vaskelbi_offer(m, 41, 2, 5, 700), 19);
    REFUSED(vaskelbi_offer(m, 40, 5, 2, 700), 20);
    REFUSED(vaskelbi_offer(m, 40, 90, 0, 700), 20);
    DONE(vaskelbi_offer(m, 40, 2, 5, 700));
    REFUSED(vaskelbi_offer(m, 40, 2, 5, 701), 21);
    ASKED(vaskelbi_missing(m, 40, out), IS(3, 0));
    ASKED(vaskelbi_own(m, 40, 2, 5, out), IS(700));
    ASKED(vaskelbi_own(m, 40, 3, 0, out), NONE);
    REFUSED(vaskelbi_own(m, 42, 2, 5, out), 1);
    ASKED(vaskelbi_visible(m, 2, 5, out), NONE);
    writing();
    DONE(vaskelbi_offer(m, 40, 3, 0, 702));
    ASKED(vaskelbi_missing(m, 40, out), NONE);
    DONE(vaskelbi_ready(m, 40));
    ASKED(vaskelbi_phase(m, 40, out), IS(VASKELBI_ACTIVE));
    ASKED(vaskelbi_visible(m, 2, 5, out), IS(700));
    REFUSED(vaskelbi_offer(m, 40, 2, 5, 701), 19);

    REFUSED(vaskelbi_read(m, 42, 2, 5, out), 1);
    REFUSED(vaskelbi_read(m, 41, 2, 5, out), 19);
    TOLD(vaskelbi_begin(m, 41, out), IS(7, 41, 1, 1));
    ASKED(vaskelbi_read(m, 41, 2, 5, out), IS(700, 40));
    REFUSED(vaskelbi_read(m, 41, 3, 0, out), 20);
    REFUSED(vaskelbi_read(m, 41, 90, 0, out), 22);
    ASKED(vaskelbi_declares(m, 41, 2, 5, out), IS(1));

    REFUSED(vaskelbi_unload(m, 42), 1);
    REFUSED(vaskelbi_unload(m, 41), 3);
    REFUSED(vaskelbi_unload(m, 40), 15);
    writing();
}

// Both retired and removed; 41 while Loading.
static void retiring(void) {
    REFUSED(vaskelbi_retire_child(m, 8, 40, 41), 3);
    REFUSED(vaskelbi_retire_child(m, 7, 40, 39), 1);
    REFUSED(vaskelbi_retire_child(m, 7, 40, 42), 1);
    REFUSED(vaskelbi_retire_child(m, 7, 41, 41), 3);
    REFUSED(vaskelbi_retire_child(m, 7, 40, 40), 3);
    DONE(vaskelbi_retire_child(m, 7, 40, 41));
    REFUSED(vaskelbi_retire_child(m, 7, 40, 41), 2);
    REFUSED(vaskelbi_admit(m, 7, 41, 1, 1, 600, out), 2);
    REFUSED(vaskelbi_call(m, 7, 41, 1, 0, 600, out), 2);
    REFUSED(vaskelbi_ready(m, 41), 2);
    REFUSED(vaskelbi_offer(m, 41, 2, 5, 700), 19);
    REFUSED(vaskelbi_remove(m, 41), 3);
    DONE(vaskelbi_fail(m, 41));
    DONE(vaskelbi_finish(m, 41));
    REFUSED(vaskelbi_begin(m, 41, out), 2);

    DONE(vaskelbi_unload(m, 40));
    ASKED(vaskelbi_visible(m, 2, 5, out), NONE);
    ASKED(vaskelbi_own(m, 40, 2, 5, out), IS(700));
    DONE(vaskelbi_finish(m, 40));
    ASKED(vaskelbi_own(m, 40, 2, 5, out), NONE);
    REFUSED(vaskelbi_remove(m, 40), 3);
    REFUSED(vaskelbi_retire(m, 42), 1);
    DONE(vaskelbi_retire(m, 40));
    REFUSED(vaskelbi_retire(m, 40), 2);
    ASKED(vaskelbi_retired(m, 40, out), IS(1));
    REFUSED(vaskelbi_register_child(m, 40, 92, 0, 1, &plain, 2, none, 0, none, 0, out), 2);
    REFUSED(vaskelbi_remove(m, 42), 1);
    REFUSED(vaskelbi_remove(m, 40), 18);
    DONE(vaskelbi_remove(m, 41));
    KEPT(vaskelbi_retire_child(m, 7, 99, 41));
    DONE(vaskelbi_remove(m, 40));
    NUMBER(vaskelbi_count(m), 0);
    NUMBER(vaskelbi_rows(m), 0);
    NUMBER(vaskelbi_next(m), 42);
}

static void full(void) {
    OPENED(vaskelbi_open(m, 0, 0));
    for (uint64_t n = 0; n < 32; n++) bare(n);
    NUMBER(vaskelbi_count(m), 32);
    REFUSED(vaskelbi_register(m, 1000, 77, 0, &plain, 2, none, 0, none, 0, out), 8);
    REFUSED(vaskelbi_register(m, 999, 77, 0, &plain, 2, none, 0, none, 0, out), 10);
    REFUSED(vaskelbi_register_child(m, 5, 999, 77, 0, &plain, 2, none, 0, none, 0, out), 10);

    // The longest order, from a set that falls; one id more is unknown or repeated.
    uint64_t falling[33], rising[32];
    for (uint64_t n = 0; n < 32; n++) falling[n] = 31 - n, rising[n] = n;
    PLANNED(vaskelbi_plan_order(m, falling, 32, buffer, 32, out), 0, rising, 32);
    ASKED(vaskelbi_check_order(m, falling, 32, falling, 32, out), IS(1));
    falling[32] = 32;
    REFUSED(vaskelbi_plan_order(m, falling, 33, buffer, 96, out), 1);
    falling[32] = 5;
    REFUSED(vaskelbi_plan_order(m, falling, 33, buffer, 96, out), 27);
    ASKED(vaskelbi_check_order(m, falling, 32, falling, 33, out), IS(0));

    DONE(vaskelbi_retire(m, 5));
    DONE(vaskelbi_remove(m, 5));
    TOLD(vaskelbi_register(m, 1005, 77, 0, &plain, 2, none, 0, none, 0, out), IS(32));
    ASKED(vaskelbi_id_from(m, 0, out), IS(0));
    ASKED(vaskelbi_id_from(m, 5, out), IS(6));
    writing();
}

static void last_id(void) {
    OPENED(vaskelbi_open(m, 0, LAST - 1));
    TOLD(vaskelbi_register(m, 1, 0, 0, &plain, 2, none, 0, none, 0, out), IS(LAST - 1));
    REFUSED(vaskelbi_register(m, 2, 0, 0, &plain, 2, none, 0, none, 0, out), 9);
    REFUSED(vaskelbi_register_child(m, LAST - 1, 2, 0, 0, &plain, 2, none, 0, none, 0, out), 9);
    NUMBER(vaskelbi_next(m), LAST);
    writing();
}

// E4: a child whose anchor its parent depends on begins; one that declares its anchor never does, and hands it down.
static void own_anchor(void) {
    const uint64_t four[] = {4};
    OPENED(vaskelbi_open(m, 7, 0));
    TOLD(vaskelbi_register(m, 90, 0, 1, &plain, 2, four, 1, none, 0, out), IS(0));
    TOLD(vaskelbi_register_child(m, 0, 4, 0, 2, &plain, 2, none, 0, none, 0, out), IS(1));
    LISTED(vaskelbi_list_dependencies(m, 1, 0, buffer, 96, out), 0, NONE);
    TOLD(vaskelbi_begin(m, 1, out), IS(7, 1, 1, 1));
    OPENED(vaskelbi_open(m, 7, 0));
    TOLD(vaskelbi_register(m, 90, 0, 1, &plain, 2, four, 1, none, 0, out), IS(0));
    TOLD(vaskelbi_register_child(m, 0, 4, 0, 2, &plain, 2, four, 1, none, 0, out), IS(1));
    LISTED(vaskelbi_list_dependencies(m, 1, 0, buffer, 96, out), 0, IS(4, 0));
    REFUSED(vaskelbi_begin(m, 1, out), 14);
    TOLD(vaskelbi_register_child(m, 1, 91, 0, 3, &plain, 2, none, 0, none, 0, out), IS(2));
    LISTED(vaskelbi_list_dependencies(m, 2, 0, buffer, 96, out), 0, IS(4, 0));
}

// 48 dependencies are inherited over three plugins, 16 keys in three realms; then the rows are filled.
static void long_lists(void) {
    vaskelbi_realms realms = {.edition = VASKELBI_FIRST_EDITION};
    const uint64_t more[] = {99}, *keys = many;
    OPENED(vaskelbi_open(m, 0, 0));
    for (uint64_t i = 0; i < 16; i++) realms.rows[i] = (vaskelbi_port){keys[i], 0};
    TOLD(vaskelbi_register(m, 1000, 77, 0, &realms, 34, keys, 16, none, 0, out), IS(0));
    for (uint64_t i = 0; i < 16; i++) realms.rows[i].realm = 1;
    TOLD(vaskelbi_register_child(m, 0, 1001, 77, 0, &realms, 34, none, 0, none, 0, out), IS(1));
    realms.edition = VASKELBI_SECOND_EDITION; // which gives all keys realm 2 without a row
    realms.default_realm = 2;
    TOLD(vaskelbi_register_child(m, 1, 1002, 77, 0, &realms, 2, none, 0, none, 0, out), IS(2));
    NUMBER(vaskelbi_rows(m), 17 + 33 + 49);
    expect(vaskelbi_list_dependencies(m, 2, 0, buffer, 96, out) == 0 && out->number[0] == 48, "no 48", "long_lists");
    for (uint64_t i = 0; i < 16; i++) // each inherited port is followed by its key in the newest realm
        expect(!memcmp(buffer + 6 * i, (uint64_t[]){i + 1, 0, i + 1, 2, i + 1, 1}, 48), "another order", "long_lists");
    REFUSED(vaskelbi_list_dependencies(m, 2, 0, buffer, 95, out), 23);
    REFUSED(vaskelbi_register_child(m, 2, 1003, 77, 0, &plain, 2, more, 1, none, 0, out), 11);
    REFUSED(vaskelbi_register_child(m, 2, 1003, 77, 0, REALMS(2, 3), none, 0, none, 0, out), 11);

    for (uint64_t n = 3; n < 21; n++)
        expect(vaskelbi_register_child(m, 2, 1000 + n, 77, 0, &plain, 2, none, 0, none, 0, out) == 0, "refused", "an heir");
    NUMBER(vaskelbi_rows(m), 981);
    REFUSED(vaskelbi_register_child(m, 2, 1021, 77, 0, &plain, 2, none, 0, none, 0, out), 12);
    REFUSED(vaskelbi_register_child(m, 2, 1021, 77, 0, &plain, 2, more, 1, none, 0, out), 11);
    const uint64_t provisions[15] = {200, 201, 202, 203, 204, 205, 206, 207, 208, 209, 210, 211, 212, 213, 214};
    TOLD(vaskelbi_register(m, 1021, 77, 0, &plain, 2, keys, 16, provisions, 15, out), IS(21));
    REFUSED(vaskelbi_register(m, 1022, 77, 0, &plain, 2, keys, 11, none, 0, out), 12);
    TOLD(vaskelbi_register(m, 1022, 77, 0, &plain, 2, keys, 10, none, 0, out), IS(22));
    NUMBER(vaskelbi_rows(m), 1024);
    writing();
    REFUSED(vaskelbi_register(m, 1023, 77, 0, &plain, 2, none, 0, none, 0, out), 12);
    DONE(vaskelbi_retire(m, 22));
    DONE(vaskelbi_remove(m, 22));
    NUMBER(vaskelbi_rows(m), 1013);
}

// The only word of the registry that is not as it was.
static uint64_t *changed(void) {
    uint64_t *word = NULL;
    for (int i = 0; i < VASKELBI_WORDS; i++)
        if (m->word[i] != was.registry.word[i]) {
            expect(!word, "two words changed", "changed");
            word = &m->word[i];
        }
    expect(word != NULL, "no word changed", "changed");
    return word;
}

// No lifetime is long enough to count to 2^64, so revision and generation are written by hand (E6, 16).
static void exhausted(void) {
    OPENED(vaskelbi_open(m, 7, 1));
    uint64_t id = bare(3);
    was = all;
    expect(vaskelbi_replace(m, id, 3, out) == 0, "refused", "exhausted");
    uint64_t *revision = changed();
    *revision = LAST - 3;
    ASKED(vaskelbi_fits(m, id, 3, out), IS(1));
    ASKED(vaskelbi_fits(m, id, 4, out), IS(0));
    ASKED(vaskelbi_fits(m, id, LAST, out), IS(0));
    *revision = LAST;
    HANDED_BACK(vaskelbi_replace(m, id, 9, out), 16, IS(9));
    ASKED(vaskelbi_payload(m, id, out), IS(3));

    expect(vaskelbi_begin(m, id, out) == 0, "refused", "exhausted");
    was = all;
    expect(!vaskelbi_fail(m, id) && !vaskelbi_finish(m, id) && !vaskelbi_begin(m, id, out), "refused", "exhausted");
    uint64_t *generation = changed();
    DONE(vaskelbi_fail(m, id));
    DONE(vaskelbi_finish(m, id));
    *generation = LAST;
    REFUSED(vaskelbi_begin(m, id, out), 16);
    REFUSED(vaskelbi_plan_order(m, IDS(id), buffer, 0, out), 16);
    REFUSED(vaskelbi_plan_order(m, IDS(id, id), buffer, 96, out), 16);
    REFUSED(vaskelbi_check_order(m, IDS(id), IDS(id), out), 16);
    *generation = LAST - 1;
    PLANNED(vaskelbi_plan_order(m, IDS(id), buffer, 1, out), 0, IS(id));
    ASKED(vaskelbi_check_order(m, IDS(id), IDS(id), out), IS(1));
    TOLD(vaskelbi_begin(m, id, out), IS(7, id, LAST, 1));
    REFUSED(vaskelbi_plan_order(m, IDS(id), buffer, 96, out), 3); // by phase, before 16
    REFUSED(vaskelbi_check_order(m, IDS(id), IDS(id), out), 3);
    writing();
    DONE(vaskelbi_fail(m, id));
    DONE(vaskelbi_finish(m, id));
    DONE(vaskelbi_retire(m, id));
    REFUSED(vaskelbi_plan_order(m, IDS(id), buffer, 96, out), 2); // before 16
}

// A pier. Pointing (50) needs both axes and the clock; each drive (51, 52) needs its encoder (53, 54); the clock (55) is Active; the
// dome (56) needs pointing, by its anchor. Nobody provides what 57 needs, 58 and 59 need each other, and 60 needs itself.
enum { CLOCK = 10, ENCODER = 21, AXIS = 31, POINTING = 50, RING = 61, OWN = 63 };
static void pier(void) {
    OPENED(vaskelbi_open(m, 7, 50));
    TOLD(vaskelbi_register(m, 150, 0, 1, &plain, 2, IDS(AXIS, AXIS + 1, CLOCK), IDS(POINTING), out), IS(50));
    TOLD(vaskelbi_register(m, 151, 0, 1, &plain, 2, IDS(ENCODER), IDS(AXIS), out), IS(51));
    TOLD(vaskelbi_register(m, 152, 0, 1, &plain, 2, IDS(ENCODER + 1), IDS(AXIS + 1), out), IS(52));
    TOLD(vaskelbi_register(m, 153, 0, 1, &plain, 2, none, 0, IDS(ENCODER), out), IS(53));
    TOLD(vaskelbi_register(m, 154, 0, 1, &plain, 2, none, 0, IDS(ENCODER + 1), out), IS(54));
    TOLD(vaskelbi_register(m, 155, 0, 1, &plain, 2, none, 0, IDS(CLOCK), out), IS(55));
    TOLD(vaskelbi_register(m, 156, 0, 1, &plain, 2, IDS(150), none, 0, out), IS(56));
    TOLD(vaskelbi_register(m, 157, 0, 1, &plain, 2, IDS(99), none, 0, out), IS(57));
    TOLD(vaskelbi_register(m, 158, 0, 1, &plain, 2, IDS(RING), IDS(RING + 1), out), IS(58));
    TOLD(vaskelbi_register(m, 159, 0, 1, &plain, 2, IDS(RING + 1), IDS(RING), out), IS(59));
    TOLD(vaskelbi_register(m, 160, 0, 1, &plain, 2, IDS(OWN), IDS(OWN), out), IS(60));
}

// From Idle to Active, with a value for each provision; every step is accepted.
static void start(uint64_t id, uint64_t generation) {
    TOLD(vaskelbi_begin(m, id, out), IS(7, id, generation, 1));
    TOLD(vaskelbi_admit(m, 7, id, generation, 1, 6, out), IS(7, id, generation, 0, 6));
    TOLD(vaskelbi_call(m, 7, id, generation, 0, 6, out), IS(7, id, generation, 0, 1, 6));
    while (expect(vaskelbi_missing(m, id, out) == 0, "refused", "start"), out->count) {
        const vaskelbi_port port = out->port;
        DONE(vaskelbi_offer(m, id, port.key, port.realm, 700 + port.key));
    }
    DONE(vaskelbi_ready(m, id));
}

static void planning(void) {
    pier();
    // Without the clock pointing can't come, and with it in the set it can.
    ASKED(vaskelbi_plan_order(m, IDS(50, 51, 52, 53, 54), buffer, 96, out), NONE);
    PLANNED(vaskelbi_plan_order(m, IDS(50, 51, 52, 53, 54, 55), buffer, 96, out), 0, IS(53, 51, 54, 52, 55, 50));
    start(55, 1);

    // The order does not depend on how the set is listed, and leaves the rest of the buffer.
    PLANNED(vaskelbi_plan_order(m, IDS(50, 51, 52, 53, 54, 56), buffer, 96, out), 0, IS(53, 51, 54, 52, 50, 56));
    PLANNED(vaskelbi_plan_order(m, IDS(56, 52, 54, 50, 51, 53), buffer, 6, out), 0, IS(53, 51, 54, 52, 50, 56));
    PLANNED(vaskelbi_plan_order(m, IDS(56, 54, 53, 52, 51, 50), buffer + 90, 6, out), 90, IS(53, 51, 54, 52, 50, 56));
    PLANNED(vaskelbi_plan_order(m, IDS(51, 53), buffer + 7, 3, out), 7, IS(53, 51));
    PLANNED(vaskelbi_plan_order(m, IDS(54), buffer, 1, out), 0, IS(54));
    PLANNED(vaskelbi_plan_order(m, none, 0, buffer, 96, out), 0, NONE); // the count 0, which is a number
    PLANNED(vaskelbi_plan_order(m, none, 0, buffer, 0, out), 0, NONE);

    // No order passes: a provider is missing, is not in the set, or does not come in time.
    ASKED(vaskelbi_plan_order(m, IDS(57), buffer, 96, out), NONE);
    ASKED(vaskelbi_plan_order(m, IDS(53, 57, 54), buffer, 96, out), NONE);
    ASKED(vaskelbi_plan_order(m, IDS(51, 54), buffer, 96, out), NONE);
    ASKED(vaskelbi_plan_order(m, IDS(58, 59), buffer, 96, out), NONE);
    ASKED(vaskelbi_plan_order(m, IDS(60), buffer, 96, out), NONE);

    // Room comes after the ids, and before none.
    REFUSED(vaskelbi_plan_order(m, IDS(50, 51, 52, 53, 54, 56), buffer, 5, out), 23);
    REFUSED(vaskelbi_plan_order(m, IDS(54), buffer, 0, out), 23);
    REFUSED(vaskelbi_plan_order(m, IDS(58, 59), buffer, 1, out), 23);
    REFUSED(vaskelbi_plan_order(m, IDS(57), buffer, 0, out), 23);
    REFUSED(vaskelbi_plan_order(m, IDS(53, 99), buffer, 0, out), 1);
    REFUSED(vaskelbi_plan_order(m, IDS(53, 53), buffer, 0, out), 27);
}

// The ids of a set one by one, in list order; the checker refuses as the planner does.
static void refusing_sets(void) {
    REFUSED(vaskelbi_plan_order(m, IDS(53, 54, 53), buffer, 96, out), 27);
    REFUSED(vaskelbi_plan_order(m, IDS(53, 53, 99), buffer, 96, out), 27);
    REFUSED(vaskelbi_plan_order(m, IDS(53, 99, 53), buffer, 96, out), 1);
    REFUSED(vaskelbi_plan_order(m, IDS(99, 99), buffer, 96, out), 1); // the first is not repeated
    REFUSED(vaskelbi_plan_order(m, IDS(LAST), buffer, 96, out), 1);
    REFUSED(vaskelbi_plan_order(m, IDS(53, 55), buffer, 96, out), 3); // Active
    REFUSED(vaskelbi_plan_order(m, IDS(55, 99), buffer, 96, out), 3);
    REFUSED(vaskelbi_plan_order(m, IDS(99, 55), buffer, 96, out), 1);
    REFUSED(vaskelbi_plan_order(m, IDS(53, 53, 55), buffer, 96, out), 27);
    REFUSED(vaskelbi_check_order(m, IDS(53, 54, 53), IDS(53, 54, 53), out), 27);
    REFUSED(vaskelbi_check_order(m, IDS(53, 99, 53), IDS(53), out), 1);
    REFUSED(vaskelbi_check_order(m, IDS(55), IDS(55), out), 3);

    TOLD(vaskelbi_begin(m, 54, out), IS(7, 54, 1, 1));
    REFUSED(vaskelbi_plan_order(m, IDS(53, 54), buffer, 96, out), 3); // Loading
    DONE(vaskelbi_retire(m, 54));
    REFUSED(vaskelbi_plan_order(m, IDS(53, 54), buffer, 96, out), 2); // before 3
    DONE(vaskelbi_fail(m, 54));
    DONE(vaskelbi_finish(m, 54));
    REFUSED(vaskelbi_plan_order(m, IDS(54, 54), buffer, 0, out), 2); // Idle
    REFUSED(vaskelbi_check_order(m, IDS(54), none, 0, out), 2);
    TOLD(vaskelbi_begin(m, 53, out), IS(7, 53, 1, 1));
    DONE(vaskelbi_fail(m, 53));
    REFUSED(vaskelbi_plan_order(m, IDS(53), buffer, 96, out), 3); // Unloading
    REFUSED(vaskelbi_check_order(m, IDS(53), IDS(53), out), 3);
}

static void checking(void) {
    pier();
    start(55, 1);
    ASKED(vaskelbi_check_order(m, IDS(50, 51, 52, 53, 54), IDS(53, 51, 54, 52, 50), out), IS(1));
    ASKED(vaskelbi_check_order(m, IDS(50, 51, 52, 53, 54), IDS(54, 53, 52, 51, 50), out), IS(1)); // not the lowest
    ASKED(vaskelbi_check_order(m, IDS(50, 51, 52, 53, 54), IDS(51, 53, 54, 52, 50), out), IS(0)); // a provider later
    ASKED(vaskelbi_check_order(m, IDS(50, 51, 52, 53, 54), IDS(50, 53, 51, 54, 52), out), IS(0));
    ASKED(vaskelbi_check_order(m, IDS(50, 51, 52, 53, 54), IDS(53, 51, 54, 52), out), IS(0)); // one left out
    ASKED(vaskelbi_check_order(m, IDS(53, 54), IDS(53, 53), out), IS(0)); // one repeated
    ASKED(vaskelbi_check_order(m, IDS(53, 54), IDS(53, 54, 53), out), IS(0));
    ASKED(vaskelbi_check_order(m, IDS(53, 54), IDS(53, 55), out), IS(0)); // one of another set
    ASKED(vaskelbi_check_order(m, IDS(53, 54), IDS(53, 54, 55), out), IS(0));
    ASKED(vaskelbi_check_order(m, IDS(53), IDS(54), out), IS(0));
    ASKED(vaskelbi_check_order(m, IDS(53, 54), IDS(53, 99), out), IS(0)); // of none
    ASKED(vaskelbi_check_order(m, IDS(53), IDS(LAST), out), IS(0));
    ASKED(vaskelbi_check_order(m, IDS(53), none, 0, out), IS(0));
    ASKED(vaskelbi_check_order(m, none, 0, none, 0, out), IS(1));
    ASKED(vaskelbi_check_order(m, none, 0, IDS(53), out), IS(0));
    ASKED(vaskelbi_check_order(m, IDS(57), IDS(57), out), IS(0));
    ASKED(vaskelbi_check_order(m, IDS(58, 59), IDS(58, 59), out), IS(0));
    ASKED(vaskelbi_check_order(m, IDS(58, 59), IDS(59, 58), out), IS(0));
    ASKED(vaskelbi_check_order(m, IDS(60), IDS(60), out), IS(0));

    // A provider counts while it is Active, retired or not.
    DONE(vaskelbi_retire(m, 55));
    PLANNED(vaskelbi_plan_order(m, IDS(50, 51, 52, 53, 54), buffer, 96, out), 0, IS(53, 51, 54, 52, 50));
    ASKED(vaskelbi_check_order(m, IDS(50, 51, 52, 53, 54), IDS(53, 51, 54, 52, 50), out), IS(1));
    DONE(vaskelbi_unload(m, 55));
    ASKED(vaskelbi_plan_order(m, IDS(50, 51, 52, 53, 54), buffer, 96, out), NONE);
    ASKED(vaskelbi_check_order(m, IDS(50, 51, 52, 53, 54), IDS(53, 51, 54, 52, 50), out), IS(0));
    TOLD(vaskelbi_begin(m, 53, out), IS(7, 53, 1, 1));
    ASKED(vaskelbi_plan_order(m, IDS(51), buffer, 96, out), NONE);
    ASKED(vaskelbi_check_order(m, IDS(51), IDS(51), out), IS(0));
}

// A night: the pier is planned and begun in that order, and every step is accepted.
static void starting(void) {
    const uint64_t set[] = {50, 51, 52, 53, 54, 56};
    uint64_t order[6];
    pier();
    start(55, 1);
    expect(vaskelbi_plan_order(m, set, 6, order, 6, out) == 0 && out->count == 1 && out->number[0] == 6, "no order", "starting");
    ASKED(vaskelbi_check_order(m, set, 6, order, 6, out), IS(1));
    REFUSED(vaskelbi_begin(m, 50, out), 14);
    for (int i = 0; i < 6; i++) {
        start(order[i], 1);
        // What has begun is no longer to begin, and the rest is planned as before.
        REFUSED(vaskelbi_plan_order(m, set, 6, buffer, 96, out), 3);
        PLANNED(vaskelbi_plan_order(m, order + i + 1, 5 - i, buffer, 96, out), 0, order + i + 1, 5 - i);
    }
    writing();
}

// A plugin keeps its edition and default; its keys, and those that it inherits, are resolved by its own list.
static void editions(void) {
    const uint64_t needed[] = {2, 4}, four[] = {4}, five[] = {5}, six[] = {6}, seven[] = {7};
    OPENED(vaskelbi_open(m, 7, 0));
    TOLD(vaskelbi_register(m, 90, 0, 1, &in_8, 6, needed, 2, six, 1, out), IS(0));
    ASKED(vaskelbi_edition(m, 0, out), IS(2, 8));
    LISTED(vaskelbi_list_dependencies(m, 0, 0, buffer, 96, out), 0, IS(2, 5, 4, 8));
    LISTED(vaskelbi_list_provisions(m, 0, 0, buffer, 96, out), 0, IS(6, 8));
    LISTED(vaskelbi_list_realms(m, 0, 0, buffer, 4, out), 0, IS(2, 5, 9, 1)); // the rows alone

    // Key 4 of the child resolves to its own (4,0), and by the parent's edition it would not.
    TOLD(vaskelbi_register_child(m, 0, 91, 0, 2, REALMS(1, 9, 2, 3), none, 0, four, 1, out), IS(1));
    ASKED(vaskelbi_edition(m, 1, out), IS(1, 0));
    LISTED(vaskelbi_list_dependencies(m, 1, 0, buffer, 96, out), 0, IS(2, 5, 2, 3, 4, 8));
    LISTED(vaskelbi_list_provisions(m, 1, 0, buffer, 96, out), 0, IS(4, 0));
    TOLD(vaskelbi_register_child(m, 0, 92, 0, 3, REALMS(2, 1), seven, 1, four, 1, out), IS(2));
    ASKED(vaskelbi_edition(m, 2, out), IS(2, 1));
    LISTED(vaskelbi_list_dependencies(m, 2, 0, buffer, 96, out), 0, IS(7, 1, 2, 5, 2, 1, 4, 8));
    LISTED(vaskelbi_list_provisions(m, 2, 0, buffer, 96, out), 0, IS(4, 1));
    TOLD(vaskelbi_register_child(m, 0, 93, 0, 4, &plain, 2, none, 0, none, 0, out), IS(3));
    LISTED(vaskelbi_list_dependencies(m, 3, 0, buffer, 96, out), 0, IS(2, 5, 2, 0, 4, 8, 4, 0));
    TOLD(vaskelbi_register_child(m, 0, 4, 8, 5, &in_8, 6, none, 0, none, 0, out), IS(4)); // (4,8) is its anchor
    LISTED(vaskelbi_list_dependencies(m, 4, 0, buffer, 96, out), 0, IS(2, 5));

    // A parent of edition 1, which ignored its default, and a child of edition 2.
    TOLD(vaskelbi_register(m, 94, 0, 6, REALMS(1, 8), needed, 2, five, 1, out), IS(5));
    ASKED(vaskelbi_edition(m, 5, out), IS(1, 0));
    LISTED(vaskelbi_list_dependencies(m, 5, 0, buffer, 96, out), 0, IS(2, 0, 4, 0));
    TOLD(vaskelbi_register_child(m, 5, 95, 0, 7, REALMS(2, 8, 4, 0), none, 0, none, 0, out), IS(6));
    LISTED(vaskelbi_list_dependencies(m, 6, 0, buffer, 96, out), 0, IS(2, 0, 2, 8, 4, 0));

    // 7 and 8 look at ports.
    REFUSED(vaskelbi_register(m, 7, 8, 8, &in_8, 6, none, 0, seven, 1, out), 7);
    REFUSED(vaskelbi_register(m, 96, 0, 8, REALMS(2, 8), none, 0, six, 1, out), 8);
    REFUSED(vaskelbi_register(m, 96, 0, 8, REALMS(2, 0), none, 0, five, 1, out), 8);
    TOLD(vaskelbi_register(m, 7, 8, 8, &plain, 2, none, 0, seven, 1, out), IS(7));
    REFUSED(vaskelbi_edition(m, 8, out), 1);
    writing();

    // What takes its place has its own edition and default.
    DONE(vaskelbi_retire(m, 6));
    DONE(vaskelbi_remove(m, 6));
    REFUSED(vaskelbi_edition(m, 6, out), 1);
    TOLD(vaskelbi_register(m, 97, 0, 9, REALMS(1, 3), none, 0, six, 1, out), IS(8));
    ASKED(vaskelbi_edition(m, 8, out), IS(1, 0));
    LISTED(vaskelbi_list_provisions(m, 8, 0, buffer, 96, out), 0, IS(6, 0));
    DONE(vaskelbi_retire(m, 8));
    DONE(vaskelbi_remove(m, 8));
    TOLD(vaskelbi_register(m, 97, 0, 9, REALMS(2, LAST), none, 0, six, 1, out), IS(9));
    ASKED(vaskelbi_edition(m, 9, out), IS(2, LAST));
    LISTED(vaskelbi_list_provisions(m, 9, 0, buffer, 96, out), 0, IS(6, LAST));
    TOLD(vaskelbi_register(m, 98, 0, 10, REALMS(2, 0), none, 0, six, 1, out), IS(10)); // edition 2 that gives realm 0
    ASKED(vaskelbi_edition(m, 10, out), IS(2, 0));
    LISTED(vaskelbi_list_provisions(m, 10, 0, buffer, 96, out), 0, IS(6, 0));
    writing();
}

// The text of document 02's example, with these lines for edition, default and realms, and this realm of the provision.
#define EXAMPLE(lines, realm) \
    "domain=7\nfirst=0\nnext=1\nplugins=1\nid=0\nparent=none\nphase=0\nretired=0\ngeneration=0\nrevision=0\npayload=40\n" \
    "root=0\nqueued=none\nanchor=9,0\n" lines "deps=0\nprovs=1\nprov=2," realm ",none\n"

// Document 02's example, byte for byte, in both editions.
static void example(void) {
    static const char expected[] = EXAMPLE("edition=1\ndefault=0\nrealms=1\nrealm=2,5\n", "5");
    static const char second[] = EXAMPLE("edition=2\ndefault=8\nrealms=1\nrealm=2,5\n", "5");
    static const char by_default[] = EXAMPLE("edition=2\ndefault=18446744073709551615\nrealms=0\n", "18446744073709551615");
    const uint64_t provisions[] = {2};
    OPENED(vaskelbi_open(m, 7, 0));
    TOLD(vaskelbi_register(m, 9, 0, 40, REALMS(1, 0, 2, 5), none, 0, provisions, 1, out), IS(0));
    WRITTEN(vaskelbi_write_text(m, text, 202, out), 0, expected);
    WRITTEN(vaskelbi_write_text(m, text + TEXT - 202, 202, out), TEXT - 202, expected);
    REFUSED(vaskelbi_write_text(m, text, 201, out), 23);
    writing();
    OPENED(vaskelbi_open(m, 7, 0));
    TOLD(vaskelbi_register(m, 9, 0, 40, REALMS(1, 8, 2, 5), none, 0, provisions, 1, out), IS(0)); // the default is ignored
    WRITTEN(vaskelbi_write_text(m, text, TEXT, out), 0, expected);
    OPENED(vaskelbi_open(m, 7, 0));
    TOLD(vaskelbi_register(m, 9, 0, 40, &in_8, 4, none, 0, provisions, 1, out), IS(0));
    WRITTEN(vaskelbi_write_text(m, text, TEXT, out), 0, second);
    OPENED(vaskelbi_open(m, 7, 0));
    TOLD(vaskelbi_register(m, 9, 0, 40, REALMS(2, LAST), none, 0, provisions, 1, out), IS(0));
    WRITTEN(vaskelbi_write_text(m, text, TEXT, out), 0, by_default);
    writing();
}

// A text is read back from an odd place, and nothing but the registry changes: the text of what was loaded is the old one but for the
// domain and a Queued root.
static void loading(void) {
    static const char home[] =
        "domain=8\nfirst=0\nnext=1\nplugins=1\nid=0\nparent=none\nphase=1\nretired=0\ngeneration=1\nrevision=0\npayload=40\n"
        "root=0\nqueued=none\nanchor=9,0\nedition=2\ndefault=8\nrealms=1\nrealm=2,5\ndeps=0\nprovs=1\nprov=2,5,none\n";
    const uint64_t provisions[] = {2};
    OPENED(vaskelbi_open(m, 7, 0));
    TOLD(vaskelbi_register(m, 9, 0, 40, &in_8, 4, none, 0, provisions, 1, out), IS(0));
    TOLD(vaskelbi_begin(m, 0, out), IS(7, 0, 1, 1));
    TOLD(vaskelbi_admit(m, 7, 0, 1, 1, 24, out), IS(7, 0, 1, 0, 24));
    static uint8_t carried[512];
    expect(vaskelbi_write_text(m, carried + 3, sizeof carried - 3, out) == 0, "refused", "carrying");
    const size_t size = (size_t)out->number[0];
    const uint8_t *const from = carried + 3;
    REFUSED(vaskelbi_load(m, 7, from, size), 25);
    REFUSED(vaskelbi_load(m, 8, from, size - 1), 24);
    REFUSED(vaskelbi_load(m, 8, from, size + 1), 24);
    REFUSED(vaskelbi_load(m, 8, from + 1, size - 1), 24);
    REFUSED(vaskelbi_load(m, 8, from, 0), 24);
    DONE(vaskelbi_load(m, 8, from, size));
    WRITTEN(vaskelbi_write_text(m, text, TEXT, out), 0, home);
    ASKED(vaskelbi_edition(m, 0, out), IS(2, 8));
    REFUSED(vaskelbi_call(m, 7, 0, 1, 0, 24, out), 3);
    REFUSED(vaskelbi_call(m, 8, 0, 1, 0, 24, out), 13);
    TOLD(vaskelbi_admit(m, 8, 0, 1, 1, 25, out), IS(8, 0, 1, 0, 25));
    writing();
}

// A text says edition and default behind the anchor, and its provisions are resolved by them.
#define SAID(lines, realm) (const uint8_t *)EXAMPLE(lines, realm), sizeof EXAMPLE(lines, realm) - 1
static void loading_editions(void) {
    OPENED(vaskelbi_open(m, 3, 0));
    REFUSED(vaskelbi_load(m, 8, SAID("realms=1\nrealm=2,5\n", "5")), 24);
    REFUSED(vaskelbi_load(m, 8, SAID("edition=1\nrealms=1\nrealm=2,5\n", "5")), 24);
    REFUSED(vaskelbi_load(m, 8, SAID("default=0\nrealms=1\nrealm=2,5\n", "5")), 24);
    REFUSED(vaskelbi_load(m, 8, SAID("default=0\nedition=1\nrealms=1\nrealm=2,5\n", "5")), 24);
    REFUSED(vaskelbi_load(m, 8, SAID("realms=1\nrealm=2,5\nedition=1\ndefault=0\n", "5")), 24);
    REFUSED(vaskelbi_load(m, 8, SAID("edition=1\ndefault=5\nrealms=1\nrealm=2,5\n", "5")), 24);
    REFUSED(vaskelbi_load(m, 8, SAID("edition=0\ndefault=0\nrealms=1\nrealm=2,5\n", "5")), 24);
    REFUSED(vaskelbi_load(m, 8, SAID("edition=3\ndefault=0\nrealms=1\nrealm=2,5\n", "5")), 24);
    REFUSED(vaskelbi_load(m, 8, SAID("edition=2\ndefault=08\nrealms=1\nrealm=2,5\n", "5")), 24);
    REFUSED(vaskelbi_load(m, 8, SAID("edition=2\ndefault=none\nrealms=1\nrealm=2,5\n", "5")), 24);
    REFUSED(vaskelbi_load(m, 8, SAID("edition=2\ndefault=8\nrealms=0\n", "0")), 24);
    REFUSED(vaskelbi_load(m, 8, SAID("edition=1\ndefault=0\nrealms=0\n", "8")), 24);
    REFUSED(vaskelbi_load(m, 7, SAID("edition=2\ndefault=8\nrealms=0\n", "8")), 25);
    DONE(vaskelbi_load(m, 8, SAID("edition=2\ndefault=8\nrealms=0\n", "8")));
    ASKED(vaskelbi_edition(m, 0, out), IS(2, 8));
    writing();
    DONE(vaskelbi_load(m, 9, SAID("edition=1\ndefault=0\nrealms=0\n", "0")));
    ASKED(vaskelbi_edition(m, 0, out), IS(1, 0));
    writing();
    DONE(vaskelbi_load(m, 10, SAID("edition=2\ndefault=0\nrealms=0\n", "0")));
    ASKED(vaskelbi_edition(m, 0, out), IS(2, 0));
    writing();
}

// What a slot lacks, an identity or a generation, stays as it was.
static void slots(void) {
    MADE(vaskelbi_slot_pending(slot, 7, 40, 9), 7, 40, 1, 9, VASKELBI_PENDING, was.slot.assigned);
    const vaskelbi_slot pending = *slot;
    REFUSED(vaskelbi_slot_assign(slot, 8, 40, 41), 3);
    REFUSED(vaskelbi_slot_assign(slot, 7, 39, 41), 3);
    SLOT(vaskelbi_slot_assign(slot, 7, 40, 41), 7, 40, 1, 9, VASKELBI_ASSIGNED, {7, 40, 41});
    REFUSED(vaskelbi_slot_assign(slot, 7, 40, 41), 3);
    REFUSED(vaskelbi_slot_reject(slot), 3);
    REFUSED(vaskelbi_slot_cancel(slot), 3);

    *slot = pending;
    SLOT(vaskelbi_slot_reject(slot), 7, 40, 1, 9, VASKELBI_FAILED, was.slot.assigned);
    REFUSED(vaskelbi_slot_assign(slot, 7, 40, 41), 3);
    REFUSED(vaskelbi_slot_reject(slot), 3);
    REFUSED(vaskelbi_slot_cancel(slot), 3);

    *slot = pending;
    SLOT(vaskelbi_slot_cancel(slot), 7, 40, 1, 9, VASKELBI_CANCELLED, was.slot.assigned);
    REFUSED(vaskelbi_slot_assign(slot, 7, 40, 41), 3);
    REFUSED(vaskelbi_slot_reject(slot), 3);
    REFUSED(vaskelbi_slot_cancel(slot), 3);

    MADE(vaskelbi_slot_assigned(slot, 8, 50, 51), 8, 50, 0, was.slot.generation, VASKELBI_ASSIGNED, {8, 50, 51});
    REFUSED(vaskelbi_slot_assign(slot, 8, 50, 51), 3);
    REFUSED(vaskelbi_slot_reject(slot), 3);
    REFUSED(vaskelbi_slot_cancel(slot), 3);
}

int main(void) {
    fill(&all, sizeof all);
    opening();
    resolving();
    registering();
    listing();
    asking();
    calling();
    offering();
    retiring();
    full();
    last_id();
    own_anchor();
    long_lists();
    exhausted();
    planning();
    refusing_sets();
    checking();
    starting();
    editions();
    example();
    loading();
    loading_editions();
    slots();
    printf("%u calls answered as they must, and wrote nowhere else\n", calls);
    return 0;
}
