/* Vaskelbi: a plugin registry whose every operation is proved, for a host in C11 or C++. Link libvaskelbi.a.
 *
 * Registry, answer, slot and lists lie in the caller's memory. No function allocates, locks, keeps a pointer or calls back.
 *
 * A function that can refuse answers a status: 0 if it accepts, else the refusal's number. The checks run in the order that
 * stands with each function, and the first that holds refuses. A refusal changes nothing: not the registry, not `out`, not a
 * lent buffer. Only a refused replacement also answers the offered payload. An acceptance writes to `out` how many numbers
 * it answers, and the numbers; what stands behind them stays. None is count 0. Yes is the number 1, and no is 0.
 *
 * What the caller owes, and nothing checks:
 *   - no pointer is null, not even that of a list of length 0;
 *   - each is aligned to 8 bytes, but for that of a text's bytes, and has the room that its type or length says;
 *   - what a call may write overlaps nothing else that the call is given;
 *   - while a call runs, no other thread writes what it may read, or reads what it may write;
 *   - a registry is opened before its first use, a slot is made Pending or Assigned, and only these functions write to them;
 *   - a registry's copy has the same domain, so tickets for one would be good for the other: use one of them only. */
#ifndef VASKELBI_H
#define VASKELBI_H

#include <assert.h>
#include <stddef.h>
#include <stdint.h>

#ifdef __cplusplus
extern "C" {
#endif

enum {
    VASKELBI_WORDS = 4488,         /* of a registry */
    VASKELBI_PLUGINS = 32,         /* registered at once */
    VASKELBI_ROWS = 1024,          /* declaration rows of all plugins together */
    VASKELBI_REALM_ROWS = 16,      /* of a realm list */
    VASKELBI_DEPENDENCY_KEYS = 16, /* declared by one plugin */
    VASKELBI_PROVISION_KEYS = 15,  /* declared by one plugin */
    VASKELBI_DEPENDENCIES = 48,    /* of a finished dependency list */
    VASKELBI_ROOM = 96,            /* numbers, room for any list of a plugin */
    VASKELBI_TEXT_ROOM = 131072    /* bytes, more than any registry's text has */
};

enum vaskelbi_refusal {
    VASKELBI_ACCEPTED = 0,
    VASKELBI_UNKNOWN = 1,              /* id not registered; in child retirement, never issued */
    VASKELBI_RETIRED = 2,              /* plugin or parent is retired */
    VASKELBI_INVALID_STATE = 3,        /* foreign domain, wrong kind, parent or phase, root already issued, slot decided */
    VASKELBI_BAD_REALMS = 4,           /* realm list of odd length, over 16 rows, or keys not strictly rising */
    VASKELBI_TOO_MANY_KEYS = 5,        /* over 16 dependency or over 15 provision keys */
    VASKELBI_DUPLICATE_DEPENDENCY = 6, /* two declared dependencies resolve alike */
    VASKELBI_DUPLICATE_PROVISION = 7,  /* the same among provisions with the anchor */
    VASKELBI_TAKEN = 8,                /* one of those is provided by a registered plugin, anchors counted */
    VASKELBI_NO_ID = 9,                /* next id is 2^64 - 1 */
    VASKELBI_FULL = 10,                /* 32 plugins registered */
    VASKELBI_TOO_LONG = 11,            /* finished dependency list over 48 ports */
    VASKELBI_NO_ROWS = 12,             /* rows in use + rows needed > 1,024 */
    VASKELBI_STALE = 13,               /* ticket or invocation is not the live one */
    VASKELBI_UNAVAILABLE = 14,         /* a dependency has no Active provider */
    VASKELBI_IN_USE = 15,              /* a Loading or Active plugin depends on one of its provisions or its anchor */
    VASKELBI_EXHAUSTED = 16,           /* revision or generation is 2^64 - 1 */
    VASKELBI_NOT_RUN = 17,             /* root not Spent */
    VASKELBI_HAS_CHILDREN = 18,        /* a registered plugin names it as parent */
    VASKELBI_CLOSED = 19,              /* wrong phase for values */
    VASKELBI_UNDECLARED = 20,          /* port not in the list concerned */
    VASKELBI_DUPLICATE = 21,           /* value already offered */
    VASKELBI_MISSING = 22,             /* value absent */
    VASKELBI_SHORT_BUFFER = 23,        /* lent room too small */
    VASKELBI_BAD_TEXT = 24,            /* no text of the form, or one that breaks a condition */
    VASKELBI_SAME_DOMAIN = 25,         /* the domain that the text has */
    VASKELBI_BAD_EDITION = 26,         /* another edition of the realm rule than 1 and 2, or a list without edition and default */
    VASKELBI_REPEATED = 27             /* an id stands twice in a set */
};

enum { VASKELBI_IDLE = 0, VASKELBI_LOADING = 1, VASKELBI_ACTIVE = 2, VASKELBI_UNLOADING = 3 };   /* phases */
enum { VASKELBI_UNISSUED = 0, VASKELBI_QUEUED = 1, VASKELBI_SPENT = 2 };                         /* roots */
enum { VASKELBI_PENDING = 0, VASKELBI_ASSIGNED = 1, VASKELBI_FAILED = 2, VASKELBI_CANCELLED = 3 }; /* decisions */
enum { VASKELBI_SETUP = 1 };                                                                     /* a ticket's kind */
enum { VASKELBI_FIRST_EDITION = 1, VASKELBI_SECOND_EDITION = 2 };                                /* of the realm rule */

/* A registry. What its words mean is the functions' own. */
typedef struct { uint64_t word[VASKELBI_WORDS]; } vaskelbi_registry;

typedef struct { uint64_t key, realm; } vaskelbi_port;
typedef struct { uint64_t domain, id, generation, kind; } vaskelbi_ticket;
typedef struct { uint64_t domain, id, generation, revision, argument; } vaskelbi_invocation;
typedef struct { uint64_t domain, id, generation, request, payload, argument; } vaskelbi_receipt;
typedef struct { uint64_t domain, parent, id; } vaskelbi_identity;
typedef struct { uint64_t value, provider; } vaskelbi_reading;
typedef struct { uint64_t state, revision, argument; } vaskelbi_issue; /* the last two only if Queued */
typedef struct { uint64_t edition, default_realm; } vaskelbi_rule;     /* default 0 in edition 1 */

/* A realm list, with its edition and default realm. A key gets the realm of its row. Any other key gets realm 0 in edition 1, and
 * the default realm in edition 2; edition 1 ignores the default, which is kept as 0. Keys rise strictly from row to row.
 * The list is handed over with its length in numbers, and no number behind is read. So an array of edition, default, key, realm,
 * key, realm can be handed over too, by a cast. Numbers without edition and default in front would mean another list. */
typedef struct {
    uint64_t edition, default_realm;
    vaskelbi_port rows[VASKELBI_REALM_ROWS];
} vaskelbi_realms;

/* The length of a realm list with so many rows, in numbers. */
#define VASKELBI_REALM_NUMBERS(rows) (2 + 2 * (size_t)(rows))

/* An answer: how many numbers, and the numbers, by their places or by the names of what is answered. */
typedef struct {
    uint64_t count;
    union {
        uint64_t number[6];
        vaskelbi_port port;
        vaskelbi_ticket ticket;
        vaskelbi_invocation invocation;
        vaskelbi_receipt receipt;
        vaskelbi_identity identity;
        vaskelbi_reading reading;
        vaskelbi_issue root;
        vaskelbi_rule rule;
    };
} vaskelbi_answer;

/* A child slot: its origin and its decision. What a slot lacks is not written: those words stay as they were. */
typedef struct {
    uint64_t domain, parent;
    uint64_t has_generation, generation; /* 0 if made Assigned; else 1, and the generation */
    uint64_t decision;
    vaskelbi_identity assigned; /* only if Assigned */
} vaskelbi_slot;

static_assert(sizeof(vaskelbi_registry) == 8 * 4488, "a registry is 4488 words");
static_assert(sizeof(vaskelbi_answer) == 8 * 7, "an answer is seven words");
static_assert(sizeof(vaskelbi_slot) == 8 * 8, "a slot is eight words");
static_assert(sizeof(vaskelbi_realms) == 8 * VASKELBI_REALM_NUMBERS(VASKELBI_REALM_ROWS), "a realm list has no gaps");
static_assert(sizeof(size_t) == 8, "lengths and places are 64-bit");

/* A fresh registry, whatever the words held before: its domain, and its first id, which is also its next id. */
void vaskelbi_open(vaskelbi_registry *registry, uint64_t domain, uint64_t first);

/* What the registry holds as a whole: its domain, first id, next id, how many plugins are registered, rows in use. */
uint64_t vaskelbi_domain(const vaskelbi_registry *registry);
uint64_t vaskelbi_first(const vaskelbi_registry *registry);
uint64_t vaskelbi_next(const vaskelbi_registry *registry);
uint64_t vaskelbi_count(const vaskelbi_registry *registry);
uint64_t vaskelbi_rows(const vaskelbi_registry *registry);

/* Ports and realms. `realms_len` counts numbers. */

/* The port that a key resolves to by a realm list. Refuses 26, 4. Answers `port`. */
uint64_t vaskelbi_resolve(const vaskelbi_realms *realms, size_t realms_len, uint64_t key, vaskelbi_answer *out);

/* Registration. `key` and `realm` are the anchor's; dependencies and provisions are keys. The plugin keeps edition and default. */

/* Registers a plugin without a parent. Refuses 26, 4, 5, 6, 7, 8, 9, 10, 11, 12. Answers the new id. */
uint64_t vaskelbi_register(vaskelbi_registry *registry, uint64_t key, uint64_t realm, uint64_t payload,
                           const vaskelbi_realms *realms, size_t realms_len, const uint64_t *dependencies, size_t dependencies_len,
                           const uint64_t *provisions, size_t provisions_len, vaskelbi_answer *out);

/* Registers a plugin under a parent, whose dependencies it inherits, as they are and resolved again by its own realm list, but for
 * its own provisions and anchor. Refuses 26, 4, 5, 1 and 2 of the parent, 3 if the parent is Unloading, 6, 7, 8, 9, 10, 11, 12.
 * Answers the new id. */
uint64_t vaskelbi_register_child(vaskelbi_registry *registry, uint64_t parent, uint64_t key, uint64_t realm, uint64_t payload,
                                 const vaskelbi_realms *realms, size_t realms_len, const uint64_t *dependencies,
                                 size_t dependencies_len, const uint64_t *provisions, size_t provisions_len, vaskelbi_answer *out);

/* Phases. */

/* Idle to Loading: generation + 1, root Unissued. Refuses 1, 2, 3 by phase, 16, 14. Answers `ticket`, of kind Setup. */
uint64_t vaskelbi_begin(vaskelbi_registry *registry, uint64_t id, vaskelbi_answer *out);

/* Loading to Active. Refuses 1, 2, 3 by phase, 17, 22 if a provision has no value. */
uint64_t vaskelbi_ready(vaskelbi_registry *registry, uint64_t id);

/* Loading to Unloading. Refuses 1, 3 by phase. */
uint64_t vaskelbi_fail(vaskelbi_registry *registry, uint64_t id);

/* Active to Unloading. Refuses 1, 3 by phase, 15. */
uint64_t vaskelbi_unload(vaskelbi_registry *registry, uint64_t id);

/* Unloading to Idle: values are dropped, root is Unissued. Refuses 1, 3 by phase. */
uint64_t vaskelbi_finish(vaskelbi_registry *registry, uint64_t id);

/* Replacement. */

/* Stores a payload, revision + 1, in any phase, retired or not. Refuses 1, 16, and then also answers the offered payload.
 * Answers the former payload. */
uint64_t vaskelbi_replace(vaskelbi_registry *registry, uint64_t id, uint64_t payload, vaskelbi_answer *out);

/* Whether a count of replacements fits: revision + count is at most 2^64 - 1. Refuses 1. Answers yes or no. */
uint64_t vaskelbi_fits(const vaskelbi_registry *registry, uint64_t id, uint64_t count, vaskelbi_answer *out);

/* Admission and call. */

/* Admits a ticket's setup; root becomes Queued. Refuses 3 by domain or kind, 1, 2, 13 if not Loading or of another
 * generation, 3 if root isn't Unissued. Answers `invocation`. */
uint64_t vaskelbi_admit(vaskelbi_registry *registry, uint64_t domain, uint64_t id, uint64_t generation, uint64_t kind,
                        uint64_t argument, vaskelbi_answer *out);

/* Whether a ticket would be admitted now. Refuses nothing. Answers yes or no. */
uint64_t vaskelbi_admits(const vaskelbi_registry *registry, uint64_t domain, uint64_t id, uint64_t generation, uint64_t kind,
                         vaskelbi_answer *out);

/* Calls what was admitted, once; root becomes Spent. Refuses 3 by domain, 1, 2, 13 unless Loading, Queued, and generation,
 * current revision, queued revision and argument all agree. Answers `receipt`: only its payload may run, on its argument. */
uint64_t vaskelbi_call(vaskelbi_registry *registry, uint64_t domain, uint64_t id, uint64_t generation, uint64_t revision,
                       uint64_t argument, vaskelbi_answer *out);

/* Retirement. */

/* Sets the retired mark. Refuses 1, 2. */
uint64_t vaskelbi_retire(vaskelbi_registry *registry, uint64_t id);

/* Retires by child identity. Refuses 3 by domain, 1 if the id was never issued; a plugin that is gone is accepted and nothing
 * changes; refuses 3 if its parent is another or none, 2. */
uint64_t vaskelbi_retire_child(vaskelbi_registry *registry, uint64_t domain, uint64_t parent, uint64_t id);

/* A plugin's child identity. Refuses 1. Answers `identity`, or none without a parent. */
uint64_t vaskelbi_child(const vaskelbi_registry *registry, uint64_t id, vaskelbi_answer *out);

/* Removes a plugin and frees its rows. Refuses 1, 3 unless Idle and retired, 18. */
uint64_t vaskelbi_remove(vaskelbi_registry *registry, uint64_t id);

/* Values. `key` and `realm` are a port's. */

/* Offers the value of a provision. Refuses 1, 19 unless Loading and not retired, 20 if not a provision, 21. */
uint64_t vaskelbi_offer(vaskelbi_registry *registry, uint64_t id, uint64_t key, uint64_t realm, uint64_t value);

/* Reads a dependency's value. Refuses 1, 19 if neither Loading nor Active, 20 if not a dependency, 22. Answers `reading`. */
uint64_t vaskelbi_read(const vaskelbi_registry *registry, uint64_t id, uint64_t key, uint64_t realm, vaskelbi_answer *out);

/* The Active provider's value of a port. Refuses nothing. Answers the value, or none. */
uint64_t vaskelbi_visible(const vaskelbi_registry *registry, uint64_t key, uint64_t realm, vaskelbi_answer *out);

/* A plugin's own value of a provision. Refuses 1. Answers the value, or none. */
uint64_t vaskelbi_own(const vaskelbi_registry *registry, uint64_t id, uint64_t key, uint64_t realm, vaskelbi_answer *out);

/* The first provision in order without a value. Refuses 1. Answers `port`, or none. */
uint64_t vaskelbi_missing(const vaskelbi_registry *registry, uint64_t id, vaskelbi_answer *out);

/* Whether a list of key, realm pairs is the provision list in order. Refuses 1. Answers yes or no; no to an odd length. */
uint64_t vaskelbi_matches(const vaskelbi_registry *registry, uint64_t id, const uint64_t *list, size_t list_len,
                          vaskelbi_answer *out);

/* Whether a port is a provision, or a dependency while Loading or Active. Refuses 1. Answers yes or no. */
uint64_t vaskelbi_declares(const vaskelbi_registry *registry, uint64_t id, uint64_t key, uint64_t realm, vaskelbi_answer *out);

/* Lists. */

/* The first dependency with a key. Refuses 1. Answers `port`, or none. */
uint64_t vaskelbi_lookup(const vaskelbi_registry *registry, uint64_t id, uint64_t key, vaskelbi_answer *out);

/* A plugin's list as key, realm, key, realm from a place in the lent buffer; every number outside stays. Of its realm list these
 * are the rows alone. Refuses 1, 23 if the place is past the end or too few numbers stand from it to the end. Answers the count
 * of pairs. */
uint64_t vaskelbi_list_dependencies(const vaskelbi_registry *registry, uint64_t id, size_t place, uint64_t *buffer,
                                    size_t buffer_len, vaskelbi_answer *out);
uint64_t vaskelbi_list_provisions(const vaskelbi_registry *registry, uint64_t id, size_t place, uint64_t *buffer,
                                  size_t buffer_len, vaskelbi_answer *out);
uint64_t vaskelbi_list_realms(const vaskelbi_registry *registry, uint64_t id, size_t place, uint64_t *buffer,
                              size_t buffer_len, vaskelbi_answer *out);

/* Text. */

/* The registry as text: a line of bytes `name=value` for each thing it holds, ended by byte 10, numbers decimal, plugins by rising
 * id. The text fills the front of the lent bytes, and every byte behind it stays; no byte 0 ends it. Refuses 23 if there are fewer
 * bytes than the text has, and then writes none. Answers the text's length. */
uint64_t vaskelbi_write_text(const vaskelbi_registry *registry, uint8_t *text, size_t text_len, vaskelbi_answer *out);

/* Reads a text back: the registry that it says, under a domain of the caller's, takes the place of what the words were. Queued roots
 * are Unissued then, and everything else is as the text says; a text may be any bytes. Refuses 24 if it is no text of a registry, 25
 * if the domain is the text's. A load counts as an opening, and works on 40 KB of stack. */
uint64_t vaskelbi_load(vaskelbi_registry *registry, uint64_t domain, const uint8_t *text, size_t text_len);

/* Start orders. A set is a list of ids of Idle plugins that are to begin one after another, each Active before the next begins. An
 * order passes if it names the set's ids, each once, and every dependency of each is provided by a plugin that is Active now or by
 * one earlier in the order. The set's ids are checked one by one in list order: 27 if the id stands earlier in the list, 1, 2, 3
 * unless Idle, 16 if its generation is 2^64 - 1. */

/* Plans the passing order that has the lowest id at the first place where two differ. It fills the front of the lent buffer, and
 * every number behind it stays; none writes nothing. Refuses by the set's checks, then 23 if the buffer has fewer numbers than the
 * set; VASKELBI_PLUGINS are enough for any. Answers the count of ids, or none if no order passes. The empty set has the count 0,
 * which is a number and not none. */
uint64_t vaskelbi_plan_order(const vaskelbi_registry *registry, const uint64_t *set, size_t set_len, uint64_t *buffer,
                             size_t buffer_len, vaskelbi_answer *out);

/* Whether an order passes; any ids may stand in it. Refuses by the set's checks. Answers yes or no. */
uint64_t vaskelbi_check_order(const vaskelbi_registry *registry, const uint64_t *set, size_t set_len, const uint64_t *order,
                              size_t order_len, vaskelbi_answer *out);

/* What a plugin holds. Each refuses 1. */

/* Answers the parent's id, or none. */
uint64_t vaskelbi_parent(const vaskelbi_registry *registry, uint64_t id, vaskelbi_answer *out);

/* Answers `port`. */
uint64_t vaskelbi_anchor(const vaskelbi_registry *registry, uint64_t id, vaskelbi_answer *out);

/* Answers `rule`: the edition, 1 or 2, and the default realm, 0 in edition 1. */
uint64_t vaskelbi_edition(const vaskelbi_registry *registry, uint64_t id, vaskelbi_answer *out);

/* Answers the number of the phase. */
uint64_t vaskelbi_phase(const vaskelbi_registry *registry, uint64_t id, vaskelbi_answer *out);

/* Answers yes or no. */
uint64_t vaskelbi_retired(const vaskelbi_registry *registry, uint64_t id, vaskelbi_answer *out);

/* Each answers the number. */
uint64_t vaskelbi_generation(const vaskelbi_registry *registry, uint64_t id, vaskelbi_answer *out);
uint64_t vaskelbi_revision(const vaskelbi_registry *registry, uint64_t id, vaskelbi_answer *out);
uint64_t vaskelbi_payload(const vaskelbi_registry *registry, uint64_t id, vaskelbi_answer *out);

/* Answers `root`: three numbers if Queued, else the state alone. */
uint64_t vaskelbi_root(const vaskelbi_registry *registry, uint64_t id, vaskelbi_answer *out);

/* The lowest registered id at or above a number: asked from 0 and then from the id after, all plugins by rising id. Refuses
   nothing. Answers the id, or none. */
uint64_t vaskelbi_id_from(const vaskelbi_registry *registry, uint64_t number, vaskelbi_answer *out);

/* Child slots. They belong to no registry, and a decision never changes. */

/* Makes a slot Pending, from a domain, parent and generation. */
void vaskelbi_slot_pending(vaskelbi_slot *slot, uint64_t domain, uint64_t parent, uint64_t generation);

/* Makes a slot Assigned, from a child identity, with its domain and parent and no generation. */
void vaskelbi_slot_assigned(vaskelbi_slot *slot, uint64_t domain, uint64_t parent, uint64_t id);

/* Pending to Assigned. Refuses 3 unless Pending and domain and parent agree. */
uint64_t vaskelbi_slot_assign(vaskelbi_slot *slot, uint64_t domain, uint64_t parent, uint64_t id);

/* Pending to Failed. Refuses 3 unless Pending. */
uint64_t vaskelbi_slot_reject(vaskelbi_slot *slot);

/* Pending to Cancelled. Refuses 3 unless Pending. */
uint64_t vaskelbi_slot_cancel(vaskelbi_slot *slot);

#ifdef __cplusplus
}
#endif
#endif
