/* Each call while each of its allocations fails in turn, alone and with all that follow it: the answer says so, what the
 * call was to change is as before, and the same call succeeds afterwards.
 *
 * tools/c.sh --hard builds this program with malloc and realloc in the place of those of the C library. */
#include "zedbuf.h"

#include <stdio.h>
#include <stdlib.h>
#include <string.h>

/* How many allocations succeed before one fails; below 0 none fails. */
static long left = -1;

/* Whether those after the one that fails fail too. */
static int all_fail;

void *__real_malloc(size_t size);
void *__real_realloc(void *at, size_t size);

static int fails(void) {
    if (left < 0) {
        return 0;
    }
    if (left > 0) {
        left--;
        return 0;
    }
    if (!all_fail) {
        left = -1;
    }
    return 1;
}

void *__wrap_malloc(size_t size) { return fails() ? NULL : __real_malloc(size); }

void *__wrap_realloc(void *at, size_t size) { return fails() ? NULL : __real_realloc(at, size); }

static const char BASE[] = "The cat sat.\n";

#define LIMIT (1 << 20)
#define ROOM 1024

/* Two authors. One has made an edit, and an operation of the other one, whose cause has not come, waits with it. */
struct world {
    zedbuf_buffer ann, ben, cleo;
    zedbuf_snapshot now, other;
    zedbuf_stamp dog, late;
    uint8_t first[ROOM], second[ROOM], saved[ROOM];
    size_t first_len, second_len, saved_len;
};

static const zedbuf_seen NOTHING[1] = {{0, 0}}, BASE_ALONE[1] = {{0, 1}};

static uint8_t room[ROOM];

/* ---- the calls */

static zedbuf_answer open_one(zedbuf_buffer *into, uint16_t replica) {
    return zedbuf_open(into, replica, (const uint8_t *)BASE, strlen(BASE), LIMIT, LIMIT, 0);
}

static zedbuf_answer edit(zedbuf_buffer *author, uint64_t start, uint64_t end, const char *text) {
    zedbuf_change change = {start, end, strlen(text)};
    return zedbuf_edit(author, &change, 1, (const uint8_t *)text, strlen(text));
}

static zedbuf_answer call_open(struct world *w) { return open_one(&w->cleo, 3); }

static zedbuf_answer call_open_lf(struct world *w) {
    return zedbuf_open(&w->cleo, 3, (const uint8_t *)"a\r\nb\r", 5, LIMIT, LIMIT, 1);
}

static zedbuf_answer call_reopen(struct world *w) {
    return zedbuf_reopen(&w->cleo, 3, w->saved, w->saved_len, LIMIT, LIMIT, 0);
}

static zedbuf_answer call_edit(struct world *w) { return edit(&w->ann, 8, 11, "slept"); }

static zedbuf_answer call_undo(struct world *w) { return zedbuf_undo(&w->ann, &w->dog, 1); }

static zedbuf_answer call_take(struct world *w) { return zedbuf_take(&w->ann, w->first, w->first_len); }

static zedbuf_answer call_settle(struct world *w) { return zedbuf_settle(&w->ann); }

static zedbuf_answer call_forget(struct world *w) { return zedbuf_forget(&w->ann, &w->late); }

static zedbuf_answer call_record(struct world *w) { return zedbuf_record(&w->ann, room, ROOM); }

static zedbuf_answer call_version(struct world *w) {
    static zedbuf_seen into[8];
    return zedbuf_version(&w->ann, into, 8);
}

static zedbuf_answer call_waiting(struct world *w) {
    static zedbuf_stamp into[8];
    return zedbuf_waiting(&w->ann, into, 8);
}

static zedbuf_answer call_refused(struct world *w) {
    static zedbuf_refusal into[8];
    return zedbuf_refused(&w->ann, into, 8);
}

static zedbuf_answer call_records_since(struct world *w) {
    return zedbuf_records_since(&w->ann, BASE_ALONE, 1, room, ROOM);
}

static zedbuf_answer call_snapshot_of(struct world *w) { return zedbuf_snapshot_of(&w->ann, &w->other); }

static zedbuf_answer call_share(struct world *w) { return zedbuf_share(&w->now, &w->other); }

static zedbuf_answer call_length(struct world *w) { return zedbuf_length(&w->now); }

static zedbuf_answer call_text(struct world *w) { return zedbuf_text(&w->now, 4, 11, room, ROOM); }

static zedbuf_answer call_text_at(struct world *w) { return zedbuf_text_at(&w->now, BASE_ALONE, 1, room, ROOM); }

static zedbuf_answer call_edits_since(struct world *w) {
    static zedbuf_text_change into[8];
    return zedbuf_edits_since(&w->now, BASE_ALONE, 1, into, 8);
}

static zedbuf_answer call_find(struct world *w) {
    static uint64_t into[8];
    return zedbuf_find(&w->now, (const uint8_t *)"o", 1, into, 8);
}

static zedbuf_answer call_position_at(struct world *w) {
    zedbuf_position into;
    return zedbuf_position_at(&w->now, ZEDBUF_KIND_POINT_UTF16, 0, 3, &into);
}

static zedbuf_answer call_anchors(struct world *w) {
    zedbuf_anchor anchor;
    zedbuf_answer answer = zedbuf_anchor_at(&w->now, 8, 1, &anchor);
    if (answer.code != ZEDBUF_DONE || zedbuf_resolve(&w->now, &anchor).first != 8) {
        return answer;
    }
    return zedbuf_compare(&w->now, &anchor, &anchor);
}

/* A call, and the text of the first author after it. */
struct row {
    const char *name;
    zedbuf_answer (*call)(struct world *);
    const char *after;
};

#define UNCHANGED "The dog sat.\n"

static const struct row ROWS[] = {
    {"open", call_open, UNCHANGED},
    {"open with LFs alone", call_open_lf, UNCHANGED},
    {"reopen", call_reopen, UNCHANGED},
    {"edit", call_edit, "The dog slept.\n"},
    {"undo", call_undo, BASE},
    {"take", call_take, "Look! The dog sat.\n"},
    {"settle", call_settle, UNCHANGED},
    {"forget", call_forget, UNCHANGED},
    {"record", call_record, UNCHANGED},
    {"version", call_version, UNCHANGED},
    {"waiting", call_waiting, UNCHANGED},
    {"refused", call_refused, UNCHANGED},
    {"records since", call_records_since, UNCHANGED},
    {"snapshot of", call_snapshot_of, UNCHANGED},
    {"share", call_share, UNCHANGED},
    {"length", call_length, UNCHANGED},
    {"text", call_text, UNCHANGED},
    {"text at", call_text_at, UNCHANGED},
    {"edits since", call_edits_since, UNCHANGED},
    {"find", call_find, UNCHANGED},
    {"position at", call_position_at, UNCHANGED},
    {"anchors", call_anchors, UNCHANGED},
};

/* ---- what is tried */

static zedbuf_stamp stamp_of(zedbuf_answer answer) {
    return (zedbuf_stamp){(uint32_t)answer.first, (uint16_t)answer.second};
}

/* The world before each call; the room is filled, so that it is seen that all of it is written. */
static int set_up(struct world *w) {
    memset(w, 0, sizeof *w);
    memset(room, 0xa5, sizeof room);
    int good = open_one(&w->ann, 1).code == 0 && open_one(&w->ben, 2).code == 0;
    w->dog = stamp_of(edit(&w->ann, 4, 7, "dog"));
    good &= edit(&w->ben, 0, 0, "Look ").code == 0;
    w->first_len = zedbuf_record(&w->ben, w->first, ROOM).first;
    w->late = stamp_of(edit(&w->ben, 4, 4, "!"));
    w->second_len = zedbuf_record(&w->ben, w->second, ROOM).first;
    good &= zedbuf_take(&w->ann, w->second, w->second_len).second == 1;
    w->saved_len = zedbuf_records_since(&w->ann, NOTHING, 0, w->saved, ROOM).first;
    return good && zedbuf_snapshot_of(&w->ann, &w->now).code == 0;
}

static void clear(struct world *w) {
    zedbuf_close(&w->ann);
    zedbuf_close(&w->ben);
    zedbuf_close(&w->cleo);
    zedbuf_release(&w->now);
    zedbuf_release(&w->other);
}

static int is_text(zedbuf_buffer *author, const char *wanted) {
    uint8_t text[256];
    zedbuf_snapshot now = {0};
    if (zedbuf_snapshot_of(author, &now).code != ZEDBUF_DONE) {
        return 0;
    }
    uint64_t length = zedbuf_length(&now).first;
    zedbuf_text(&now, 0, length, text, sizeof text);
    zedbuf_release(&now);
    return length == strlen(wanted) && memcmp(text, wanted, length) == 0;
}

/* What a call that failed leaves: the text as before, but where records are taken also with a part of them. */
static int is_kept(struct world *w, const struct row *row) {
    return w->cleo.at == NULL && w->other.at == NULL
        && (is_text(&w->ann, UNCHANGED)
            || (row->call == call_take && (is_text(&w->ann, "Look The dog sat.\n") || is_text(&w->ann, row->after))));
}

/* Tries a call with so many allocations. Returns 1 where one failed, 0 where it needed no more, below 0 for a bug. */
static int try_with(const struct row *row, long allowed) {
    static struct world w;
    if (!set_up(&w)) {
        return -1;
    }
    left = allowed;
    zedbuf_answer answer = row->call(&w);
    int unused = left > 0 || (left == 0 && answer.code == ZEDBUF_DONE);
    left = -1;
    int good = answer.code == ZEDBUF_DONE;
    if (answer.code == ZEDBUF_OUT_OF_MEMORY) {
        good = is_kept(&w, row) && row->call(&w).code == ZEDBUF_DONE && zedbuf_settle(&w.ann).code == ZEDBUF_DONE;
    }
    good = good && is_text(&w.ann, row->after);
    clear(&w);
    return !good ? -1 : !unused;
}

int main(void) {
    long tried = 0;
    for (size_t i = 0; i < sizeof ROWS / sizeof ROWS[0]; i++) {
        for (all_fail = 0; all_fail < 2; all_fail++) {
            int failed = 1;
            for (long allowed = 0; failed > 0; allowed++, tried++) {
                failed = try_with(&ROWS[i], allowed);
                if (failed < 0) {
                    printf("%s: a failure of allocation %ld is not kept apart\n", ROWS[i].name, allowed + 1);
                    return 1;
                }
            }
        }
    }
    printf("%ld calls, in which each allocation failed in turn\n", tried);
    return 0;
}
