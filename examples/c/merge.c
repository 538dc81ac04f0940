/* Two authors edit one text at the same time, exchange what they made, and one undoes the other's edit. Then the history
 * is saved, and opened again by a third one. The first one keeps a file of records, to which it appends each record that
 * it makes or takes; the last one is torn off, as in a crash, and the file is opened again without it.
 *
 * tools/c.sh builds and runs this program. */
#include "zedbuf.h"

#include <stdio.h>
#include <stdlib.h>
#include <string.h>

#define ROOM 65536

static const char BASE[] = "The cat sat.\n";
static const uint64_t LIMIT = 1 << 20;

/* Ends the program where a call was refused. */
static zedbuf_answer expect(const char *call, zedbuf_answer answer) {
    if (answer.code != ZEDBUF_DONE) {
        fprintf(stderr, "%s: code %u, numbers %llu %llu %llu\n", call, answer.code, (unsigned long long)answer.first,
                (unsigned long long)answer.second, (unsigned long long)answer.third);
        exit(1);
    }
    return answer;
}

static void open_over_base(zedbuf_buffer *author, uint16_t replica) {
    expect("open", zedbuf_open(author, replica, (const uint8_t *)BASE, strlen(BASE), LIMIT, LIMIT, 0));
}

/* Puts a text in the place of the bytes from start to end, and returns the stamp of the edit. */
static zedbuf_stamp replace(zedbuf_buffer *author, uint64_t start, uint64_t end, const char *text) {
    zedbuf_change change = {start, end, strlen(text)};
    zedbuf_answer answer = expect("edit", zedbuf_edit(author, &change, 1, (const uint8_t *)text, strlen(text)));
    return (zedbuf_stamp){(uint32_t)answer.first, (uint16_t)answer.second};
}

/* Sends what an author made last to another one, and appends it to the file. */
static void send_last(zedbuf_buffer *from, zedbuf_buffer *to, FILE *file) {
    static uint8_t record[ROOM];
    zedbuf_answer answer = expect("record", zedbuf_record(from, record, sizeof record));
    expect("take", zedbuf_take(to, record, answer.first));
    fwrite(record, 1, answer.first, file);
}

/* Prints the text of an author, and where an anchor is in it. */
static void show(const char *name, zedbuf_buffer *author, const zedbuf_anchor *anchor) {
    static uint8_t text[ROOM];
    zedbuf_snapshot now = {0};
    expect("snapshot", zedbuf_snapshot_of(author, &now));
    uint64_t length = expect("length", zedbuf_length(&now)).first;
    expect("text", zedbuf_text(&now, 0, length, text, sizeof text));
    uint64_t place = expect("resolve", zedbuf_resolve(&now, anchor)).first;
    printf("%s at %llu: %.*s", name, (unsigned long long)place, (int)length, (const char *)text);
    zedbuf_release(&now);
}

/* Prints what changed in the text of an author since a version. */
static void show_changes(const char *name, zedbuf_buffer *author, const zedbuf_seen *version, size_t entries) {
    zedbuf_snapshot now = {0};
    zedbuf_text_change changes[16];
    expect("snapshot", zedbuf_snapshot_of(author, &now));
    zedbuf_answer answer = expect("edits", zedbuf_edits_since(&now, version, entries, changes, 16));
    for (uint64_t i = 0; i < answer.first; i++) {
        printf("%s: %llu..%llu is now %llu..%llu\n", name, (unsigned long long)changes[i].old_start,
               (unsigned long long)changes[i].old_end, (unsigned long long)changes[i].new_start,
               (unsigned long long)changes[i].new_end);
    }
    zedbuf_release(&now);
}

/* An anchor that keeps to the byte after an offset of an author's text. */
static zedbuf_anchor anchor_at(zedbuf_buffer *author, uint64_t offset) {
    zedbuf_snapshot now = {0};
    zedbuf_anchor anchor;
    expect("snapshot", zedbuf_snapshot_of(author, &now));
    expect("anchor", zedbuf_anchor_at(&now, offset, 1, &anchor));
    zedbuf_release(&now);
    return anchor;
}

/* Opens what an author has applied, as another replica. */
static void reopen_as(zedbuf_buffer *author, uint16_t replica, zedbuf_buffer *into) {
    static uint8_t records[ROOM];
    const zedbuf_seen nothing[1] = {{0, 0}};
    zedbuf_answer saved = expect("records", zedbuf_records_since(author, nothing, 0, records, sizeof records));
    expect("reopen", zedbuf_reopen(into, replica, records, saved.first, LIMIT, LIMIT, 0));
}

/* Starts a file of records with all that an author has applied. */
static FILE *save(zedbuf_buffer *author) {
    static uint8_t records[ROOM];
    const zedbuf_seen nothing[1] = {{0, 0}};
    zedbuf_answer saved = expect("records", zedbuf_records_since(author, nothing, 0, records, sizeof records));
    FILE *file = tmpfile();
    if (file == NULL || fwrite(records, 1, saved.first, file) != saved.first) {
        exit(1);
    }
    return file;
}

/* Opens a file of records whose last bytes are torn off: what is cut off begins where the answer says. */
static void reopen_torn(FILE *file, size_t torn, uint16_t replica, zedbuf_buffer *into) {
    static uint8_t records[ROOM];
    rewind(file);
    size_t length = fread(records, 1, sizeof records, file) - torn;
    zedbuf_answer answer = zedbuf_reopen(into, replica, records, length, LIMIT, LIMIT, 0);
    if (answer.code == ZEDBUF_NO_RECORD) {
        printf("a record is cut off at byte %llu of %zu\n", (unsigned long long)answer.first, length);
        answer = zedbuf_reopen(into, replica, records, answer.first, LIMIT, LIMIT, 0);
    }
    expect("reopen", answer);
}

int main(void) {
    zedbuf_buffer ann = {0}, ben = {0}, cleo = {0}, dan = {0};
    zedbuf_seen before[8];
    open_over_base(&ann, 1);
    open_over_base(&ben, 2);
    FILE *file = save(&ann);
    zedbuf_anchor sat = anchor_at(&ann, 8);

    zedbuf_stamp dog = replace(&ann, 4, 7, "dog");
    replace(&ben, 0, 0, "Look: ");
    size_t entries = expect("version", zedbuf_version(&ann, before, 8)).first;
    send_last(&ann, &ben, file);
    send_last(&ben, &ann, file);
    show("ann", &ann, &sat);
    show("ben", &ben, &sat);
    show_changes("ann", &ann, before, entries);

    expect("undo", zedbuf_undo(&ben, &dog, 1));
    send_last(&ben, &ann, file);
    show("ann", &ann, &sat);

    reopen_as(&ann, 3, &cleo);
    replace(&cleo, 18, 19, "!\n");
    show("cleo", &cleo, &sat);

    reopen_torn(file, 2, 4, &dan);
    show("dan", &dan, &sat);
    fclose(file);

    zedbuf_close(&ann);
    zedbuf_close(&ben);
    zedbuf_close(&cleo);
    zedbuf_close(&dan);
    return 0;
}
