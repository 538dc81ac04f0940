/* zedbuf.h: a proved text buffer for collaborative editors.
 *
 * tools/c_header.py writes this file from the exported functions and their comments.
 *
 * What a caller owes, which nothing checks:
 *  - a handle is {0}, which is closed, before it is opened for the first time; after that these calls alone change it,
 *    and it is not copied;
 *  - a pointer is not null, also where its length is 0; it has as many bytes or members as its length or room says, and
 *    no other running call has them;
 *  - one call at a time on one handle, from whatever thread; a lock, or the start or the join of a thread, orders the
 *    calls of several threads;
 *  - malloc, realloc and free, which these calls use, are of one allocator.
 *
 * Offsets and lengths are in bytes of UTF-8. No call gives memory that is to be freed: the caller hands in room, and the
 * answer has the whole length; where the room is too small, the front that fits is written. Each call but the closing
 * ones answers a code with up to three numbers. After an answer other than ZEDBUF_DONE the buffer is as before the call,
 * except where its comment says more.
 */
#ifndef ZEDBUF_H
#define ZEDBUF_H

#include <stdbool.h>
#include <stddef.h>
#include <stdint.h>

#ifdef __cplusplus
extern "C" {
#endif

/* What a call came to, without its numbers. */
enum zedbuf_code {
    /* The call did what it says. */
    ZEDBUF_DONE = 0,
    /* The piece first, from 0, starts past its end. */
    ZEDBUF_REVERSED = 1,
    /* The piece first starts before the end of the one before it. */
    ZEDBUF_OVERLAP = 2,
    /* The piece first, or the place, ends past the text's second bytes. */
    ZEDBUF_PAST_END = 3,
    /* The piece first, or the place, starts or ends inside a character. */
    ZEDBUF_INSIDE_CHAR = 4,
    /* The new texts have first bytes together, more than 65,536. */
    ZEDBUF_TEXT_LIMIT = 5,
    /* The clock stands at its end. */
    ZEDBUF_CLOCK_END = 6,
    /* Of bytes (first is 0) or entries (1) second are held, and third more pass the limit. */
    ZEDBUF_FULL = 7,
    /* The stamp first.second is no edit that is applied, or that the operation has seen. */
    ZEDBUF_NO_SUCH_EDIT = 8,
    /* The edit first.second is named twice. */
    ZEDBUF_TWICE = 9,
    /* The undo count of the edit first.second stands at its end. */
    ZEDBUF_COUNT_END = 10,
    /* The stamp, its author or its version is none that a replica makes. */
    ZEDBUF_BAD_STAMP = 11,
    /* The version has not seen the base. */
    ZEDBUF_NO_BASE = 12,
    /* Another operation has the stamp first.second. */
    ZEDBUF_CONFLICT = 13,
    /* The author's operation of value first is applied, and this one has not seen it. */
    ZEDBUF_FORKED = 14,
    /* What the version has of replica first is no operation whose causes it has seen. */
    ZEDBUF_OPEN_VERSION = 15,
    /* The text of the piece first holds a carriage return. */
    ZEDBUF_CARRIAGE = 16,
    /* Of replica first the version has more than is applied. */
    ZEDBUF_UNSEEN = 17,
    /* The first operation is no base. */
    ZEDBUF_NOT_BASE = 18,
    /* The operation index stands in the list before. */
    ZEDBUF_REPEAT = 19,
    /* The operation index has seen first.second, which is not in the list before it. */
    ZEDBUF_EARLY = 20,
    /* An allocation failed. */
    ZEDBUF_OUT_OF_MEMORY = 100,
    /* A text is not UTF-8. */
    ZEDBUF_NOT_UTF8 = 101,
    /* The bytes are no records: the field at byte first is faulty, or the last record is cut
     * off. */
    ZEDBUF_NO_RECORD = 102,
    /* There is too little room: first bytes or members are to be written, and the front that
     * fits is. */
    ZEDBUF_NO_ROOM = 103,
    /* The anchor is not known. */
    ZEDBUF_UNKNOWN = 104,
    /* An argument is out of its range. */
    ZEDBUF_OUT_OF_RANGE = 105,
    /* The handle is closed. */
    ZEDBUF_CLOSED = 106,
    /* The handle is open already. */
    ZEDBUF_OPEN = 107,
    /* The operation has no record: a number of it is first, more than 65,536. */
    ZEDBUF_TOO_LONG = 108,
    /* The text has no such place: it is past the end of the text or of its row, or inside a
     * character. */
    ZEDBUF_NO_PLACE = 109,
};

/* A kind of position, by which a place is named. */
enum zedbuf_kind {
    /* The bytes before the place. */
    ZEDBUF_KIND_OFFSET = 0,
    /* The UTF-16 units before the place. */
    ZEDBUF_KIND_UTF16 = 1,
    /* A row, with a column in bytes. */
    ZEDBUF_KIND_POINT = 2,
    /* A row, with a column in UTF-16 units. */
    ZEDBUF_KIND_POINT_UTF16 = 3,
};

/* A place in a text that keeps to a byte while the text around it changes. It is plain data,
 * which may be stored and sent, and means the same in each buffer of the document. */
typedef struct zedbuf_anchor {
    /* 0 is the start of the text, 1 its end, 2 a byte, which the other numbers name. */
    uint32_t kind;
    /* 0 keeps to the byte before the place, 1 to the byte after it. */
    uint32_t bias;
    /* The value of the stamp of the byte's edit. */
    uint32_t value;
    /* The replica of the stamp of the byte's edit. */
    uint16_t replica;
    /* The place among the bytes of the edit's new texts. */
    uint64_t offset;
} zedbuf_anchor;

/* What a call came to. The numbers of a fault are those of its word in a session, in their
 * order; a stamp is two of them, its value and its replica. What is not said is 0. */
typedef struct zedbuf_answer {
    /* The number of a Code. */
    uint32_t code;
    /* The number of the operation among those that were handed in, from 0, where a saved history
     * is refused for it. */
    uint64_t index;
    /* The first number. */
    uint64_t first;
    /* The second number. */
    uint64_t second;
    /* The third number. */
    uint64_t third;
} zedbuf_answer;

/* A range of a text, and how long the text is that takes its place. */
typedef struct zedbuf_change {
    /* The start of the range, in bytes. */
    uint64_t start;
    /* The end of the range, in bytes, which it does not include. */
    uint64_t end;
    /* The length of the new text, in bytes. */
    uint64_t text_len;
} zedbuf_change;

/* An entry of a version: the greatest stamp value that is seen of a replica. The replicas of a
 * version ascend, and its values are above 0. */
typedef struct zedbuf_seen {
    /* The replica. */
    uint16_t replica;
    /* The greatest value that is seen of it. */
    uint32_t value;
} zedbuf_seen;

/* The name of an operation: the value of its author's clock, and its author. */
typedef struct zedbuf_stamp {
    /* The value of the author's clock. */
    uint32_t value;
    /* The author's replica. */
    uint16_t replica;
} zedbuf_stamp;

/* A range of an old text, and the range of the new text that stands in its place, in bytes. The
 * ends are not included. */
typedef struct zedbuf_text_change {
    /* The start of the range of the old text. */
    uint64_t old_start;
    /* Its end. */
    uint64_t old_end;
    /* The start of the range of the new text. */
    uint64_t new_start;
    /* Its end. */
    uint64_t new_end;
} zedbuf_text_change;

/* A replica on the heap, or nothing, as C holds it: a struct of one pointer, which is null where
 * the handle is closed. What is inside a handle that is dropped while it is open stays on the
 * heap. */
typedef struct zedbuf_buffer {
    void *at;
} zedbuf_buffer;

/* A place in a text, in all kinds of position. */
typedef struct zedbuf_position {
    /* The bytes before the place. */
    uint64_t offset;
    /* The UTF-16 units before the place. */
    uint64_t utf16;
    /* The row, from 0: the LFs before the place. */
    uint64_t row;
    /* The bytes of the row before the place. */
    uint64_t column;
    /* The UTF-16 units of the row before the place. */
    uint64_t column_utf16;
} zedbuf_position;

/* A snapshot on the heap, or nothing, as C holds it: a struct of one pointer, which is null
 * where the handle is closed. What is inside a handle that is dropped while it is open stays on
 * the heap. */
typedef struct zedbuf_snapshot {
    void *at;
} zedbuf_snapshot;

/* An operation that waited and was refused at its turn. */
typedef struct zedbuf_refusal {
    /* The stamp of the operation. */
    zedbuf_stamp stamp;
    /* Why it was refused, against what was applied at its turn. */
    zedbuf_answer why;
} zedbuf_refusal;

/* Opens the buffer of a replica, 1 to 1023, over a base text, in a handle that is closed. The
 * limits are at most 2^40 bytes of new texts, the base's among them, and 2^40 - 1 entries: one
 * for each operation and each piece or count. All replicas of a document are opened over the
 * same base, and with the same endings: with 0 texts enter as they are, with 1 each CR LF and
 * each other CR, of the base and of the new texts of edits, enters as one LF. Linear in the
 * base. */
zedbuf_answer zedbuf_open(
        zedbuf_buffer *buffer,
        uint16_t replica,
        const uint8_t *base,
        size_t base_len,
        uint64_t limit_bytes,
        uint64_t limit_entries,
        uint32_t endings);

/* Opens a saved history in a handle that is closed: the records of all its operations, as
 * zedbuf_records_since writes them for the empty version. The replica, the limits and the
 * endings are as for zedbuf_open. A replica that goes on under its own number opens the newest
 * history that it saved, with all that it ever sent. Where the last record is cut off,
 * ZEDBUF_NO_RECORD has the offset at which it begins, and the records before it may be opened.
 * Each operation costs what it costs to take it. */
zedbuf_answer zedbuf_reopen(
        zedbuf_buffer *buffer,
        uint16_t replica,
        const uint8_t *records,
        size_t records_len,
        uint64_t limit_bytes,
        uint64_t limit_entries,
        uint32_t endings);

/* Closes a buffer, and frees all that it holds; snapshots of it stay. A handle that is closed
 * stays so. */
void zedbuf_close(zedbuf_buffer *buffer);

/* Replaces ranges of the text, in bytes and in order: each starts at or past the end of the one
 * before it. The new texts stand in a row. The answer has the stamp of the edit, its value and
 * its replica; zedbuf_record gives its record. Each range costs a few descents, what lies in it
 * and its new text. */
zedbuf_answer zedbuf_edit(
        zedbuf_buffer *buffer,
        const zedbuf_change *changes,
        size_t changes_len,
        const uint8_t *texts,
        size_t texts_len);

/* Undoes edits of any author, or redoes those that are undone. The answer has the stamp of the
 * undo, its value and its replica; zedbuf_record gives its record. The cost grows with what the
 * edits brought and deleted. */
zedbuf_answer zedbuf_undo(zedbuf_buffer *buffer, const zedbuf_stamp *edits, size_t edits_len);

/* Writes the record of the edit or undo that was made last in this handle, for the other
 * replicas; nothing where there is none. The answer has its length in bytes. Linear in the
 * record. */
zedbuf_answer zedbuf_record(zedbuf_buffer *buffer, uint8_t *into, size_t into_room);

/* Takes the operations of records, one or many, in any order and as often as they come. Where
 * none is refused, the answer has the number of operations that are applied, and of those that
 * wait for others. Where one is refused, the answer is the first fault, and all the others are
 * taken. Where an allocation fails, some are taken, and all of them may be taken again. Bytes
 * that are no records change nothing. */
zedbuf_answer zedbuf_take(zedbuf_buffer *buffer, const uint8_t *records, size_t records_len);

/* Goes through what waits, and applies what may be applied. zedbuf_take does so itself: this is
 * for the case that an allocation failed there. The answer has the number of operations that are
 * applied, and of those that wait. */
zedbuf_answer zedbuf_settle(zedbuf_buffer *buffer);

/* Forgets an operation that waits: a caller that bounds how many it keeps goes through
 * zedbuf_waiting and forgets those that are too many. It may be taken again. The answer has the
 * number of operations that were forgotten, 0 or 1. Logarithmic in what waits. */
zedbuf_answer zedbuf_forget(zedbuf_buffer *buffer, const zedbuf_stamp *stamp);

/* Writes the stamps of the operations that wait for others, the least first. The answer has
 * their number. Linear in them. */
zedbuf_answer zedbuf_waiting(zedbuf_buffer *buffer, zedbuf_stamp *into, size_t into_room);

/* Writes which operations waited and were refused at their turn, and why, in the order of their
 * turns. The answer has their number. Linear in them. */
zedbuf_answer zedbuf_refused(zedbuf_buffer *buffer, zedbuf_refusal *into, size_t into_room);

/* Writes the buffer's version: of each replica the greatest stamp value that is applied. The
 * answer has the number of its entries. Linear in them. */
zedbuf_answer zedbuf_version(zedbuf_buffer *buffer, zedbuf_seen *into, size_t into_room);

/* Writes the records of the operations that a version does not see, in the order in which they
 * were applied: what a replica with that version lacks, and all of them, to be saved, for the
 * empty version. The answer has their length in bytes. Linear in what is applied. */
zedbuf_answer zedbuf_records_since(
        zedbuf_buffer *buffer,
        const zedbuf_seen *version,
        size_t version_len,
        uint8_t *into,
        size_t into_room);

/* Makes a snapshot of what the buffer is now, in a handle that is closed. Nothing is copied:
 * constant time. */
zedbuf_answer zedbuf_snapshot_of(zedbuf_buffer *buffer, zedbuf_snapshot *into);

/* Makes another snapshot of the same, in a handle that is closed. Nothing is copied: constant
 * time. */
zedbuf_answer zedbuf_share(zedbuf_snapshot *snapshot, zedbuf_snapshot *into);

/* Closes a snapshot, and frees what nothing else shares with it. A handle that is closed stays
 * so. */
void zedbuf_release(zedbuf_snapshot *snapshot);

/* The answer has the length of the text, in bytes. Constant time. */
zedbuf_answer zedbuf_length(zedbuf_snapshot *snapshot);

/* Writes the text from a byte offset up to another. The answer has its length. Linear in it, and
 * a few descents. */
zedbuf_answer zedbuf_text(
        zedbuf_snapshot *snapshot,
        uint64_t start,
        uint64_t end,
        uint8_t *into,
        size_t into_room);

/* Writes a place of the text in all kinds of position. The kind ZEDBUF_KIND_OFFSET names it by
 * its offset in bytes, ZEDBUF_KIND_UTF16 by its offset in UTF-16 units; the column is then not
 * looked at. ZEDBUF_KIND_POINT names it by its row and a column in bytes,
 * ZEDBUF_KIND_POINT_UTF16 by its row and a column in UTF-16 units. A few descents. */
zedbuf_answer zedbuf_position_at(
        zedbuf_snapshot *snapshot,
        uint32_t kind,
        uint64_t number,
        uint64_t column,
        zedbuf_position *into);

/* Writes the text that a version saw. The answer has its length. The cost grows with what
 * changed since, and with the text. */
zedbuf_answer zedbuf_text_at(
        zedbuf_snapshot *snapshot,
        const zedbuf_seen *version,
        size_t version_len,
        uint8_t *into,
        size_t into_room);

/* Writes what changed since a version: the ranges of the text that it saw, and the ranges of
 * this text that stand in their place, in bytes; they ascend and do not touch. The answer has
 * their number. The cost grows with what changed since. */
zedbuf_answer zedbuf_edits_since(
        zedbuf_snapshot *snapshot,
        const zedbuf_seen *version,
        size_t version_len,
        zedbuf_text_change *into,
        size_t into_room);

/* Writes where a text stands, in bytes, each place once. The answer has the number of places.
 * Linear in the text. */
zedbuf_answer zedbuf_find(
        zedbuf_snapshot *snapshot,
        const uint8_t *needle,
        size_t needle_len,
        uint64_t *into,
        size_t into_room);

/* Makes an anchor at a byte offset: with the bias 0 it keeps to the byte before it, with 1 to
 * the byte after it. A few descents. */
zedbuf_answer zedbuf_anchor_at(
        zedbuf_snapshot *snapshot,
        uint64_t offset,
        uint32_t bias,
        zedbuf_anchor *into);

/* The answer has the byte offset at which an anchor is in this snapshot. A few descents. */
zedbuf_answer zedbuf_resolve(zedbuf_snapshot *snapshot, const zedbuf_anchor *anchor);

/* The answer has the order of two anchors: 0 where the first is less, 1 where they are at one
 * place, 2 where it is greater. A few descents. */
zedbuf_answer zedbuf_compare(
        zedbuf_snapshot *snapshot,
        const zedbuf_anchor *first,
        const zedbuf_anchor *second);

#ifdef __cplusplus
}
#endif

#endif
