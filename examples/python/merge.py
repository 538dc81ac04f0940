"""Two authors edit one text at the same time, exchange what they made, and one undoes the other's edit. Then the history
is saved, and opened again by a third one. The first one keeps a file of records, to which it appends each record that it
makes or takes; the last one is torn off, as in a crash, and the file is opened again without it."""
import tempfile

from zedbuf import NO_RECORD, Buffer, Refused

BASE = "The cat sat.\n"


def show(name, author, anchor):
    now = author.snapshot()
    print(f"{name} at {now.resolve(anchor)}: {now.text()}", end="")
    now.release()


def show_changes(name, author, version):
    now = author.snapshot()
    for old_start, old_end, new_start, new_end in now.edits_since(version):
        print(f"{name}: {old_start}..{old_end} is now {new_start}..{new_end}")
    now.release()


def send_last(source, target, file):
    """Sends what an author made last to another one, and appends it to the file."""
    record = source.record()
    target.take(record)
    file.write(record)


def reopen_torn(file, torn, replica):
    """Opens a file of records whose last bytes are torn off: what is cut off begins where the answer says."""
    file.seek(0)
    records = file.read()[:-torn]
    try:
        return Buffer(replica, saved=records)
    except Refused as refused:
        if refused.answer.code != NO_RECORD:
            raise
        print(f"a record is cut off at byte {refused.answer.first} of {len(records)}")
        return Buffer(replica, saved=records[: refused.answer.first])


def main():
    ann, ben = Buffer(1, BASE), Buffer(2, BASE)
    file = tempfile.TemporaryFile()
    file.write(ann.records())
    sat = ann.anchor(8)

    dog = ann.edit([(4, 7, "dog")])
    ben.edit([(0, 0, "Look: ")])
    before = ann.version()
    send_last(ann, ben, file)
    send_last(ben, ann, file)
    show("ann", ann, sat)
    show("ben", ben, sat)
    show_changes("ann", ann, before)

    ben.undo([dog])
    send_last(ben, ann, file)
    show("ann", ann, sat)

    cleo = Buffer(3, saved=ann.records())
    cleo.edit([(18, 19, "!\n")])
    show("cleo", cleo, sat)

    dan = reopen_torn(file, 2, 4)
    show("dan", dan, sat)
    file.close()

    for author in ann, ben, cleo, dan:
        author.close()


if __name__ == "__main__":
    main()
