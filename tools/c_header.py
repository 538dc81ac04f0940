#!/usr/bin/env python3
"""Writes include/zedbuf.h from the exported functions of crates/zedbuf_c and the types of crates/c_values and crates/buffer_handles.

    tools/c_header.py           writes the header
    tools/c_header.py --check   fails where the header that is committed differs
"""
import os
import re
import sys
import textwrap

TOP = os.path.dirname(os.path.dirname(os.path.abspath(__file__)))
HEADER = "include/zedbuf.h"
EXPORTS = "crates/zedbuf_c/src/lib.rt"
TYPES = ("crates/c_values/src", "crates/buffer_handles/src")
WIDTH = 100

NUMBERS = {"u8": "uint8_t", "u16": "uint16_t", "u32": "uint32_t", "u64": "uint64_t", "i32": "int32_t",
           "usize": "size_t", "bool": "bool"}

HEAD = """\
/* zedbuf.h: a proved text buffer for collaborative editors.
 *
 * tools/c_header.py writes this file from the exported functions and their comments.
 *
 * What a caller owes, which nothing checks:
 *  - a handle is {0}, which is closed, before it is opened for the first time; after that these calls alone change it,
 *    and it is not copied;
 *  - a pointer is not null, also where its length is 0; it has as many bytes or members as its length or room says, and
 *    no other running call has them;
 *  - one call at a time on one handle, from whatever thread; a lock, or the start or the join of a thread, orders the
 *    calls of several threads;
 *  - malloc, realloc and free, which these calls use, are of one allocator.
 *
 * Offsets and lengths are in bytes of UTF-8. No call gives memory that is to be freed: the caller hands in room, and the
 * answer has the whole length; where the room is too small, the front that fits is written. Each call but the closing
 * ones answers a code with up to three numbers. After an answer other than ZEDBUF_DONE the buffer is as before the call,
 * except where its comment says more.
 */
#ifndef ZEDBUF_H
#define ZEDBUF_H

#include <stdbool.h>
#include <stddef.h>
#include <stdint.h>

#ifdef __cplusplus
extern "C" {
#endif
"""

TAIL = """
#ifdef __cplusplus
}
#endif

#endif
"""


def snake(name):
    return re.sub(r"(?<=[a-z0-9])(?=[A-Z])", "_", name).lower()


def c_struct(name):
    return "zedbuf_" + snake(name.removesuffix("Handle").removeprefix("Flat"))


def c_code(name):
    return "ZEDBUF_" + snake(name).upper()


def prose(lines):
    """Doc comments as the text of a C comment: links and code marks are dropped, a heading ends its line."""
    text = " ".join(line.strip() for line in lines)
    text = re.sub(r"\[`([^`]*)`\]", r"\1", text)
    text = re.sub(r"`(Code::)?([A-Z]\w*)`", lambda m: m.group(2), text)
    text = re.sub(r"\s+", " ", text.replace("`", "").replace("# Errors ", "")).strip()
    return " ".join(sentence for sentence in re.split(r"(?<=\.) ", text) if not sentence.startswith("Contracts see"))


def comment(lines, indent=""):
    rows = textwrap.wrap(prose(lines), WIDTH - len(indent) - 6, break_long_words=False, break_on_hyphens=False)
    if not rows:
        return ""
    return indent + "/* " + ("\n" + indent + " * ").join(rows) + " */\n"


def c_type(rust):
    if rust in NUMBERS:
        return NUMBERS[rust]
    if not re.fullmatch(r"[A-Z]\w*", rust):
        sys.exit(f"c_header.py: no type in C for {rust}")
    return c_struct(rust)


def parameters(name, rust):
    """What C passes for a parameter."""
    if rust == "Global":
        return []
    slice_of = re.fullmatch(r"&(mut )?\[(\w+)\]", rust)
    if slice_of:
        kind = c_type(slice_of.group(2))
        if slice_of.group(1):
            return [f"{kind} *{name}", f"size_t {name}_room"]
        return [f"const {kind} *{name}", f"size_t {name}_len"]
    lent = re.fullmatch(r"&(mut )?(\w+)", rust)
    if lent:
        return [("" if lent.group(1) else "const ") + f"{c_type(lent.group(2))} *{name}"]
    return [f"{c_type(rust)} {name}"]


def split(text):
    return [part.strip() for part in text.split(",") if part.strip()]


DOC = r"((?:[ \t]*///[^\n]*\n)*)"


def docs(block):
    return [line.strip()[3:] for line in block.splitlines()]


def structs(source):
    """The #[repr(C)] structs of a file, in order: name, comment, fields."""
    form = DOC + r"#\[repr\(C\)\]\n(?:#\[derive[^\n]*\n)?pub struct (\w+) \{\n(.*?)\n\}"
    for match in re.finditer(form, source, re.S):
        fields = re.findall(DOC + r"    (?:pub )?(?:pub\(crate\) )?(\w+): ([^,\n]+),", match.group(3) + "\n")
        yield match.group(2), docs(match.group(1)), fields


def struct_text(name, about, fields):
    if name.endswith("Handle"):
        return f"{comment(about)}typedef struct {c_struct(name)} {{\n    void *at;\n}} {c_struct(name)};\n"
    rows = "".join(comment(docs(doc), "    ") + f"    {c_type(kind)} {field};\n" for doc, field, kind in fields)
    return f"{comment(about)}typedef struct {c_struct(name)} {{\n{rows}}} {c_struct(name)};\n"


def enums(source):
    """The numbered enums of a file; a member but of Code has the enum's name before its own."""
    form = DOC + r"(?:#\[derive[^\n]*\n)?pub enum (\w+) \{\n(.*?)\n\}"
    for match in re.finditer(form, source, re.S):
        kind, before = match.group(2), "" if match.group(2) == "Code" else match.group(2)
        rows = ""
        for doc, name, number in re.findall(DOC + r"    (\w+) = (\d+),", match.group(3) + "\n"):
            rows += comment(docs(doc), "    ") + f"    {c_code(before + name)} = {number},\n"
        if rows:
            yield f"{comment(docs(match.group(1)))}enum {c_struct(kind)} {{\n{rows}}};\n"


def exports(source):
    form = DOC + r'#\[unsafe\(no_mangle\)\]\npub extern "C" fn (\w+)\((.*?)\)(?: -> (\w+))?\s*\n?\s*(?:ensures|requires|\{)'
    for match in re.finditer(form, source, re.S):
        about, name, given, result = match.groups()
        passed = []
        for parameter in split(given):
            word, kind = parameter.split(": ")
            passed += parameters(word, kind)
        kind = c_type(result) if result else "void"
        line = f"{kind} {name}({', '.join(passed)});"
        if len(line) > WIDTH:
            line = f"{kind} {name}(\n        " + ",\n        ".join(passed) + ");"
        yield comment(docs(about)) + line + "\n"


def ordered(found):
    """The structs, each after those that its fields are of."""
    names, done = {name for name, _, _ in found}, []
    while len(done) < len(found):
        for one in found:
            needs = {kind for _, _, kind in one[2]} & names
            if one not in done and needs <= {name for name, _, _ in done}:
                done.append(one)
    return [struct_text(*one) for one in done]


def header():
    kinds, codes = [], []
    files = [f"{folder}/{name}" for folder in TYPES for name in sorted(os.listdir(f"{TOP}/{folder}"))]
    for name in files:
        source = open(f"{TOP}/{name}", encoding="utf-8").read()
        kinds += list(structs(source))
        codes += list(enums(source))
    calls = list(exports(open(f"{TOP}/{EXPORTS}", encoding="utf-8").read()))
    if source_count() != len(calls):
        sys.exit(f"c_header.py: {source_count()} functions are exported, and {len(calls)} are understood")
    return "\n".join([HEAD, *codes, *ordered(kinds), *calls]) + TAIL


def source_count():
    return open(f"{TOP}/{EXPORTS}", encoding="utf-8").read().count('pub extern "C" fn')


def main():
    text, path = header(), f"{TOP}/{HEADER}"
    if sys.argv[1:] == ["--check"]:
        if not os.path.exists(path) or open(path, encoding="utf-8").read() != text:
            sys.exit(f"{HEADER} differs from what tools/c_header.py writes")
        return
    if sys.argv[1:]:
        sys.exit(__doc__)
    with open(path, "w", encoding="utf-8") as out:
        out.write(text)


if __name__ == "__main__":
    main()
