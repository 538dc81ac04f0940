# A session over a base of small letters in lines, with `count` edits of a kind:
#   random   one replica, short edits at places drawn by chance
#   typing   one replica, single letters one behind the other, with a jump now and then
#   paper    one replica, a text as it is written: words letter by letter, letters taken back, moves, ranges pasted and cut
#   late     two replicas, random insertions in rounds of `lag` of each, given to the other after each round
#   authors  four replicas, random insertions in rounds of ten each, exchanged after each round
#   rounds   four replicas, each of which types or takes back some letters in a round, exchanged after each round
#   folds    one replica, short edits as of random, and behind each a `fold` line of a range of 1 to 63 bytes
#   excerpts two replicas, `excerpt` and `medit` lines alone: a name gets ten excerpts of the replicas in turn, then ten edits of them
# One replica more takes the edits of all, but for `late`, where `taken` is
#   each     at once, or with the others after each round
#   ordered  behind the last edit, from the first to the last
#   reverse  behind the last edit, from the last to the first
#   beside   as reverse, and behind each that it takes it types a letter of its own
#   none     not at all, though it is there
# With undone=N some N edits are undone: the last ones, from the last back, or with order=first the first ones, or with order=chance some that
# are drawn by chance, none twice. With anchors=N replica 1 makes N anchors
# at places drawn by chance, and then asks for each. With queries=N replica 1 is asked N times, spread among the edits: by `find` for four
# letters that stand in the base, or with asked=point for the point at an offset.
# `remote` is random with taken=each, and `reverse` is typing with taken=reverse.
# usage: awk -v bytes=N -v count=N -v kind=NAME [-v lag=N] [-v taken=WHEN] [-v undone=N] [-v order=ORDER] [-v anchors=N] [-v queries=N] -f session.awk
#        without a lag all edits are one round

# the next number below n, by the generator of Park and Miller
function below(n) {
    drawn = (drawn * 16807) % 2147483647
    return drawn % n
}

function letters(n,    text) {
    text = ""
    while (n-- > 0)
        text = text substr("abcdefghijklmnopqrstuvwxyz", 1 + below(26), 1)
    return text
}

function edit(replica, start, end, text) {
    printf "[\"edit\",%d,[[%d,%d,\"%s\"]]]\n", replica, start, end, text
    author[++made] = replica
    if (taken == "each" && authors == 1)
        give(2, made)
    while (queries && made * queries >= (queried + 1) * count)
        query()
}

function query() {
    queried++
    if (asked == "point")
        printf "[\"point\",1,%d]\n", len
    else
        printf "[\"find\",1,\"%s\"]\n", substr(row[queried * 13 % 1024], 1 + queried % 50, 4)
}

function give(replica, number) {
    printf "[\"give\",%d,%d]\n", replica, number
}

# a base of so many bytes, in rows drawn from 1,024
function write_base(bytes,    i) {
    for (i = 0; bytes > 0 && i < 1024; i++)
        row[i] = letters(59)
    for (; bytes > 0; bytes -= 60)
        printf "%s\\n", substr(row[below(1024)], 1, bytes - 1)
}

# a short edit of replica 1 at a place drawn by chance
function short_edit(    start, gone, new) {
    start = below(len + 1)
    gone = below(5)
    if (start + gone > len)
        gone = len - start
    new = 1 + below(8)
    len += new - gone
    edit(1, start, start + gone, letters(new))
}

# folds a range of replica 1 that is drawn by chance
function fold_range(    start) {
    start = below(len - 63)
    printf "[\"fold\",1,%d,%d]\n", start, start + 1 + below(63)
}

function type_letter() {
    if (below(50) == 0)
        caret = below(len + 1)
    edit(1, caret, caret, letters(1))
    caret++
    len++
}

# the next letter of a text of words; a line feed is written as JSON has it
function next_letter(    letter) {
    if (text == "")
        text = word[1 + below(words)] (below(10) ? " " : ".|")
    letter = substr(text, 1, 1)
    text = substr(text, 2)
    return letter == "|" ? "\\n" : letter
}

function type_words(n) {
    while (n-- > 0 && made < count) {
        edit(1, caret, caret, next_letter())
        caret++
        len++
    }
}

function take_back(n) {
    while (n-- > 0 && made < count && caret > 0) {
        caret--
        len--
        edit(1, caret, caret + 1, "")
    }
}

function paste(n,    new) {
    new = word[1 + below(words)]
    while (--n > 0)
        new = new " " word[1 + below(words)]
    len += length(new)
    edit(1, caret, caret, new)
    caret += length(new)
}

function cut(n) {
    n = caret + n > len ? len - caret : n
    len -= n
    if (n > 0)
        edit(1, caret, caret + n, "")
}

# what the author of a paper does next; about two letters in five stay
function write_on(    x) {
    x = len < 50 ? 0 : below(1000)
    if (x < 580)
        type_words(1 + below(27))
    else if (x < 860)
        take_back(1 + below(len > made * 0.4 ? 27 : 5))
    else if (x < 950)
        caret = within(caret + below(121) - 60)
    else if (x < 985)
        caret = below(2) ? len : below(len + 1)
    else if (x < 993)
        paste(3 + below(37))
    else
        cut(5 + below(195))
}

function within(place) {
    return place < 0 ? 0 : place > len ? len : place
}

function insert_at(replica, length_there,    start, new) {
    start = below(length_there + 1)
    new = 1 + below(8)
    edit(replica, start, start, letters(new))
    return new
}

# Some letters of a replica in a round over a text of length len: typed at its caret, which jumps now and then, or taken back in its
# own quarter of the text, so that no two replicas delete one letter, and the length is known. Answers by how much the text grows.
function burst(r,    n, first, at) {
    n = 4 + below(9)
    if (below(100) < 15 || at_caret[r] > len)
        at_caret[r] = below(len + 1)
    if (below(100) < 72) {
        for (at = 0; at < n; at++)
            edit(r, at_caret[r] + at, at_caret[r] + at, next_letter())
        at_caret[r] += n
        return n
    }
    first = int(len * (r - 1) / 4)
    at = first + below(int(len / 4) + 1)
    n = n > at - first ? at - first : n
    for (first = at - n; at > first; at--)
        edit(r, at - 1, at, "")
    return -n
}

# each replica takes what the others have made from a number on
function exchange(from,    i, r) {
    for (i = from; i <= made; i++)
        for (r = 1; r <= replicas; r++)
            if (r != author[i])
                give(r, i)
}

function late_round(    from, one, two, i) {
    from = made + 1
    one = two = len
    while (made < count && (!lag || made + 1 - from < 2 * lag)) {
        one += insert_at(1, one)
        two += insert_at(2, two)
    }
    for (i = from; i <= made; i++)
        give(1 + (i - from + 1) % 2, i)
    len = one + two - len
}

function authors_round(    from, r, i, here, grown) {
    from = made + 1
    grown = 0
    for (r = 1; r <= 4; r++) {
        here = len
        if (kind == "rounds")
            here += burst(r)
        for (i = 0; i < 10 && kind == "authors"; i++)
            here += insert_at(r, here)
        grown += here - len
    }
    len += grown
    exchange(from)
}

# Ten excerpts of 16 bytes under a name of their own, of the two replicas in turn, and ten edits of their text, each of which puts a letter
# after the first byte of an excerpt of either replica.
function excerpt_round(    name, i, r, part, start, size, at) {
    name = "e" ++rounds
    for (i = 0; i < 10 && made < count; i++) {
        r = 1 + i % 2
        part = int(length_of[r] / 5)
        start = int(i / 2) * part + below(part - 16)
        printf "[\"excerpt\",\"%s\",%d,%d,%d]\n", name, r, start, start + 16
        size[i] = 16
        made++
    }
    while (i-- > 0 && made < count) {
        part = 2 * below(5)
        at = 1
        for (r = 0; r < part; r++)
            at += size[r] + 1
        printf "[\"medit\",\"%s\",[[%d,%d,\"%s\"],", name, at, at, letters(1)
        at += size[part] + 1
        printf "[%d,%d,\"%s\"]]]\n", at, at, letters(1)
        for (r = 1; r <= 2; r++) {
            size[part + r - 1]++
            length_of[r]++
        }
        made++
    }
}

# the number of the i-th edit that is undone
function undone_edit(i,    number) {
    if (order == "first")
        return i
    if (order != "chance")
        return edits + 1 - i
    do number = 1 + below(edits); while (number in is_undone)
    is_undone[number] = 1
    return number
}

BEGIN {
    drawn = 1
    if (kind == "remote") { kind = "random"; taken = "each" }
    if (kind == "reverse") { kind = "typing"; taken = "reverse" }
    words = split("the of and to in is that for it as was with be by on not but at are this have from or an they which one you were " \
        "all there would their we when will more if out so said what about than into them only other new some could time these two", word)
    authors = kind == "authors" || kind == "rounds" ? 4 : kind == "late" || kind == "excerpts" ? 2 : 1
    replicas = authors + (taken != "")
    printf "[\"zedbuf\",%d,\"", kind == "excerpts" || kind == "folds" ? 2 : 1
    write_base(bytes)
    ids = "1"
    for (r = 2; r <= replicas; r++)
        ids = ids "," r
    print "\",[" ids "]]"
    len = length_of[1] = length_of[2] = bytes
    made = caret = 0
    while (made < count) {
        if (kind == "random" || kind == "folds") short_edit()
        if (kind == "folds") fold_range()
        if (kind == "typing") type_letter()
        if (kind == "paper") write_on()
        if (kind == "late") late_round()
        if (kind == "authors" || kind == "rounds") authors_round()
        if (kind == "excerpts") excerpt_round()
    }
    edits = made
    for (i = 1; i <= edits && taken ~ /ordered|reverse|beside/; i++) {
        give(replicas, taken == "ordered" ? i : edits + 1 - i)
        if (taken == "beside")
            edit(replicas, 0, 0, letters(1))
    }
    for (i = 1; i <= undone; i++)
        printf "[\"undo\",1,[%d]]\n", undone_edit(i)
    for (i = 1; i <= anchors; i++)
        printf "[\"anchor\",1,\"a%d\",%d,\"%s\"]\n", i, below(len + 1), i % 2 ? "left" : "right"
    for (i = 1; i <= anchors; i++)
        printf "[\"where\",1,\"a%d\"]\n", i
}
