# A session of what a peer that is not trusted may send, of a kind:
#   waiting  `count` operations of 1,000 authors, each of which misses a cause that never comes; then `edits` edits of replica 1, and
#            after each an operation of author 2 that has seen all before it, which replica 1 takes
#   faulty   `count` operations of 1,000 authors that wait for one edit and are all past the end
#   pieces   an edit of 65,536 pieces, and `count` replicas to take it
#   entries  `count` operations that have seen an operation of each of 1,022 authors
# With given=0 nobody takes what the peer sends, so that what this costs is the difference to the same session with given=1; of `faulty`
# all wait in both, and only with given=1 the edit comes that they wait for.
# usage: awk -v kind=NAME -v count=N -v given=0|1 [-v edits=N] -f hostile.awk

function give(replica, number) {
    printf "[\"give\",%d,%d]\n", replica, number
}

# an operation of one piece; its number
function op(value, author, version, piece) {
    printf "[\"op\",[%d,%d],[[0,1]%s],[%s]]\n", value, author, version, piece
    return ++made
}

function edit(replica) {
    printf "[\"edit\",%d,[[0,0,\"e\"]]]\n", replica
    return ++made
}

function header(replicas,    ids, r) {
    ids = "1"
    for (r = 2; r <= replicas; r++)
        ids = ids "," r
    printf "[\"zedbuf\",1,\"%s\",[%s]]\n", "A text to begin with.", ids
}

# an author that is no replica of the session
function author(i) {
    return 24 + i % 1000
}

function waiting(    i, n, seen) {
    header(1)
    for (i = 0; i < count; i++) {
        n = op(100 + i, author(i), ",[10,90]", "[0,0,\"w\"]")
        if (given)
            give(1, n)
    }
    for (i = 1; i <= edits; i++) {
        edit(1)
        seen = ",[1," (2 * i) "]"
        if (i > 1)
            seen = seen ",[2," (2 * i - 1) "]"
        give(1, op(2 * i + 1, 2, seen, "[0,0,\"t\"]"))
    }
}

function faulty(    i, n) {
    header(1)
    for (i = 0; i < count; i++)
        give(1, op(100 + i, author(i), ",[10,2]", "[999,999,\"w\"]"))
    n = op(2, 10, "", "")
    if (given)
        give(1, n)
}

function pieces(    i, text, n) {
    header(count)
    text = "[0,0,\"\"]"
    for (i = 1; i < 65536; i *= 2)
        text = text "," text
    n = op(2, 100, "", text)
    for (i = 1; i <= count && given; i++)
        give(i, n)
}

function entries(    i, seen, n) {
    header(1)
    for (i = 1; i <= 1022; i++) {
        give(1, op(2, i + 1, "", ""))
        seen = seen sprintf(",[%d,2]", i + 1)
    }
    for (i = 1; i <= count; i++) {
        n = op(3, i + 1, seen, "[0,0,\"w\"]")
        if (given)
            give(1, n)
    }
}

BEGIN {
    made = 0
    if (kind == "waiting") waiting()
    if (kind == "faulty") faulty()
    if (kind == "pieces") pieces()
    if (kind == "entries") entries()
}
