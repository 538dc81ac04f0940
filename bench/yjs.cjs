// What the program and the works of crates/bench do, done by Yjs in node.
// usage: node yjs.cjs replay < SESSION     its lines edit, undo, give, text, anchor and where; writes a line for each, and the texts at the end
//        node yjs.cjs anchors FRAGMENTS    as `bench anchors FRAGMENTS timed`
//        node yjs.cjs snapshot BYTES       as `bench snapshot BYTES timed`
// Texts are ASCII, since Yjs counts UTF-16 units and sessions bytes. With --expose-gc, `replay` tells on standard error how many bytes
// its documents hold at the end, without operations that nobody lacks.
'use strict'
const fs = require('fs')
const Y = require('yjs')

const microseconds = () => Number(process.hrtime.bigint()) / 1000

// A replica: its document, its text, and the update that its last change made.
class Replica {
  constructor (id, seed, undoes) {
    this.document = new Y.Doc({ gc: !undoes })
    this.document.clientID = id
    Y.applyUpdate(this.document, seed, 'given')
    this.text = this.document.getText('text')
    this.manager = undoes ? new Y.UndoManager(this.text, { captureTimeout: 0 }) : null
    this.made = null
    this.document.on('update', (update, origin) => { if (origin !== 'given') this.made = update })
  }

  edit (changes) {
    this.document.transact(() => {
      for (const [start, end, text] of changes.slice().reverse()) {
        if (end > start) this.text.delete(start, end - start)
        if (text) this.text.insert(start, text)
      }
    })
    return this.made
  }

  undo () {
    this.manager.undo()
    return this.made
  }
}

// A document over a base text that belongs to nobody, as an update.
function seed (base) {
  const document = new Y.Doc()
  document.clientID = 0
  if (base) document.getText('text').insert(0, base)
  return Y.encodeStateAsUpdate(document)
}

function replay (input) {
  const lines = input.split('\n').filter(line => line).map(line => JSON.parse(line))
  const [, , base, ids] = lines[0]
  const undoes = lines.some(line => line[0] === 'undo')
  const first = seed(base)
  const replicas = new Map(ids.map(id => [id, new Replica(id, first, undoes)]))
  const made = [null]
  const anchors = new Map()
  const report = []
  for (const [word, id, what, offset, bias] of lines.slice(1)) {
    const replica = replicas.get(id)
    if (word === 'edit' || word === 'undo') {
      made.push(word === 'edit' ? replica.edit(what) : replica.undo())
      report.push(`${made.length - 1}: made`)
    } else if (word === 'give') {
      Y.applyUpdate(replica.document, made[what], 'given')
      report.push(`give ${what} to ${id}: given`)
    } else if (word === 'text') {
      report.push(`text ${id}: ${JSON.stringify(replica.text.toString())}`)
    } else if (word === 'anchor') {
      anchors.set(what, Y.createRelativePositionFromTypeIndex(replica.text, offset, bias === 'left' ? -1 : 0))
      report.push(`anchor ${JSON.stringify(what)}: set`)
    } else if (word === 'where') {
      const place = Y.createAbsolutePositionFromRelativePosition(anchors.get(what), replica.document)
      report.push(`where ${JSON.stringify(what)} at ${id}: ${place.index}`)
    }
  }
  for (const [id, { text }] of replicas) report.push(`final ${id}: ${JSON.stringify(text.toString())}`)
  process.stdout.write(report.join('\n') + '\n')
  return replicas
}

function heap () {
  for (let i = 0; i < 4; i++) global.gc()
  return process.memoryUsage().heapUsed
}

function replayed () {
  const before = global.gc ? heap() : 0
  const replicas = replay(fs.readFileSync(0, 'utf8'))
  if (global.gc) process.stderr.write(`held ${heap() - before} bytes by ${replicas.size} documents\n`)
}

// The generator of crates/bench_reports.
const step = x => BigInt.asUintN(64, x * 6364136223846793005n + 1442695040888963407n)

const drawn = (x, n) => Number((x >> 20n) % BigInt(Math.max(n, 1)))

// Does a work so many times, and tells how many, what came of all, and how many microseconds they took.
function tell (name, times, work) {
  const start = microseconds()
  let sum = 0
  for (let i = 0; i < times; i++) sum += work(i)
  console.log(name, times, sum, Math.round(microseconds() - start))
}

// A text of so many fragments: letters are put into a base one by one at places drawn by chance.
function among (fragments) {
  const replica = new Replica(1, seed('a'.repeat(fragments * 8)), false)
  let x = 1n
  for (let i = 0; i < fragments / 2; i++) {
    x = step(x)
    replica.text.insert(drawn(x, replica.text.length), 'a')
  }
  return replica
}

// Fewer anchors than there, since each takes long.
function anchors (fragments) {
  const { document, text } = among(fragments)
  const list = []
  let x = 1n
  tell('Anchors', 40, () => {
    x = step(x)
    return list.push(Y.createRelativePositionFromTypeIndex(text, drawn(x, text.length), (x >> 10n) % 2n ? 0 : -1))
  })
  tell('Resolve', list.length, i => Y.createAbsolutePositionFromRelativePosition(list[i], document).index)
}

// A snapshot says what a text was, and keeps no text that can be read at once: `Texts` copies that.
function snapshot (bytes) {
  const { document, text } = new Replica(1, seed('a'.repeat(bytes)), true)
  const put = i => { text.insert(drawn(step(BigInt(i)), text.length), 'a'); return 1 }
  tell('Snapshots', 1000, () => Y.snapshot(document).sv.size)
  tell('SnapshotEdits', 1000, i => Y.snapshot(document).sv.size + put(i))
  tell('Edits', 1000, put)
  tell('Texts', 20, () => text.toString().charCodeAt(0))
}

const [, , word, size] = process.argv
if (word === 'replay') replayed()
if (word === 'anchors') anchors(Number(size))
if (word === 'snapshot') snapshot(Number(size))
