// Services of okws in Node (18 or later): this one file, over Node's own library alone. docs/KITS.md says more, docs/okws-frames.7.md what goes over the pipes.
//
//   const okws = require('./okws')
//   okws.serve(async (site, request) => 'hello ' + okws.escape(request.query.get('name') ?? 'world'))
//
// Where standard input and output are pipes, requiring this takes both away from the rest of the program: from then on standard input is empty, what is
// printed goes to standard error, and what a child prints on an inherited standard output nowhere. A page may await other work meanwhile.
'use strict'
const fs = require('fs')
const net = require('net')

const BOOT = 1, REQUEST = 2, PUSH = 3, ROWS = 5, DENIED = 9, FAILED = 10, NO_MEMORY = 11, DUPLICATE = 12
const OPEN = 0x41, CALL = 0x42, GET = 0x43, LOG = 0x44, REPLY = 0x45
const INT = 1, TEXT = 2, BYTES = 3
const LONGEST = 1048576
const STATUSES = [200, 201, 303, 400, 403, 404, 409, 500]

/** A call was not answered by what it asks for; nothing was changed. */
class Unanswered extends Error {}
/** The call is denied by the rule of this number (docs/RULES.md). */
class Denied extends Unanswered {
  constructor (rule) {
    super(`denied by rule ${rule} (docs/RULES.md)`)
    this.rule = rule
  }
}
/** An INSERT's KEY value is taken. */
class Duplicate extends Unanswered {}
/** The database failed. */
class Failed extends Unanswered {}
/** The server lacked memory; the call may be made again. */
class NoMemory extends Unanswered {}

function refusal (kind, payload) {
  if (kind === DENIED) return new Denied(payload[0])
  if (kind === DUPLICATE) return new Duplicate('the KEY value is taken')
  if (kind === FAILED) return new Failed('the database failed')
  return kind === NO_MEMORY ? new NoMemory('the server lacked memory') : null
}

function stop (why) {
  fs.writeSync(2, `okws: ${why}\n`)
  process.exit(1)
}

/** Names and values: `get` gives the first value of a name, or null, `getAll` each; like URLSearchParams. */
class Pairs {
  constructor (list, fold = (name) => name) {
    this.list = list
    this.fold = fold
  }

  getAll (name) { return this.list.filter(([key]) => key === this.fold(name)).map(([, value]) => value) }
  get (name) { return this.getAll(name)[0] ?? null }
}

/** The text that percent-encoded ASCII stands for. What isn't UTF-8 in it is U+FFFD. */
function decoded (text) {
  const bytes = text.replace(/%([0-9a-f]{2})/gi, (_, digits) => String.fromCharCode(parseInt(digits, 16)))
  return Buffer.from(bytes, 'latin1').toString()
}

/** The pairs of a query string, or of a form's content, whose bytes are the characters of Latin-1. */
function formPairs (form) {
  return new URLSearchParams('&' + form.replace(/[\x80-\xff]/g, (byte) => '%' + byte.charCodeAt(0).toString(16)))
}

function cookiePairs (fields) {
  const parts = fields.getAll('cookie').flatMap((field) => field.split(';')).filter((part) => part.includes('='))
  return new Pairs(parts.map((part) => [part.slice(0, part.indexOf('=')).trim(), part.slice(part.indexOf('=') + 1).trim()]))
}

/** What a client asks: method, target and version as they came; path, percent-decoded, and rawPath; query and rawQuery; fields (names in any case, values
 * as Latin-1) and cookies; content, a Buffer; and form, the pairs of the content where its type is that of a form or isn't told. */
class Request {
  constructor (head, content) {
    const [first, ...lines] = head.toString('latin1').replace(/^[\r\n]+/, '').split(/\r?\n/)
    ;[this.method, this.target, this.version] = first.split(' ')
    const origin = this.target.replace(/^[^/:]*:\/\/[^/?]*/, '')
    const [path] = origin.split('?', 1)
    this.rawPath = path || '/'
    this.rawQuery = origin.slice(path.length + 1)
    this.path = decoded(this.rawPath)
    this.query = formPairs(this.rawQuery)
    const fields = lines.filter(Boolean).map((line) => [line.slice(0, line.indexOf(':')).toLowerCase(), line.slice(line.indexOf(':') + 1)])
    this.fields = new Pairs(fields.map(([name, value]) => [name, value.replace(/^[ \t]+|[ \t]+$/g, '')]), (name) => name.toLowerCase())
    this.cookies = cookiePairs(this.fields)
    this.content = content
    const type = (this.fields.get('content-type') ?? '').split(';')[0].trim().toLowerCase()
    this.form = formPairs(['', 'application/x-www-form-urlencoded'].includes(type) ? content.toString('latin1') : '')
  }
}

const REFERENCES = { '&': '&amp;', '<': '&lt;', '>': '&gt;', '"': '&quot;', "'": '&#39;' }
/** The text as it stands in HTML. */
function escape (text) { return String(text).replace(/[&<>"']/g, (special) => REFERENCES[special]) }

/** The template with a value for each `@{NAME}`, escaped, and for each `@{raw:NAME}`, as it is. A place without a value, or that is none, is an Error. */
function fill (template, values) {
  return template.replace(/@\{(?:(raw:)?([A-Za-z0-9_.-]{1,64})\})?/g, (place, raw, name, at) => {
    if (name === undefined || !Object.hasOwn(values, name)) throw new Error(`no value for ${place}, at ${at} of the template`)
    return raw ? String(values[name]) : escape(values[name])
  })
}

function number (value, size) {
  const bytes = Buffer.alloc(size)
  bytes.writeUIntBE(value, 0, size)
  return bytes
}

/** Bytes behind their length, which takes so many bytes. */
function counted (size, bytes) { return Buffer.concat([number(bytes.length, size), bytes]) }

function argument (value) {
  if (typeof value === 'string') return Buffer.concat([number(TEXT, 1), counted(4, Buffer.from(value))])
  if (value instanceof Uint8Array) return Buffer.concat([number(BYTES, 1), counted(4, value)])
  if (typeof value !== 'number' && typeof value !== 'bigint') throw new TypeError(`${value} is none of number, bigint, string and Uint8Array`)
  const bytes = Buffer.alloc(9, INT)
  bytes.writeBigInt64BE(BigInt(value), 1)
  return bytes
}

/** An INT as a number where that is exact, and else as a bigint. */
function exact (int) { return Number.isSafeInteger(Number(int)) ? Number(int) : int }

function rowsOf (payload) {
  const rows = []
  let at = 5
  for (let left = payload.readUInt32BE(1); left > 0; left--) {
    const row = []
    for (let column = payload[0]; column > 0; column--) {
      const end = payload[at] === INT ? at + 9 : at + 5 + payload.readUInt32BE(at + 1)
      const bytes = payload.subarray(at + 5, end)
      row.push(payload[at] === INT ? exact(payload.readBigInt64BE(at + 1)) : payload[at] === TEXT ? bytes.toString() : bytes)
      at = end
    }
    rows.push(row)
  }
  return rows
}

function frame (kind, ...parts) {
  const payload = Buffer.concat(parts)
  if (payload.length >= LONGEST) throw new RangeError(`${payload.length} bytes in one frame, which has at most ${LONGEST - 1}`)
  return Buffer.concat([number(payload.length + 1, 4), number(kind, 1), payload])
}

/** The frame of a reply: { content, status, type, location }, or the content alone, which is a string or bytes. */
function replyFrame (reply) {
  const isContent = typeof reply === 'string' || reply instanceof Uint8Array
  const { content = '', status = 200, type = 'text/html; charset=utf-8', location = '' } = isContent ? { content: reply } : reply
  if (typeof content !== 'string' && !(content instanceof Uint8Array)) throw new TypeError('the content of a reply is a string or bytes')
  if (!STATUSES.includes(status)) throw new RangeError(`a reply has no status ${status}, but one of ${STATUSES}`)
  if (!/^[!-~]([ -~]{0,253}[!-~])?$/.test(type)) throw new RangeError(`no content type: ${JSON.stringify(type)}`)
  const where = Buffer.from(String(location).replace(/[^!-~]+/g, encodeURIComponent))
  if (where.length > 255) throw new RangeError(`a location of ${where.length} bytes: it may have 255`)
  return frame(REPLY, number(status, 2), counted(1, Buffer.from(type)), counted(1, where), counted(4, Buffer.from(content)))
}

/** A descriptor of its own for a pipe, in whose place the null device stands from then on; or the pipe itself where there is no /proc. */
function taken (fd, flags) {
  try {
    const own = fs.openSync(`/proc/self/fd/${fd}`, flags)
    fs.closeSync(fd)
    fs.openSync('/dev/null', flags)
    return own
  } catch {
    return fd
  }
}

function takenPipes () {
  if (![0, 1].every((fd) => fs.fstatSync(fd).isFIFO())) return null
  const link = { heard: taken(0, 'r'), said: taken(1, 'w') }
  Object.defineProperty(process, 'stdout', { get: () => process.stderr })
  globalThis.console = new console.Console(process.stderr, process.stderr)
  return link
}

const PIPES = takenPipes()

async function * framesOf (stream) {
  let rest = Buffer.alloc(0)
  for await (const piece of stream) {
    rest = rest.length ? Buffer.concat([rest, piece]) : piece
    while (rest.length >= 4 && rest.length >= 4 + rest.readUInt32BE(0)) {
      const end = 4 + rest.readUInt32BE(0)
      yield [rest[4], rest.subarray(5, end)]
      rest = rest.subarray(end)
    }
  }
  if (rest.length) stop('the frames end inside a frame')
}

/** The site as this incarnation of the service sees it: its databases, templates and log. Calls of one request are made in turn, before its reply. */
class Site {
  #frames = framesOf(new net.Socket({ fd: PIPES.heard, readable: true, writable: false }))
  #tokens = new Map()
  #sessions = new Map()
  #turn = Promise.resolve()
  #isAsked = false
  /** Of each template that was pushed the last edition, by name. */
  templates = new Map()

  /** The rows of a SELECT, arrays, or how many rows another statement changed. Proxies are numbered from 0, in the order of their declaration. */
  async call (proxy, query, ...values) {
    const where = number(proxy, 2)
    const parts = [number(query, 2), number(values.length, 1), ...values.map(argument)]
    return this.#inTurn(async () => {
      if (!this.#sessions.has(proxy)) this.#sessions.set(proxy, (await this.#ask(frame(OPEN, where, this.#tokens.get(proxy) ?? Buffer.alloc(20))))[1])
      const [kind, payload] = await this.#ask(frame(CALL, where, this.#sessions.get(proxy), ...parts))
      return kind === ROWS ? rowsOf(payload) : exact(payload.readBigUInt64BE(0))
    })
  }

  /** The last edition of a template that was pushed, or else the one that is asked for. */
  async template (name) {
    if (!this.templates.has(name)) {
      const [, payload] = await this.#inTurn(() => this.#ask(frame(GET, counted(1, Buffer.from(name)))))
      this.templates.set(name, payload.toString('utf8', 8))
    }
    return this.templates.get(name)
  }

  /** Writes a line of at most 1,024 bytes to the site's log. */
  async log (line) { await this.#inTurn(() => this.#ask(frame(LOG, counted(4, Buffer.from(line))))) }

  #inTurn (work) {
    if (!this.#isAsked) return Promise.reject(new Error('a call is for a request that is not answered yet'))
    const done = this.#turn.then(work)
    this.#turn = done.catch(() => {})
    return done
  }

  async #take () {
    const { done, value } = await this.#frames.next()
    if (done) process.exit(0)
    return value
  }

  #say (bytes) {
    try {
      for (let at = 0; at < bytes.length;) at += fs.writeSync(PIPES.said, bytes, at)
    } catch (fault) {
      process.exit(fault.code === 'EPIPE' ? 0 : stop(fault.message))
    }
  }

  async #ask (bytes) {
    this.#say(bytes)
    const [kind, payload] = await this.#take()
    const refused = refusal(kind, payload)
    if (refused) throw refused
    return [kind, payload]
  }

  async #boot () {
    const [kind, payload] = await this.#take()
    if (kind !== BOOT) stop('no Boot frame comes first')
    this.service = payload.readUInt16BE(0)
    this.incarnation = payload.readUInt32BE(2)
    for (let at = 7; at < payload.length; at += 22) this.#tokens.set(payload.readUInt16BE(at), payload.subarray(at + 2, at + 22))
  }

  async #answered (page, request) {
    try {
      return replyFrame(await page(this, request))
    } catch (fault) {
      console.error(fault)
      return replyFrame({ status: 500, type: 'text/plain', content: '500 Internal Server Error\n' })
    }
  }

  async serve (page) {
    for (await this.#boot(); ;) {
      const [kind, payload] = await this.#take()
      if (kind === PUSH) {
        const end = 1 + payload[0]
        this.templates.set(payload.toString('utf8', 1, end), payload.toString('utf8', end + 8))
        continue
      }
      if (kind !== REQUEST) stop(`a frame of kind ${kind} is not due`)
      const end = 4 + payload.readUInt32BE(0)
      this.#isAsked = true
      const reply = await this.#answered(page, new Request(payload.subarray(4, end), payload.subarray(end + 4)))
      this.#isAsked = false
      await this.#turn
      this.#say(reply)
    }
  }
}

/** Answers each request by what `page(site, request)` gives or promises: a reply, or its content alone. Where it throws, by 500. It ends with the frames. */
function serve (page) {
  if (!PIPES) stop('a service is started by okws, which gives it two pipes (docs/KITS.md)')
  return new Site().serve(page)
}

module.exports = { serve, fill, escape, Unanswered, Denied, Duplicate, Failed, NoMemory }
