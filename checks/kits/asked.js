// A service for the checks, over the kit for Node: it does what the last part of the path names, and says what came of it.
'use strict'
const fs = require('fs')
const { execSync } = require('child_process')
const okws = require(process.argv[2] + '/okws.js')

console.log('a stray line before the first frame')

function shown (site, request) {
  const pairs = {
    'query a': request.query.getAll('a'),
    'form a': request.form.getAll('a'),
    'cookie c': request.cookies.getAll('c'),
    'field x-a': request.fields.getAll('X-A')
  }
  const lines = [`${request.method} ${request.path}`, ...Object.entries(pairs).map(([name, values]) => `${name}: ${values.join('|')}`)]
  return lines.join('\n') + `\ncontent ${request.content.length}\n`
}

function stray () {
  console.log('a stray line')
  process.stdout.write('another one\n')
  fs.writeSync(1, 'one of the descriptor\n')
  execSync('echo one of a child', { stdio: 'inherit' })
  return `${fs.readFileSync(0).length} bytes on standard input\n`
}

async function kept (site, request) {
  const number = BigInt(request.query.get('id'))
  await site.call(0, 2, number, request.query.get('who'), '')
  await site.call(1, 1, number, Buffer.from([0, 255, 10]))
  const [[[note]], [[bytes]], changed] = await Promise.all([site.call(0, 4, number), site.call(1, 2, number), site.call(0, 3, number)])
  return `[('${note}',)] [(b'\\x00\\xff\\n',)] ${changed} ${bytes.equals(Buffer.from([0, 255, 10]))}\n`
}

const ASKED = {
  show: shown,
  stray,
  keep: kept,
  throw: () => { throw new Error('a fault of the page') },
  escape: (site, request) => okws.escape(request.query.get('a')),
  fill: (site, request) => okws.fill(request.query.get('a'), { a: '<b>', 'x-1._': 7 }),
  reject: async () => { throw new Error('a fault of the page') },
  'not-awaited': (site) => { site.log('not awaited'); return 'said\n' },
  denied: (site) => site.call(0, 9),
  'no-token': (site) => site.call(2, 1),
  arguments: (site) => site.call(0, 1, 7),
  duplicate: (site) => site.call(0, 2, 1, 'ann', ''),
  'large-call': (site) => site.call(0, 2, 7, 'a'.repeat(1048576), ''),
  'no-text': (site) => site.call(0, 2, 7.5, 'a', ''),
  template: (site) => site.template('page'),
  secret: (site) => site.template('secret'),
  log: async (site) => String(await site.log('a line\nand ä')),
  'long-log': (site) => site.log('a'.repeat(1025)),
  largest: () => ({ type: 'text/plain', content: 'a'.repeat(1048557) }),
  large: () => ({ type: 'text/plain', content: 'a'.repeat(1048558) }),
  status: () => ({ status: 418 }),
  type: () => ({ type: 'text/plain\r\nX-A: b' }),
  location: () => ({ status: 303, type: 'text/plain', location: '/a b\r\nX-A: \xe4%20' }),
  nothing: () => null
}

okws.serve(async (site, request) => {
  let answer
  try {
    answer = await ASKED[request.path.split('/').pop()](site, request)
  } catch (refused) {
    if (refused instanceof okws.Denied) answer = `Denied ${refused.rule}\n`
    else if (refused instanceof okws.Duplicate) answer = 'Duplicate\n'
    else throw refused
  }
  return typeof answer === 'string' ? { type: 'text/plain', content: answer } : answer
})
