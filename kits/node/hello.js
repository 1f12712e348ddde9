#!/usr/bin/node
// Greets whom the query string names, and lists who signed: GET /hello?name=ann.
'use strict'
const okws = require('./okws')

const MAIN = 0
const ENTRIES = 1

okws.serve(async (site, request) => {
  const name = request.query.get('name') ?? 'world'
  try {
    const entries = await site.call(MAIN, ENTRIES)
    console.log('a stray line does no harm')
    const lines = [`hello ${name}`, ...entries.map(([number, who]) => `${number} ${who}`)]
    return { type: 'text/plain; charset=utf-8', content: lines.join('\n') + '\n' }
  } catch (refused) {
    if (!(refused instanceof okws.Denied)) throw refused
    return { status: 403, type: 'text/plain; charset=utf-8', content: `${refused.message}\n` }
  }
})
