// The least program: it makes an inn in one batch, reads it, is refused, and follows what changes.
//
//     node inn.mjs URL TOKEN
//
// With ?json no literal of moo has to be read or written.
const [url, token] = process.argv.slice(2)

async function asked(method, path, body) {
  const headers = { authorization: `Bearer ${token}` }
  const reply = await fetch(new URL(path, url), { method, headers, body: body && JSON.stringify(body) })
  return { status: reply.status, said: await reply.json() }
}

async function run(route, ...calls) {
  const { status, said } = await asked('POST', `api/${route}?json`, { calls })
  if (status !== 200) throw Object.assign(new Error(said.why), said)
  return said
}

const { names } = await run('batch',
  ['$inn = create', { obj: 1 }],
  ['set', { name: 'inn' }, 'name', 'The Inn'],
  ['$owner = get', { name: 'inn' }, 'owner'],
  ['add_property', { name: 'inn' }, 'beds', 3, [{ name: 'owner' }, 'r']])
const inn = names.inn
console.log(`made #${inn.obj}`)

const { answers: [name, beds, owner] } = await run('ask', ['get', inn, 'name'], ['get', inn, 'beds'], ['get', inn, 'owner'])
console.log(`${name} has ${beds} beds and #${owner.obj} owns it`)

try {
  await run('batch', ['set', { obj: 3 }, 'name', "Ada's"])
} catch (refusal) {
  console.log(`refused: ${refusal.error} at call ${refusal.call}`)
}

const { said: { seq } } = await asked('GET', 'api/seq')
await run('batch', ['set', inn, 'beds', 4])
const { said: { objects } } = await asked('GET', `api/since/${seq}?wait=20`)
console.log(`changed: ${objects.join(', ')}`)
