// Records how often each function of a script is called, as V8 counts it: one range a function.
// usage: node bench/record_functions.cjs OUT TAKES SCRIPT [ARGS..]
// Each take runs the script's modules afresh and writes OUT/functions-K.json: the `result` of the DevTools protocol's
// Profiler.takePreciseCoverage with callCount true and detailed false, of the scripts in SCRIPT's folder.
'use strict';
const fs = require('node:fs');
const path = require('node:path');
const { pathToFileURL } = require('node:url');
const { Session } = require('node:inspector/promises');

async function main() {
  const [out, takes, script, ...rest] = process.argv.slice(2);
  if (!out || !(Number(takes) > 0) || !script) {
    console.error('usage: node record_functions.cjs OUT TAKES SCRIPT [ARGS..]');
    process.exit(2);
  }
  fs.mkdirSync(out, { recursive: true });
  const file = path.resolve(script);
  const folder = pathToFileURL(path.dirname(file)).href + '/';
  process.argv = [process.argv[0], file, ...rest];
  const session = new Session();
  session.connect();
  await session.post('Profiler.enable');
  await session.post('Profiler.startPreciseCoverage', { callCount: true, detailed: false });
  for (let k = 0; k < Number(takes); k += 1) {
    for (const name of Object.keys(require.cache)) delete require.cache[name];
    await require(file);
    const { result } = await session.post('Profiler.takePreciseCoverage');
    const own = result.filter((entry) => entry.url.startsWith(folder));
    fs.writeFileSync(path.join(out, `functions-${k}.json`), JSON.stringify({ result: own }));
  }
  await session.post('Profiler.stopPreciseCoverage');
  session.disconnect();
}

main();
