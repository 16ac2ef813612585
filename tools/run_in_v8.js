// Calls the export `f` of each module of a folder in V8, for each pair of arguments, and writes how each call ended, a line of JSON each.
//   node run_in_v8.js FOLDER
// The folder has a file `calls`, whose lines are a module's file name and the values of the first argument; the second is 0 or 1.
const fs = require('fs');
const folder = process.argv[2];
if (!folder || folder.startsWith('-')) {
  console.log('use: node run_in_v8.js FOLDER (see the first lines of this file)');
  process.exit(folder === '--help' ? 0 : 2);
}
Error.stackTraceLimit = 1;

function shown(value) {
  const values = value === undefined ? [] : Array.isArray(value) ? value : [value];
  return values.map((it) => (typeof it === 'bigint' ? 'i64 ' : 'i32 ') + it);
}

function ending(module, first, second) {
  const instance = new WebAssembly.Instance(module);
  try {
    return { values: shown(instance.exports.f(first, second)) };
  } catch (error) {
    const place = /wasm-function\[(\d+)\]:0x([0-9a-f]+)/.exec(error.stack);
    return { trap: error.message, function: place && +place[1], offset: place && parseInt(place[2], 16) };
  }
}

for (const line of fs.readFileSync(folder + '/calls', 'utf8').trim().split('\n')) {
  const [file, ...firsts] = line.split(' ');
  let module;
  try {
    module = new WebAssembly.Module(fs.readFileSync(folder + '/' + file));
  } catch (error) {
    console.log(JSON.stringify({ file, refused: error.message }));
    continue;
  }
  for (const first of firsts) {
    for (const second of [0, 1]) {
      console.log(JSON.stringify({ file, first: +first, second, ...ending(module, +first, second) }));
    }
  }
}
