// Calls a form of the module as the program is called: node calls.mjs PAGE FORM IMAGE [INPUT or ROWS]
// An image that is not there is one of 256 erased sectors. The status is the library's.
import fs from 'node:fs';

const [folder, form, path, last] = process.argv.slice(2);
const { load } = await import(`${folder}/library.mjs`);
const library = await load(fs.readFileSync(`${folder}/sorachest.wasm`));
const image = fs.existsSync(path) ? new Uint8Array(fs.readFileSync(path)) : new Uint8Array(256 * 4096);
const words = { run: () => [fs.readFileSync(last)], serve: () => [fs.readFileSync(last)], plan: () => [Number(last)] };
const ended = library[form](image, ...(words[form]?.() ?? []));
fs.writeFileSync(1, ended.bytes);
fs.writeFileSync(path, ended.image);
process.exitCode = ended.status;
