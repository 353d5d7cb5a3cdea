// Runs play.c, compiled to WebAssembly, on standard input.
// usage: node play.mjs PLAY.wasm <BATCH
import { readFileSync, writeSync } from 'node:fs';

const input = readFileSync(0);
const written = [];
let place = 0;
const env = {
    get: () => (place < input.length ? input[place++] : -1),
    put: (byte) => written.push(byte),
};
const { instance } = await WebAssembly.instantiate(readFileSync(process.argv[2]), { env });
const status = instance.exports.main(0, 0);
const output = Uint8Array.from(written);
for (let done = 0; done < output.length; ) done += writeSync(1, output, done);
process.exitCode = status;
