// Calls the library as WebAssembly: starts a drive on a disk in memory, writes a block and reads it back.
//
//   node examples/wasm_drive.mjs target/cross/wasm32/bumivondra.wasm
//
// The module imports nothing. Record, buffer and bytes are places in its memory, from __heap_base on. A call that returns
// a reply takes one place more, first, where it puts the reply's two numbers.
import { readFileSync } from 'node:fs';

const { instance } = await WebAssembly.instantiate(readFileSync(process.argv[2]));
const library = instance.exports;
const memory = new Uint8Array(library.memory.buffer);
const numbers = new DataView(library.memory.buffer);

const SECTOR = 532, BUFFER = 536, DATA = 4, TABLE = 4960;
const reply = (library.__heap_base.value + 7) & ~7; // 8 bytes
const drive = reply + 8; // 378 bytes
const buffer = drive + 384; // 536 bytes
const bytes = buffer + BUFFER; // 532 bytes

const words = ['wait', 'offer', 'read', 'write', 'store', 'finished', 'refused'];

// Makes a call of the library on the record and the buffer, and returns what it answers.
function call(name, ...rest) {
    library[`bv_${name}`](reply, drive, buffer, BUFFER, ...rest);
    const kind = words[numbers.getUint32(reply, true)], value = numbers.getUint32(reply + 4, true);
    console.log(`${name}: ${kind}${value ? ` ${value}` : ''}`);
    return { kind, value };
}

// Lends bytes to a call: where they are, and how many.
function lend(data) {
    memory.set(data, bytes);
    return [bytes, data.length];
}

// The disk: sectors that were written, and zeros. Sector 4960 has an empty table of form B.
const disk = new Map([[TABLE, new Uint8Array(SECTOR)]]);
disk.get(TABLE).set([0xf0, 0x78, 0x3c, 0x1e, 0, 0, 0, 0, 0, 0, 0, 16, 0, 0, 0, 16]);
disk.get(TABLE).set([0x01, 0xe2], 530);

// Makes a call and does the accesses that it leads to.
function run(name, ...rest) {
    let answer = call(name, ...rest);
    while (answer.kind === 'read' || answer.kind === 'write') {
        if (answer.kind === 'write') {
            disk.set(answer.value, memory.slice(buffer + DATA, buffer + BUFFER));
            answer = call('surface', 0, 0, 0);
        } else {
            answer = call('surface', 0, ...lend(disk.get(answer.value) ?? new Uint8Array(SECTOR)));
        }
    }
    return answer;
}

run('start');
// Writes block 17.
run('raise');
run('lower', 0x55);
run('feed', ...lend([0x01, 0, 0, 17]));
run('raise');
run('lower', 0x55);
run('feed', ...lend(new TextEncoder().encode('SUMMER SALE')));
run('raise');
run('lower', 0x55);
// Reads it, with R 10 and T 3.
run('raise');
run('lower', 0x55);
run('feed', ...lend([0x00, 0, 0, 17, 10, 3]));
run('raise');
run('lower', 0x55);

const status = [...memory.subarray(buffer, buffer + DATA)].map((byte) => byte.toString(16).padStart(2, '0')).join(' ');
const data = memory.subarray(buffer + DATA, buffer + BUFFER);
console.log(`status ${status}, data "${new TextDecoder().decode(data.subarray(0, data.indexOf(0)))}"`);
console.log(`the parity bits of 0, 1 and 3 are ${[0, 1, 3].map((byte) => library.bv_parity(byte)).join(', ')}`);
