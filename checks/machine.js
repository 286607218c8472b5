// Asks V8 for what the bodies in the tables of the crate machine_tests give, and tells each line that says otherwise.
//
//     node checks/machine.js
//
// V8 counts no fuel and has another limit of its stack: units are not compared, and bodies that pass 512 frames left out.
'use strict';
const fs = require('fs');
const path = require('path');

// What a file of the crate holds.
function read(...names) {
  return fs.readFileSync(path.join(__dirname, '..', 'crates', 'machine_tests', ...names), 'utf8');
}

// The parts of the module: the one text of several lines in its file.
const frame = read('src', 'frame.rt').match(/"\n([^"]*)\n"/)[1];
const parts = Object.fromEntries(frame.split('\n').map((line) => line.split(' | ')));
const I64 = 0x7e;

const bytesOf = (hex) => hex.replace(/\s+/g, '');

// The size of hexadecimal bytes in two bytes of LEB128, and the bytes.
function sized(hex) {
  const bytes = bytesOf(hex);
  const count = bytes.length / 2;
  const low = (count % 128 + 128).toString(16).padStart(2, '0');
  return low + Math.floor(count / 128).toString(16).padStart(2, '0') + bytes;
}

// A section from `ID:CONTENT`.
function section(text) {
  const [id, content] = text.split(':');
  return bytesOf(id) + sized(content);
}

// The parameters and results of each type of the module.
function readTypes() {
  const bytes = Buffer.from(bytesOf(parts.types), 'hex');
  const types = [];
  let at = 1;
  const list = () => {
    const count = bytes[at++];
    return [...bytes.subarray(at, at += count)];
  };
  while (at < bytes.length) {
    at += 1;
    types.push([list(), list()]);
  }
  return types;
}

const types = readTypes();

// The module in which function 1 has this type and this body.
function moduleWith(type, body, hasPages) {
  const memory = hasPages ? parts.memory : parts['memory without pages'];
  const data = hasPages ? parts.bytes : parts['no bytes'];
  const sections = [
    `01:${parts.types}`, '02:01 016d 0168 00 02', `03:08 ${type} 01 0a 00 03 01 00 02`, parts.table, memory,
    parts.globals, '07:01 0166 00 01', parts.entries, `0a:08 ${sized(body)} ${parts.bodies}`, data,
  ];
  return new WebAssembly.Module(Buffer.from('0061736d01000000' + sections.map(section).join(''), 'hex'));
}

const wordIn = (text, type) =>
  type === I64 ? BigInt.asIntN(64, BigInt('0x' + text)) : Number(BigInt('0x' + text)) | 0;
const wordOut = (value, type) =>
  type === I64 ? BigInt.asUintN(64, value).toString(16) : (value >>> 0).toString(16);

// What the body gives: its words, or the message of its trap.
function answer(type, body, args, hasPages) {
  const swap = (first, second) => [second, first];
  const instance = new WebAssembly.Instance(moduleWith(type, body, hasPages), { m: { h: swap } });
  const [params, results] = types[parseInt(type, 16)];
  const words = args === '-' ? [] : args.split(' ').map((text, at) => wordIn(text, params[at]));
  try {
    const given = instance.exports.f(...words);
    const values = results.length === 1 ? [given] : [...(given ?? [])];
    return values.length ? values.map((value, at) => wordOut(value, results[at])).join(' ') : '-';
  } catch (error) {
    return `trap: ${error.message}`;
  }
}

const traps = {
  Unreachable: /unreachable/,
  DivideByZero: /(divide|remainder) by zero/,
  DivideOverflow: /divide result unrepresentable/,
  MemoryBounds: /memory access out of bounds/,
  TableBounds: /index is out of bounds|table index/,
  NullElement: /null function|signature mismatch/,
  OtherSignature: /signature/,
};

let count = 0;
let differing = 0;
for (const name of ['numbers', 'memories', 'blocks', 'calls']) {
  for (const line of read('data', `body_${name}.txt`).trimEnd().split('\n')) {
    count += 1;
    const cut = line.lastIndexOf(' = ');
    const wanted = line.slice(cut + 3).replace(/ for \d+$/, '');
    const [, type, body, args] = line.slice(0, cut).split(' | ');
    const got = answer(type, body, args, name === 'memories');
    if (wanted === 'StackLimit') continue;
    const agrees = traps[wanted] ? got.startsWith('trap: ') && traps[wanted].test(got) : got === wanted;
    if (!agrees) {
      differing += 1;
      console.log(`${name}: ${line}: ${got}`);
    }
  }
}
console.log(`${count} bodies, ${differing} differ`);
process.exit(differing ? 1 : 0);
