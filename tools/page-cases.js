"use strict";
// page-cases.js [PAGE] < CASES: answers case lines (reference/README.md has their form) by the library inside a page, target/host/bench.html where none is named, so that `diff` compares it with the independent
// program. Ends with a message and status 1 where a call returns or writes anything else than rapid.h says.
// page-cases.js --lengths [PAGE]: that the wrappers refuse every length that is too large, and touch nothing then; that names of data are told right; and that the sentences are those of the command `rapid`.
const { execFileSync } = require("child_process");
const fs = require("fs");
const os = require("os");
const path = require("path");
const vm = require("vm");

const words = process.argv.slice(2), tests = words[0] === "--lengths";
const html = fs.readFileSync(words[tests ? 1 : 0] || path.join(__dirname, "..", "target", "host", "bench.html"), "utf8");
const element = (id) => html.match(new RegExp(`<script[^>]* id="${id}">([^]*?)</script>`))[1];
const library = Buffer.from(element("library"), "base64");
const MARK = 0xa5, STORE = 16384;
let number = 0;

function expect(holds, otherwise) {
  if (holds) return;
  process.stderr.write(`${number ? `case line ${number}: ` : ""}${otherwise}\n`);
  process.exit(1);
}

// the calls as the page makes them
async function opened() {
  const context = vm.createContext({ WebAssembly, module: {} });
  vm.runInContext(element("bench-code"), context);
  const compiled = new WebAssembly.Module(library);
  expect(WebAssembly.Module.imports(compiled).length === 0, "the library imports something");
  expect(!WebAssembly.Module.exports(compiled).some(({ name }) => name.startsWith("rapid")), "the page can make a raw call");
  return context.module.exports.openBench(library);
}

const bytesOf = (field) => (field === "-" ? Buffer.alloc(0) : Buffer.from(field, "hex"));
const all = (bytes, value) => Buffer.from(bytes.buffer, bytes.byteOffset, bytes.length).equals(Buffer.alloc(bytes.length, value));

function answerRun(calls, fields) {
  const at = (name, count) => new Uint8Array(calls.memory.buffer, calls[`${name}_at`](), count);
  const text = bytesOf(fields[1]), inputs = fields[4] === "-" ? [] : fields[4].split(",").map(Number), [room, code, values, ...abort] = fields.slice(5).map(Number), [steps, depth] = fields.slice(2, 4).map(Number);
  at("text", calls.text_room()).fill(MARK).set(text);
  new Int32Array(calls.memory.buffer, calls.inputs_at(), inputs.length).set(inputs);
  at("output", room + 64 <= calls.output_room() ? room + 64 : room).fill(MARK);
  for (const [name, count] of [["code", code], ["values", values]]) at(name, 4 * count).fill(MARK);
  const rooms = [inputs.length, room, code, values], returned = abort.length ? calls.run_until(text.length, steps, depth, ...abort, ...rooms) : calls.run(text.length, steps, depth, ...rooms);
  expect(returned === 1, "no answer");
  const record = Array.from(new BigUint64Array(calls.memory.buffer, calls.record_at(), 8), Number), touched = record[1] !== 1;
  expect(Buffer.compare(Buffer.from(at("text", text.length)), text) === 0, "the text was written to");
  expect(record[5] <= room && all(at("output", room).subarray(record[5]), MARK), "output past the count was written");
  for (const [name, count, kept] of [["code", code, 0], ["values", values, record[7]]]) {
    const store = at(name, 4 * count), end = touched ? 4 * STORE : 0;
    expect(all(store.subarray(touched ? 4 * kept : 0, end), 0) && all(store.subarray(end), MARK), `the ${name} store is not as the paper says`);
  }
  const data = Array.from(new Int32Array(calls.memory.buffer, calls.values_at(), record[7]));
  return `${record.join(" ")} ${Buffer.from(at("output", record[5])).toString("hex") || "-"} ${data.join(",") || "-"}`;
}

function answerList(calls, fields) {
  const text = bytesOf(fields[1]);
  new Uint8Array(calls.memory.buffer, calls.text_at(), text.length).set(text);
  if (fields[0] === "at") {
    const place = BigInt(fields[2]), covers = calls.ask(text.length, place);
    return covers ? text.subarray(Number(place), Number(place) + covers).toString("hex") : "none";
  }
  expect(calls.list(text.length) === 1, "no listing");
  const [count, refusal, offset] = new Uint32Array(calls.memory.buffer, calls.listing_at(), 3), listed = new Uint32Array(calls.memory.buffer, calls.words_at(), 3 * count), shown = [];
  for (let i = 0; i < 3 * count; i += 3) shown.push(`${"nrdsg"[listed[i]]}@${listed[i + 1]}+${listed[i + 2]}`);
  if (refusal) shown.push(`!${refusal}@${offset}`);
  return shown.join(" ") || "-";
}

// ---- the wrappers
function refuseLengths(bench) {
  const { calls } = bench, room = calls.text_room(), fits = [0, 1, 1, 0, 0, STORE, STORE], most = [room, 0, 0, calls.input_room(), calls.output_room(), 65536, 65536];
  const record = new Uint8Array(calls.memory.buffer, calls.record_at(), 64).fill(MARK);
  for (const i of [0, 3, 4, 5, 6]) {
    for (const length of [most[i] + 1, 2 ** 31, 2 ** 32 - 1]) {
      const lent = fits.map((fit, k) => (k === i ? length : fit));
      expect(calls.run(...lent) === 0 && all(record, MARK), `run takes ${length} as its number ${i + 1}`);
      expect(calls.run_until(...lent.slice(0, 3), 0, 0, ...lent.slice(3)) === 0 && all(record, MARK), `run_until takes ${length} for number ${i + 1} of run`);
    }
  }
  for (const length of [room + 1, 2 ** 31, 2 ** 32 - 1]) expect(calls.list(length) === 0 && calls.ask(length, 0n) === 0 && calls.names(length) === 0 && calls.reason(length, 8, 0) === 0, `a text of ${length} bytes is taken`);
  for (const refusal of [0, 99, 2 ** 32 - 1]) expect(calls.reason(0, refusal, 0) === 0, "a reason for no refusal");
  for (const offset of [1, room, 2 ** 32 - 1]) expect(calls.reason(0, 8, offset) > 0 && calls.word_under(0, offset) === 0, "a place past the text");
  expect(calls.ending_sentence(99) === 0 && calls.error_name(1) === 0 && calls.kind_name(99) === 0, "a sentence for no number");
}

function tellNames(bench) {
  const text = "MODULE m ! VAR num no; \nconst NUM two:=1+1;Var bool ok := TRUE;VAR num row{two*3}; VAR num last:=two; VAR bool b{2};PROC main() VAR num inner; ENDPROC ENDMODULE";
  const told = bench.names(text).map((d) => `${d.name} ${d.first}+${d.words}${d.isArray ? "{}" : ""}${d.isBool ? " bool" : ""}`).join(", ");
  expect(told === "two 0+1, ok 1+1 bool, row 2+6{}, last 8+1, b 9+2{} bool", `names are told as ${told}`);
  expect(bench.names("MODULE m PROC main() ENDPROC ENDMODULE").length === 0 && bench.names("MODULE m VAR num n; ENDMODULE").length === 0, "names where there are none");
  const many = `MODULE m ${Array.from({ length: 1000 }, (_, i) => `VAR num n${i};`).join(" ")} VAR num a{24}; PROC main() ENDPROC ENDMODULE`, data = bench.names(many);
  expect(data.length === 1001 && data[1000].first === 1000 && data[1000].words === 24, "names of many data");
}

// each of these texts, changed at one word each time, must get the sentence that the command gives it
function sameSentences(bench) {
  const folder = fs.mkdtempSync(path.join(os.tmpdir(), "sentences-")), lessons = path.join(__dirname, "..", "lessons");
  const texts = [];
  for (const name of fs.readdirSync(lessons).filter((file) => file.endsWith(".mod"))) {
    const text = fs.readFileSync(path.join(lessons, name), "latin1"), listed = bench.words(text);
    for (let i = 0; i < listed.length; i += 15) for (const word of ["TRUE", "3", "", "RETRY"]) texts.push(text.slice(0, listed[i + 1]) + word + text.slice(listed[i + 1] + listed[i + 2]));
  }
  texts.push(fs.readFileSync(path.join(lessons, "loop-names.mod"), "latin1").replace("FOR slot", "FOR i")); // the sentence that tells a line
  texts.forEach((text, i) => fs.writeFileSync(path.join(folder, String(i)), text, "latin1"));
  const command = path.join(__dirname, "..", "target", "host", "rapid"), seen = new Set();
  let said = "";
  try { said = execFileSync(command, ["check", "--json", ...texts.map((_, i) => path.join(folder, String(i)))], { encoding: "latin1", maxBuffer: 1 << 26 }); } catch (error) { said = error.stdout; }
  fs.rmSync(folder, { recursive: true });
  const answers = said.trim().split("\n").map((line) => JSON.parse(line));
  texts.forEach((text, i) => {
    const answer = bench.check(text, 16), { refusal, offset, sentence } = answers[i];
    expect(answer.refusal === refusal && (refusal === 0 || (answer.offset === offset && answer.sentence === sentence)), `the page says ${answer.refusal}@${answer.offset} ${answer.sentence}, the command ${refusal}@${offset} ${sentence}`);
    seen.add(answer.sentence);
  });
  return `${texts.length} texts, ${seen.size} sentences`;
}

// bytes of the library's own stack, which stands first in its memory, on a text that nests everything as deep as it may
function stack(bench) {
  const { calls } = bench, painted = new Uint8Array(calls.memory.buffer, 0, Number(calls.__stack_pointer.value)).fill(MARK);
  bench.run({ text: fs.readFileSync(path.join(__dirname, "..", "host", "deepest.mod"), "latin1"), steps: 10000, depth: 64, inputs: [], room: 4096 });
  const used = painted.length - painted.findIndex((byte) => byte !== MARK);
  expect(used < 40000, `a call takes ${used} bytes of stack`);
  return `a call takes at most ${used} of ${painted.length} bytes of stack`;
}

// milliseconds, the best of some, to check and to list a text as long as one may be
function pace(bench) {
  const line = "n := (n + 1) * 3 MOD 7; ! counts up, and never far\n", text = `MODULE long\nPROC main()\nVAR num n;\n${line.repeat(630)}ENDPROC\nENDMODULE\n`.padEnd(32768), times = { check: Infinity, words: Infinity };
  expect(bench.check(text, 16).ending !== 0, "a long text is refused");
  for (let i = 0; i < 40; i++) {
    for (const name of ["check", "words"]) {
      const begun = process.hrtime.bigint();
      bench[name](text, 16);
      times[name] = Math.min(times[name], Number(process.hrtime.bigint() - begun) / 1e6);
      bench.check("", 16);
      bench.words("");
    }
  }
  expect(times.check < 5, `a text of 32,768 bytes is checked in ${times.check} ms`);
  return `32,768 bytes are checked in ${times.check.toFixed(2)} ms and listed in ${times.words.toFixed(2)} ms`;
}

async function main() {
  const bench = await opened();
  if (tests) {
    refuseLengths(bench);
    tellNames(bench);
    console.log(`the wrappers refuse what is too long; ${sameSentences(bench)} as the command says them; ${pace(bench)}; ${stack(bench)}`);
    return;
  }
  const out = [];
  for (const line of fs.readFileSync(0, "latin1").split("\n").slice(0, -1)) {
    number += 1;
    const fields = line.split(" ");
    out.push(fields[0] === "run" && (fields.length === 8 || fields.length === 10) ? answerRun(bench.calls, fields) : fields[0] === "list" || fields[0] === "at" ? answerList(bench.calls, fields) : "bad line");
  }
  fs.writeFileSync(1, `${out.join("\n")}\n`);
}

main();
