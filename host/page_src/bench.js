"use strict";
// The bench: the calls of page.c on texts and numbers of JavaScript. Every sentence and every fact about RAPID comes from there; here are only places in memory and their names.

const STANDS = ["refused", "finished", "ended", "spent", "asks"]; // as page.c counts them
const KINDS = ["name", "reserved", "number", "string", "sign"]; // as rapid.h counts them
const RECORD = ["ending", "refusal", "offset", "steps", "error", "written", "inputsUsed", "moduleWords"];
const NO_BYTE = 0x7f; // for a character that no byte stands for: the bench refuses it at its place

async function openBench(library) {
  const { instance } = await WebAssembly.instantiate(library, {});
  const calls = instance.exports;
  const memory = (Kind, at, count) => new Kind(calls.memory.buffer, at, count);
  let lent = null, listed = null;

  // one byte a character, so that places in the text are places in memory
  function lend(text) {
    const length = Math.min(text.length, calls.text_room());
    if (text === lent) return length;
    const bytes = memory(Uint8Array, calls.text_at(), length);
    for (let i = 0; i < length; i++) bytes[i] = text.charCodeAt(i) < 256 ? text.charCodeAt(i) : NO_BYTE;
    lent = text;
    return length;
  }

  function latin1(at, count) {
    const bytes = memory(Uint8Array, at, count), parts = [];
    for (let i = 0; i < count; i += 8192) parts.push(String.fromCharCode(...bytes.subarray(i, i + 8192)));
    return parts.join("");
  }

  const sentence = (length) => latin1(calls.sentence_at(), length);

  function list(text) {
    const length = lend(text);
    if (listed !== text && !calls.list(length)) throw new Error("the bench did not list");
    listed = text;
    return length;
  }

  // { text, steps, depth, inputs, room }: checks and runs, as the proved call does; with { at, undo } the pointer is moved to main at that step
  function run(asked) {
    const length = lend(asked.text), { inputs } = asked;
    if (inputs.length <= calls.input_room()) memory(Int32Array, calls.inputs_at(), inputs.length).set(inputs);
    const rooms = [inputs.length, asked.room, calls.store_words(), calls.store_words()];
    if (!("at" in asked ? calls.run_until(length, asked.steps, asked.depth, asked.at, asked.undo, ...rooms) : calls.run(length, asked.steps, asked.depth, ...rooms))) throw new Error("the bench did not answer");
    const fields = memory(BigUint64Array, calls.record_at(), RECORD.length), answer = {};
    RECORD.forEach((name, i) => { answer[name] = Number(fields[i]); });
    answer.stand = STANDS[calls.stand(answer.ending)];
    answer.hasPlace = Boolean(calls.has_place(answer.ending, answer.refusal));
    answer.output = latin1(calls.output_at(), answer.written);
    answer.values = Array.from(memory(Int32Array, calls.values_at(), answer.moduleWords));
    answer.errorName = sentence(calls.error_name(answer.error));
    answer.sentence = answer.stand === "refused" ? sentence(calls.reason(length, answer.refusal, answer.offset)) : sentence(calls.ending_sentence(answer.ending));
    return answer;
  }

  return {
    calls,
    run,
    // with no step allowed a module that is accepted ends before its first
    check: (text, depth) => run({ text, steps: 0, depth, inputs: [], room: 0 }),
    // what a run that stands at TPReadNum writes next: with one number more it is the same run, and goes on with its question (demand 3)
    question(asked, answer) {
      const next = run({ ...asked, inputs: [...asked.inputs, 0], steps: answer.steps + 1 });
      return next.output.slice(answer.written).split("\n")[0];
    },
    // kind, place and length of each word, one after another
    words(text) {
      list(text);
      return memory(Uint32Array, calls.words_at(), 3 * memory(Uint32Array, calls.listing_at(), 1)[0]).slice();
    },
    wordAt: (text, place) => calls.ask(lend(text), BigInt(place)),
    wordUnder(text, place) {
      if (!calls.word_under(list(text), place)) return null;
      const [kind, start, length] = memory(Uint32Array, calls.word_at(), 3);
      return { kind: sentence(calls.kind_name(kind)), start, length };
    },
    // the module's data: where each stands among the values of an answer
    names(text) {
      const count = calls.names(lend(text)), fields = memory(Uint32Array, calls.data_at(), 6 * count), data = [];
      for (let i = 0; i < 6 * count; i += 6) {
        const [place, length, first, words, isArray, isBool] = fields.subarray(i, i + 6);
        data.push({ name: text.slice(place, place + length), first, words, isArray, isBool });
      }
      return data;
    },
    valueOf: (datum, value) => (datum.isBool ? sentence(calls.truth_name(value)) : String(value)),
    limits: { depth: calls.depth_limit(), room: calls.output_room(), inputs: calls.input_room(), version: calls.version() },
  };
}

if (typeof module !== "undefined") module.exports = { openBench };
