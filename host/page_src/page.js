"use strict";
// The page: what is typed, checked, run and shown, by the parts in the other files.

async function openPage() {
  const PAUSE = 250; // milliseconds without a key until the text is checked
  const UNDO_STEPS = 1000; // that UNDO lists may make, as the command has it
  const element = (id) => document.getElementById(id);
  const library = Uint8Array.from(atob(element("library").textContent.trim()), (c) => c.charCodeAt(0));
  const bench = await openBench(library);
  const runner = makeRunner(library, element("bench-code").textContent + element("runner-code").textContent);
  const lessons = JSON.parse(element("lesson-texts").textContent);
  let name = "", pause = 0, accepted = false, names = null, running = false, wanted = null, isOwn = false, own = null; // own: the latest text that was written here and then left for another
  let inputs = [], total = null, at = null, stepping = false; // of the run that is shown: its numbers, its steps, after how many of them it is shown, and whether one goes through it by steps
  let moved = null; // after how many of its steps the pointer was moved to main; the steps behind them are those of UNDO lists

  // ---- parts
  const editor = makeEditor(bench, edited);
  makeKeys(editor.field);
  const files = makeFiles(() => ({ name, text: editor.text() }), open);
  const settings = makeSettings(bench.limits, files.kept().settings, () => { keep(); check(); });
  const message = makeMessage((place) => (accepted ? editor.reveal(place) : editor.select(place)));
  const screen = makeScreen(answered);
  const data = makeData(bench);
  const steps = makeSteps({
    run: () => (running ? runner.stop() : runAll()),
    first: () => stepTo(0),
    back: () => stepTo(at - 1),
    forth: () => (at === null ? begin() : stepTo(at + 1)),
    last: () => { stepping = false; return at === null ? runAll() : show(total); },
    to: stepTo,
    toMain: moveToMain,
  });
  const list = makeLessons(lessons, (lesson) => open(lesson.name, lesson.text));

  // ---- the text
  const keep = () => files.keep({ name, text: editor.text(), isOwn, own, settings: settings() });

  function open(title, text) {
    if (isOwn) own = { name, text: editor.text() };
    isOwn = false;
    list.showOwn(own);
    name = title;
    element("title").textContent = title;
    editor.set(text);
    keep();
    check();
    tellWord();
  }

  function edited() {
    isOwn = true;
    forget();
    message.say("quiet", "…");
    steps.show(null, null, false);
    clearTimeout(pause);
    pause = setTimeout(() => { keep(); check(); }, PAUSE);
  }

  function forget() {
    if (running) runner.stop();
    inputs = [];
    total = at = wanted = names = moved = null;
    stepping = false;
    data.forget();
    screen.show("", false);
    data.show([], []);
    editor.markStep(null);
  }

  function check() {
    clearTimeout(pause);
    pause = 0;
    forget();
    const answer = bench.check(editor.text(), settings().depth);
    accepted = answer.stand !== "refused";
    if (accepted) message.say("quiet", "Accepted");
    else tellRefusal(answer);
    if (accepted) editor.markRefused(null);
    steps.show(null, null, accepted);
  }

  function tellRefusal(answer) {
    message.say("refused", `Refused: ${answer.sentence}`);
    message.at(answer.hasPlace ? { offset: answer.offset, ...editor.placeOf(answer.offset) } : null, "");
    editor.markRefused(answer.hasPlace ? answer.offset : null);
  }

  function tellWord() {
    const place = editor.field.selectionStart, { line, column } = editor.placeOf(place), word = bench.wordUnder(editor.text(), place);
    element("word").textContent = `line ${line}, column ${column}` + (word ? ` · ${word.kind} ${editor.text().slice(word.start, word.start + word.length)}` : "");
  }
  document.addEventListener("selectionchange", () => { if (document.activeElement === editor.field) tellWord(); });
  editor.field.addEventListener("input", tellWord);

  // ---- runs
  const asked = (allowed) => ({ text: editor.text(), ...settings(), inputs, ...(moved === null || allowed < moved ? { steps: allowed } : { steps: moved, at: moved, undo: allowed - moved }) });
  const most = () => (moved === null ? settings().steps : moved + UNDO_STEPS);

  // an answer, or null where it was stopped or the text has changed
  async function called(allowed) {
    const text = editor.text();
    running = true;
    steps.busy(true);
    try {
      const answer = await runner.run(asked(allowed), (made) => steps.progress(made, allowed));
      return text === editor.text() ? answer : null;
    } finally {
      running = false;
      steps.busy(false);
      steps.show(at, total, accepted, moved);
    }
  }

  async function runAll() {
    if (pause) check();
    if (!accepted) return;
    forget();
    await runOn(null);
  }

  async function begin() {
    if (pause) check();
    stepping = true;
    if (accepted) await runOn(0);
  }

  // the whole run with the numbers so far, then as it is after so many steps; without a count, at its end
  async function runOn(after) {
    const answer = await called(most());
    if (!answer) { if (accepted && total === null) message.say("quiet", "Stopped"); return; }
    total = answer.steps;
    if (after === null || after >= total) tell(answer, total);
    else await show(after);
  }

  function stepTo(after) {
    stepping = true;
    return show(after);
  }

  // the rest of the run is that of the UNDO lists, which are then gone through by steps
  async function moveToMain() {
    moved = at;
    stepping = true;
    await runOn(at);
  }

  // a run with fewer steps is a beginning of the longer one (demand 3). While a finger moves on the track, only the latest place is shown.
  async function show(after) {
    wanted = Math.max(0, Math.min(total, after));
    if (running) return;
    while (wanted !== null && total !== null) {
      const next = wanted, answer = await called(next === total ? most() : next);
      if (!answer) return;
      if (wanted === next) { wanted = null; tell(answer, next); }
    }
  }

  function answered(number) {
    inputs = [...inputs, number];
    runOn(stepping ? at + 1 : null);
  }

  function tell(answer, after) {
    at = after;
    const isEnd = after === total, place = !isEnd || answer.hasPlace ? { offset: answer.offset, ...editor.placeOf(answer.offset) } : null;
    names = names || bench.names(editor.text());
    if (isEnd) message.say(answer.stand, `${answer.stand === "asks" ? "Waits" : "Ended"}: ${answer.sentence}`);
    else message.say("step", `Step ${after.toLocaleString("en")} of ${total.toLocaleString("en")}${moved !== null && after >= moved ? ": UNDO" : ""}`);
    message.at(place, isEnd ? "" : "next: ");
    message.counts(answer, isEnd);
    editor.markStep(place && place.offset);
    screen.show(answer.output, isEnd && answer.stand === "asks", answer.question);
    data.show(names, answer.values);
    steps.show(at, total, accepted, moved);
  }

  // ---- the beginning
  const kept = files.kept(), isText = (what) => what && typeof what.name === "string" && typeof what.text === "string" && what.text !== "";
  if (isText(kept.own)) own = { name: kept.own.name, text: kept.own.text };
  if (isText(kept)) open(kept.name, kept.text);
  else open(lessons[0].name, lessons[0].text);
  isOwn = Boolean(kept.isOwn);
  keep();
  document.body.dataset.ready = "yes";
}

openPage();
