"use strict";
// Runs, in slices and apart from the page: in a worker where the browser has one, so that a run can be stopped at any time; else between two turns of the page.

const FIRST_SLICE = 1 << 16; // steps

// A call begins at main each time; with more steps it is the same run, only longer (demand 3). So each slice is twice as long as the one before, and all of them together take at most twice the time of the last.
async function runInSlices(bench, asked, goesOn) {
  for (let steps = Math.min(FIRST_SLICE, asked.steps); ; steps = Math.min(2 * steps, asked.steps)) {
    const answer = bench.run({ ...asked, steps });
    if (answer.stand === "asks") answer.question = bench.question({ ...asked, steps }, answer);
    if (answer.stand !== "spent" || steps === asked.steps) return answer;
    if (!(await goesOn(answer.steps))) return null;
  }
}

// what the worker does: the library first, then one run after another
function serveRuns() {
  let bench = null;
  const tell = (steps) => { self.postMessage({ steps }); return true; };
  self.onmessage = async ({ data }) => {
    if (data.library) bench = openBench(data.library);
    else {
      try { self.postMessage({ answer: await runInSlices(await bench, data.asked, tell) }); } catch (error) { self.postMessage({ failed: String(error) }); }
    }
  };
}

// { run(asked, progress), stop() }; run gives null where it was stopped
function makeRunner(library, code) {
  let worker = null, finish = null, stopped = false;

  function start() {
    worker = new Worker(URL.createObjectURL(new Blob([code, "\nserveRuns();"], { type: "text/javascript" })));
    worker.postMessage({ library });
  }

  function inWorker(asked, progress) {
    return new Promise((resolve, reject) => {
      finish = resolve;
      if (!worker) start();
      worker.onerror = (event) => { event.preventDefault(); reject(new Error("no worker")); };
      worker.onmessage = ({ data }) => { if ("answer" in data) resolve(data.answer); else if ("failed" in data) reject(new Error(data.failed)); else progress(data.steps); };
      worker.postMessage({ asked });
    });
  }

  async function here(asked, progress) {
    stopped = false;
    return runInSlices(await openBench(library), asked, (steps) => {
      progress(steps);
      return new Promise((resolve) => { setTimeout(() => resolve(!stopped), 0); });
    });
  }

  let run = async (asked, progress) => {
    try { return await inWorker(asked, progress); } catch { run = here; return here(asked, progress); }
  };
  return {
    run: (asked, progress) => run(asked, progress),
    stop() {
      stopped = true;
      if (worker) worker.terminate();
      worker = null;
      if (finish) finish(null);
    },
  };
}
