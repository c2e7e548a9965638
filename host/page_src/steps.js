"use strict";
// The buttons below the text: run, stop, and step through a run forwards and backwards.

function makeSteps(actions) {
  const buttons = {};
  for (const name of ["run", "first", "back", "forth", "last"]) {
    buttons[name] = document.getElementById(name);
    buttons[name].addEventListener("click", () => actions[name]());
  }
  const toMain = document.getElementById("to-main");
  toMain.addEventListener("click", () => actions.toMain());
  const track = document.getElementById("track"), progress = document.getElementById("progress"), caption = buttons.run.querySelector("span");
  track.addEventListener("input", () => actions.to(Number(track.value)));
  document.addEventListener("keydown", (event) => {
    const name = (event.ctrlKey || event.metaKey) && event.key === "Enter" ? "run" : { F9: "back", F10: "forth" }[event.key];
    if (!name || document.querySelector("dialog[open]")) return;
    event.preventDefault();
    if (!buttons[name].disabled) actions[name]();
  });

  return {
    // `at` of `total` steps are shown; null where nothing has run. The pointer can be moved where a step is left, and no UNDO list runs.
    show(at, total, mayRun, moved = null) {
      const runs = at !== null;
      toMain.disabled = !mayRun || !runs || at >= (moved === null ? total : moved);
      buttons.run.disabled = !mayRun;
      buttons.forth.disabled = buttons.last.disabled = !mayRun || (runs && at === total);
      buttons.first.disabled = buttons.back.disabled = !mayRun || !runs || at === 0;
      track.disabled = !runs || total === 0;
      track.max = runs ? total : 0;
      track.value = runs ? at : 0;
      track.setAttribute("aria-valuetext", runs ? `step ${at} of ${total}` : "no run");
    },
    busy(isBusy) {
      document.body.classList.toggle("busy", isBusy);
      caption.textContent = isBusy ? "Stop" : "Run";
      if (isBusy) {
        for (const name of ["first", "back", "forth", "last"]) buttons[name].disabled = true;
        buttons.run.disabled = false;
        track.disabled = toMain.disabled = true;
      }
      progress.hidden = true;
      track.hidden = false;
    },
    progress(steps, allowed) {
      progress.hidden = false;
      track.hidden = true;
      progress.max = allowed;
      progress.value = steps;
      progress.textContent = `${steps} steps`;
    },
  };
}
