"use strict";
// The drawer: how many steps, how deep, how much output.

function makeSettings(limits, kept, changed) {
  const dialog = document.getElementById("settings"), standard = { steps: 10000, depth: 16, room: 4096 }, most = { steps: 2 ** 32 - 1, depth: limits.depth, room: limits.room };
  const values = { ...standard, ...kept }, fields = {};

  function take(name) {
    const number = Number(fields[name].value), fits = /^\d+$/.test(fields[name].value) && number <= most[name];
    fields[name].setAttribute("aria-invalid", String(!fits));
    if (fits && number !== values[name]) { values[name] = number; changed(); }
  }

  for (const name of Object.keys(standard)) {
    fields[name] = document.getElementById(name);
    fields[name].max = most[name];
    fields[name].addEventListener("input", () => take(name));
    if (!(Number.isInteger(values[name]) && values[name] >= 0 && values[name] <= most[name])) values[name] = standard[name];
    fields[name].value = values[name];
  }
  document.getElementById("standard").addEventListener("click", () => {
    for (const name of Object.keys(standard)) { fields[name].value = standard[name]; take(name); }
  });
  document.getElementById("open-settings").addEventListener("click", () => dialog.showModal());
  const { version } = limits;
  document.getElementById("version").textContent = `${Math.floor(version / 10000)}.${Math.floor(version / 100) % 100}.${version % 100}`;
  return () => ({ ...values });
}
