"use strict";
// The message: a refusal, an ending or where a step stands. A screen reader reads it out.

function makeMessage(goTo) {
  const box = document.getElementById("message"), title = document.getElementById("message-title"), where = document.getElementById("message-place"), counts = document.getElementById("counts");
  let place = null;
  where.addEventListener("click", () => goTo(place));
  const counted = (count, what) => `${count.toLocaleString("en")} ${what}${count === 1 ? "" : "s"}`;

  return {
    say(kind, text) {
      box.className = kind;
      title.textContent = text;
      where.hidden = true;
      counts.textContent = "";
    },
    // at: { offset, line, column } or null
    at(at, before) {
      place = at && at.offset;
      where.hidden = !at;
      where.textContent = at ? `${before}line ${at.line}, column ${at.column}` : "";
    },
    counts(answer, isEnd) {
      const parts = isEnd ? [counted(answer.steps, "step")] : [];
      if (answer.inputsUsed) parts.push(`${counted(answer.inputsUsed, "input")} used`);
      if (answer.error) parts.push(`ERRNO ${answer.error}${answer.errorName ? ` (${answer.errorName})` : ""}`);
      counts.textContent = parts.join(" · ");
    },
  };
}
