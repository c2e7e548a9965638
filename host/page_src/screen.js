"use strict";
// The pendant's screen: what TPWrite wrote, and a field where TPReadNum asks.

function makeScreen(answered) {
  const output = document.getElementById("output"), form = document.getElementById("question"), label = document.getElementById("prompt"), field = document.getElementById("number"), wrong = document.getElementById("number-wrong");
  const LEAST = -(2 ** 31), MOST = 2 ** 31 - 1; // an input is a number of 32 bits

  // for fingers: keys for digits alone may have no minus
  document.getElementById("sign").addEventListener("click", () => { field.value = field.value.startsWith("-") ? field.value.slice(1) : `-${field.value}`; field.focus(); });
  form.addEventListener("submit", (event) => {
    event.preventDefault();
    const number = Number(field.value.trim());
    const fits = /^[-+]?\d+$/.test(field.value.trim()) && number >= LEAST && number <= MOST;
    wrong.hidden = fits;
    field.setAttribute("aria-invalid", String(!fits));
    if (fits) answered(number);
    else field.select();
  });

  return {
    show(written, asks, question) {
      output.textContent = written;
      output.classList.toggle("empty", written === "");
      document.body.classList.toggle("asking", asks);
      form.hidden = !asks;
      wrong.hidden = true;
      if (asks) {
        label.textContent = question;
        field.value = "";
        field.focus();
      }
      if (written || asks) output.parentElement.scrollTop = output.parentElement.scrollHeight;
    },
  };
}
