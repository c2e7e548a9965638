"use strict";
// The text: an editor with line numbers and coloured words. What is typed stands in a field with transparent letters; behind it the lines in view are painted, as the bench lists their words.

function makeEditor(bench, changed) {
  const scroller = document.getElementById("editor"), field = document.getElementById("text"), lines = document.getElementById("lines"), numbers = document.getElementById("numbers");
  const SPARE = 12; // lines painted above and below those in view
  const TAB = 4;
  let text = "", starts = [0], words = new Uint32Array(0), refused = null, step = null, height = 24, advance = 9; // of a line and of a letter, in pixels

  // ---- lines
  function lineOf(place) {
    let low = 0, high = starts.length;
    while (high - low > 1) { const middle = (low + high) >> 1; if (starts[middle] <= place) low = middle; else high = middle; }
    return low;
  }
  const endOf = (line) => (line + 1 < starts.length ? starts[line + 1] - 1 : text.length);
  const placeOf = (place) => { const line = lineOf(place); return { line: line + 1, column: place - starts[line] + 1 }; };

  function measure() {
    starts = [0];
    for (let i = text.indexOf("\n"); i >= 0; i = text.indexOf("\n", i + 1)) starts.push(i + 1);
    let widest = 0;
    for (let line = 0; line < starts.length; line++) {
      let width = endOf(line) - starts[line];
      for (let i = text.indexOf("\t", starts[line]); i >= 0 && i < endOf(line); i = text.indexOf("\t", i + 1)) width += TAB - 1;
      widest = Math.max(widest, width);
    }
    for (const [name, value] of [["--lines", starts.length], ["--columns", widest + 2], ["--digits", String(starts.length).length]]) {
      if (scroller.style.getPropertyValue(name) !== String(value)) scroller.style.setProperty(name, value);
    }
  }

  // ---- painting
  function piece(into, from, to, kind) {
    if (refused && refused.start < to && refused.end > from) {
      const a = Math.max(from, refused.start), b = Math.min(to, refused.end);
      if (from < a) span(into, text.slice(from, a), kind);
      span(into, text.slice(a, b), `${kind} refused`);
      if (b < to) span(into, text.slice(b, to), kind);
    } else span(into, text.slice(from, to), kind);
  }

  function span(into, content, kind) {
    if (kind === "comment" && /^[ \t\r]*$/.test(content)) { into.append(content); return; }
    const element = document.createElement("span");
    element.className = kind;
    element.textContent = content;
    into.append(element);
  }

  // the index of the first word that ends behind a place
  function wordBehind(place) {
    let low = 0, high = words.length / 3;
    while (low < high) { const middle = (low + high) >> 1; if (words[3 * middle + 1] + words[3 * middle + 2] > place) high = middle; else low = middle + 1; }
    return low;
  }

  // between words there is nothing but blanks and comments; behind the last listed word, where listing stopped, there may be anything
  function paintLine(line) {
    const element = document.createElement("div"), end = endOf(line);
    let from = starts[line];
    for (let i = wordBehind(from); 3 * i < words.length && words[3 * i + 1] < end; i++) {
      const place = words[3 * i + 1], length = words[3 * i + 2];
      if (from < place) piece(element, from, place, "comment");
      piece(element, place, place + length, KINDS[words[3 * i]] + (place === step ? " next" : ""));
      from = place + length;
    }
    if (from < end) piece(element, from, end, "comment");
    if (refused && refused.start === refused.end && refused.start >= starts[line] && refused.start <= end) span(element, " ", "refused");
    return element;
  }

  function paint() {
    const first = Math.max(0, Math.floor(scroller.scrollTop / height) - SPARE), last = Math.min(starts.length, Math.ceil((scroller.scrollTop + scroller.clientHeight) / height) + SPARE);
    const painted = document.createDocumentFragment(), counted = document.createDocumentFragment(), at = step === null ? -1 : lineOf(step), bad = refused ? lineOf(refused.start) : -1;
    for (let line = first; line < last; line++) {
      const element = paintLine(line), number = document.createElement("div");
      number.textContent = line + 1;
      number.className = element.className = line === at ? "current" : line === bad ? "bad" : "";
      painted.append(element);
      counted.append(number);
    }
    for (const [layer, content] of [[lines, painted], [numbers, counted]]) {
      layer.style.top = `${first * height}px`;
      layer.replaceChildren(content);
    }
  }

  function reveal(place) {
    const top = lineOf(place) * height, left = (place - starts[lineOf(place)]) * advance, width = scroller.clientWidth - numbers.clientWidth;
    if (top < scroller.scrollTop || top + 2 * height > scroller.scrollTop + scroller.clientHeight) scroller.scrollTop = top - scroller.clientHeight / 3;
    scroller.scrollLeft = left + 8 * advance < width ? 0 : left - width / 2;
  }

  // sizes may change with the window and with the browser's own settings
  function resized() {
    const probe = document.createElement("span");
    probe.textContent = "0".repeat(100);
    lines.append(probe);
    height = parseFloat(getComputedStyle(field).lineHeight);
    advance = probe.getBoundingClientRect().width / 100 || advance;
    if (step !== null) reveal(step);
    paint();
  }

  function take() {
    text = field.value;
    words = bench.words(text);
    refused = step = null;
    measure();
    paint();
  }

  field.addEventListener("input", () => { take(); changed(); });
  scroller.addEventListener("scroll", paint, { passive: true });
  new ResizeObserver(resized).observe(scroller);

  return {
    field,
    placeOf,
    reveal,
    text: () => text,
    set(content) { field.value = content; take(); scroller.scrollTop = scroller.scrollLeft = 0; },
    // a refused word, which may be no word, or the end of the text
    markRefused(place) { refused = place === null ? null : { start: place, end: Math.min(text.length, place + Math.max(1, bench.wordAt(text, place))) }; paint(); },
    markStep(place) { if (place === step) return; step = place; if (place !== null) reveal(place); paint(); },
    select(place) { field.focus(); field.setSelectionRange(place, place + bench.wordAt(text, place)); reveal(place); },
  };
}
