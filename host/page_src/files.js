"use strict";
// Files: open one, save one, and the last text kept in the browser.

const KEPT = "rapid-bench";

// a file's bytes as a text of one byte a character: UTF-8 where it is that and fits, else Latin-1
function decoded(bytes) {
  try {
    const text = new TextDecoder("utf-8", { fatal: true }).decode(bytes);
    if (/^[\u0000-\u00ff]*$/.test(text)) return text;
  } catch { /* not UTF-8 */ }
  return Array.from(bytes, (byte) => String.fromCharCode(byte)).join("");
}

// Latin-1, as the bench takes it; a text with other characters, which the bench refuses, as UTF-8, so that nothing is lost
const encoded = (text) => (/^[\u0000-\u00ff]*$/.test(text) ? Uint8Array.from(text, (c) => c.charCodeAt(0)) : new TextEncoder().encode(text));

function makeFiles(current, opened) {
  const chooser = document.getElementById("file");
  document.getElementById("open-file").addEventListener("click", () => chooser.click());
  chooser.addEventListener("change", async () => {
    const file = chooser.files[0];
    if (file) opened(file.name.replace(/\.[^.]*$/, ""), decoded(new Uint8Array(await file.arrayBuffer())));
    chooser.value = "";
  });
  document.getElementById("save-file").addEventListener("click", () => {
    const { name, text } = current(), link = document.createElement("a");
    link.href = URL.createObjectURL(new Blob([encoded(text)], { type: "application/octet-stream" }));
    link.download = `${name}.mod`;
    link.click();
    setTimeout(() => URL.revokeObjectURL(link.href), 60000);
  });
  return {
    // a browser may forbid to keep anything: then nothing is kept
    keep(what) { try { localStorage.setItem(KEPT, JSON.stringify(what)); } catch { /* not kept */ } },
    kept() { try { return JSON.parse(localStorage.getItem(KEPT)) || {}; } catch { return {}; } },
  };
}
