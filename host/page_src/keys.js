"use strict";
// Keys for signs that a keyboard on the glass hides: shown while one writes with a finger.

function makeKeys(field) {
  for (const key of document.querySelectorAll("#keys button")) {
    key.addEventListener("pointerdown", (event) => event.preventDefault()); // the text keeps the focus, and the keyboard stays
    key.addEventListener("click", () => {
      field.focus();
      // by the browser's own command, so that it can be undone as if it were typed
      if (!document.execCommand("insertText", false, key.textContent)) {
        field.setRangeText(key.textContent, field.selectionStart, field.selectionEnd, "end");
        field.dispatchEvent(new Event("input"));
      }
    });
  }
}
