"use strict";
// The lessons in a list, each with what it teaches; above them the text that one wrote before one of them was opened.

function makeLessons(lessons, chosen) {
  const dialog = document.getElementById("lessons"), list = document.getElementById("lesson-list"), own = document.createElement("li");

  function entry(item, lesson) {
    const button = document.createElement("button");
    for (const [name, content] of [["strong", lesson.name], ["span", lesson.teaches], ["small", lesson.wrong]]) {
      const part = document.createElement(name);
      part.textContent = content;
      if (content) button.append(part);
    }
    button.addEventListener("click", () => { dialog.close(); chosen(lesson); });
    item.replaceChildren(button);
    list.append(item);
  }

  list.append(own);
  for (const lesson of lessons) entry(document.createElement("li"), lesson);
  document.getElementById("open-lessons").addEventListener("click", () => dialog.showModal());
  return {
    showOwn(text) {
      if (!text) return;
      entry(own, { ...text, teaches: "Your own text, as you left it", wrong: "" });
      list.prepend(own);
    },
  };
}
