"use strict";
// The module's data at a step, by their names. What differs from what was shown before is marked.

function makeData(bench) {
  const panel = document.getElementById("values"), table = document.getElementById("data");
  let before = null;

  // each word with its index, where the name is an array's
  function valuesOf(datum, values) {
    const cell = document.createElement("td");
    for (let i = 0; i < datum.words; i++) {
      const item = document.createElement("span"), index = document.createElement("small");
      if (datum.isArray) index.textContent = i + 1;
      item.append(index, bench.valueOf(datum, values[datum.first + i]));
      item.classList.toggle("new", before !== null && before[datum.first + i] !== values[datum.first + i]);
      cell.append(item);
    }
    return cell;
  }

  return {
    show(data, values) {
      const rows = document.createDocumentFragment();
      for (const datum of data) {
        const row = document.createElement("tr"), name = document.createElement("th");
        name.textContent = datum.name;
        name.scope = "row";
        row.append(name, valuesOf(datum, values));
        rows.append(row);
      }
      table.tBodies[0].replaceChildren(rows);
      panel.hidden = data.length === 0;
      before = values;
    },
    forget() { before = null; },
  };
}
