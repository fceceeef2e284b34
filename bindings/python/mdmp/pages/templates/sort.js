"use strict";
// Each heading becomes a button that sorts its table by the column, upwards and then downwards.
for (const table of document.querySelectorAll("table.sorted")) {
  table.querySelectorAll("thead th").forEach((head, column) => {
    const button = document.createElement("button");
    button.type = "button";
    button.append(...head.childNodes);
    head.append(button);
    button.addEventListener("click", () => {
      const down = head.getAttribute("aria-sort") === "ascending";
      for (const other of table.querySelectorAll("thead th")) other.removeAttribute("aria-sort");
      head.setAttribute("aria-sort", down ? "descending" : "ascending");
      const key = (row) => row.cells[column].textContent;
      const number = (text) => (/^\d[\d,]*$/.test(text) ? BigInt(text.replaceAll(",", "")) : null);
      const order = (one, other) => {
        const [a, b] = [number(one), number(other)];
        if (a !== null && b !== null) return a < b ? -1 : a > b ? 1 : 0;
        if (one.startsWith("0x") && other.startsWith("0x")) return one < other ? -1 : one > other ? 1 : 0;
        return one.localeCompare(other, undefined, { numeric: true });
      };
      const rows = [...table.tBodies[0].rows].sort((a, b) => order(key(a), key(b)));
      if (down) rows.reverse();
      table.tBodies[0].append(...rows);
    });
  });
}
