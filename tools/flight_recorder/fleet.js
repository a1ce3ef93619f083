// Shows the flights of a fleet: sorted by a column, and those alone in which a text is found.
"use strict";
const page = {
    rows: JSON.parse(document.getElementById("rows").textContent),
    most: 2000, // rows that are shown at once
    column: null,
    down: false,
    find: document.getElementById("find"),
    status: document.getElementById("status"),
    body: document.querySelector("#flights tbody"),

    // Whether one value comes before another; empty ones come last, whichever way it is sorted.
    compare(one, other) {
        const empty = (value) => value === null || value === "";
        if (empty(one) || empty(other)) {
            return empty(one) - empty(other);
        }
        const order = typeof one === "number" && typeof other === "number" ? one - other : String(one).localeCompare(String(other));
        return page.down ? -order : order;
    },

    // The rows that are wanted, in their order.
    wanted() {
        const text = page.find.value.toLowerCase();
        const has = (row) => row.slice(0, -1).some((value) => String(value ?? "").toLowerCase().includes(text));
        const rows = page.rows.filter((row) => (!page.status.value || row[2] === page.status.value) && (!text || has(row)));
        return page.column === null ? rows : rows.sort((one, other) => page.compare(one[page.column], other[page.column]));
    },

    // A flight as a row of the table, linked to its report where there is one.
    line(row) {
        const line = document.createElement("tr");
        line.className = row[2];
        const link = row[row.length - 1];
        row.slice(0, -1).forEach((value, column) => {
            const cell = line.insertCell();
            if (typeof value === "number") {
                cell.className = "number";
            }
            if (column === 0 && link) {
                const anchor = cell.appendChild(document.createElement("a"));
                anchor.href = link.split("/").map(encodeURIComponent).join("/");
                anchor.textContent = value;
            } else {
                cell.textContent = value ?? "";
            }
        });
        return line;
    },

    show() {
        const rows = page.wanted();
        page.body.replaceChildren(...rows.slice(0, page.most).map(page.line));
        const more = rows.length > page.most ? `, of which the first ${page.most} are shown` : "";
        document.getElementById("shown").textContent = `${rows.length} of ${page.rows.length} flights${more}`;
    },

    sort(column) {
        page.down = page.column === column && !page.down;
        page.column = column;
        document.querySelectorAll("th").forEach((head, at) => {
            head.ariaSort = at !== column ? "none" : page.down ? "descending" : "ascending";
        });
        page.show();
    },
};
page.find.addEventListener("input", page.show);
page.status.addEventListener("input", page.show);
document.querySelector("thead").addEventListener("click", (event) => {
    const button = event.target.closest("button");
    if (button) {
        page.sort(Number(button.dataset.column));
    }
});
page.show();
window.page = page;
