// Marks all places of the parameters that are typed or clicked.
"use strict";
const page = {
    names: JSON.parse(document.getElementById("names").textContent),
    places: new Map(),
    box: document.querySelector("header input"),
    chosen: [],

    // Marks the places of these parameters, and shows the first of them.
    choose(names) {
        for (const name of page.chosen) {
            page.places.get(name).forEach((one) => one.classList.remove("chosen"));
        }
        page.chosen = names;
        let count = 0;
        for (const name of names) {
            page.places.get(name).forEach((one) => one.classList.add("chosen"));
            count += page.places.get(name).filter((one) => one.tagName === "P").length;
        }
        document.getElementById("found").textContent = names.length ? `${names.join(", ")}: ${count} in the grid` : "";
    },

    // Shows the first place of a parameter.
    show(name) {
        page.places.get(name).find((one) => one.tagName === "P").scrollIntoView({ block: "center" });
    },
};
for (const name of page.names) {
    page.places.set(name, []);
}
for (const one of document.querySelectorAll("[data-name]")) {
    page.places.get(one.dataset.name).push(one);
}
document.querySelector("main").addEventListener("click", (event) => {
    const one = event.target.closest("[data-name]");
    if (!one) {
        return;
    }
    const name = one.dataset.name;
    page.choose(page.chosen.length === 1 && page.chosen[0] === name ? [] : [name]);
    if (one.tagName === "BUTTON") {
        page.show(name);
    }
});
page.box.addEventListener("input", () => {
    const text = page.box.value.trim().toLowerCase();
    page.choose(text ? page.names.filter((name) => name.toLowerCase().includes(text)) : []);
    if (page.chosen.length) {
        page.show(page.chosen[0]);
    }
});
window.page = page;
