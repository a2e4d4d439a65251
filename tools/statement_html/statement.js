// The statement as HTML: the search over its names, what a name says under the pointer, and light or dark.
"use strict";

const MOST_FOUND = 40;
const search = document.getElementById("search");
const found = document.getElementById("found");
const says = document.getElementById("says");
const byAddress = new Map(NAMES.map(([name, address, said]) => [address, { name, said }]));

// How well a name fits what is looked for: the lower the better, and undefined where it doesn't.
function fit(name, said, wanted) {
  const at = name.toLowerCase().indexOf(wanted);
  if (at === 0) return name.length === wanted.length ? 0 : 1;
  if (at > 0) return 2;
  return said.toLowerCase().includes(wanted) ? 3 : undefined;
}

function row([name, address, said]) {
  const item = document.createElement("li");
  const link = item.appendChild(document.createElement("a"));
  link.href = address;
  link.appendChild(document.createElement("b")).textContent = name;
  link.appendChild(document.createElement("span")).textContent = said;
  return item;
}

function look() {
  const wanted = search.value.trim().toLowerCase();
  const fits = wanted ? NAMES.map((it) => [fit(it[0], it[2], wanted), it]).filter(([rank]) => rank !== undefined) : [];
  fits.sort(([a, x], [b, y]) => a - b || x[0].length - y[0].length);
  found.replaceChildren(...fits.slice(0, MOST_FOUND).map(([, it]) => row(it)));
  if (found.firstChild) found.firstChild.className = "first";
  found.hidden = !fits.length;
}

search.addEventListener("input", look);
search.addEventListener("keydown", (event) => {
  if (event.key === "Enter" && found.firstChild) found.firstChild.firstChild.click();
  if (event.key === "Escape") {
    search.value = "";
    look();
  }
});
found.addEventListener("click", () => {
  found.hidden = true;
});
document.addEventListener("keydown", (event) => {
  if (event.key === "/" && document.activeElement !== search) {
    event.preventDefault();
    search.focus();
  }
});

// Shows what the name of a link says, below it, or above where there is no room.
function show(link) {
  const it = byAddress.get(link.getAttribute("href"));
  if (!it || !it.said || !link.closest("pre, details")) return;
  says.textContent = it.said;
  says.hidden = false;
  const place = link.getBoundingClientRect();
  const below = place.bottom + 4 + says.offsetHeight < innerHeight;
  says.style.left = `${Math.max(4, Math.min(place.left, innerWidth - says.offsetWidth - 4))}px`;
  says.style.top = `${below ? place.bottom + 4 : place.top - says.offsetHeight - 4}px`;
}

for (const [on, off] of [["pointerover", "pointerout"], ["focusin", "focusout"]]) {
  document.addEventListener(on, (event) => {
    const link = event.target.closest && event.target.closest("a");
    if (link) show(link);
  });
  document.addEventListener(off, () => {
    says.hidden = true;
  });
}

// Light or dark: what was chosen last, and else what the system says.
const root = document.documentElement;
function kept(theme) {
  try {
    if (theme) localStorage.setItem("theme", theme);
    return localStorage.getItem("theme");
  } catch {
    return theme;
  }
}
if (kept()) root.dataset.theme = kept();
document.getElementById("theme").addEventListener("click", () => {
  const dark = root.dataset.theme ? root.dataset.theme === "dark" : matchMedia("(prefers-color-scheme: dark)").matches;
  root.dataset.theme = dark ? "light" : "dark";
  kept(root.dataset.theme);
});
