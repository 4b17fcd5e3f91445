// Search and filters. All that a page has is there without this; what is hidden or marked here is so on a screen alone.
"use strict";

const openFolds = (element) => {
  const opened = [];
  for (let fold = element.parentElement.closest("details"); fold; fold = fold.parentElement.closest("details")) {
    if (fold.open) continue;
    fold.open = true;
    opened.push(fold);
  }
  return opened;
};

const textsOf = (elements) => elements.map((each) => each.textContent.toLowerCase());

// what a link leads to may be in a fold
const openTarget = () => {
  const target = location.hash.length > 1 && document.getElementById(location.hash.slice(1));
  if (!target) return;
  openFolds(target);
  const own = target.querySelector("details");
  if (own && own.closest("[id]") === target) own.open = true;
  target.scrollIntoView();
};
addEventListener("hashchange", openTarget);
openTarget();

// no more folds are opened by a key than this; the others as one goes to them
const MOST = 200;

for (const box of document.querySelectorAll(".search")) {
  const host = box.closest(".host"), input = box.querySelector("input"), said = box.querySelector("output");
  let rows = null, texts = null, hits = [], opened = [], at = -1;
  const tell = () => {
    const count = hits.length === 1 ? "1 hit" : hits.length ? `${hits.length} hits` : "no hit";
    said.textContent = input.value.trim() ? (at < 0 ? count : `${at + 1} of ${count}`) : "";
  };
  const search = () => {
    rows = rows || [...host.querySelectorAll("tbody tr, .member > details > summary, .finding > details > summary, .tree .at, .unseen li")];
    texts = texts || textsOf(rows);
    const word = input.value.trim().toLowerCase();
    for (const each of hits) each.classList.remove("hit", "here");
    for (const each of opened) each.open = false;
    hits = word ? rows.filter((_, row) => texts[row].includes(word)) : [];
    opened = hits.slice(0, MOST).flatMap(openFolds);
    for (const each of hits) each.classList.add("hit");
    at = -1;
    tell();
  };
  const go = (step) => {
    if (!hits.length) return;
    if (at >= 0) hits[at].classList.remove("here");
    at = (at + step + hits.length + (at < 0 && step < 0 ? 1 : 0)) % hits.length;
    opened.push(...openFolds(hits[at]));
    hits[at].classList.add("here");
    hits[at].scrollIntoView({ block: "center" });
    tell();
  };
  box.hidden = false;
  input.addEventListener("input", search);
  input.addEventListener("keydown", (event) => { if (event.key === "Enter") go(event.shiftKey ? -1 : 1); });
  box.querySelector("button").addEventListener("click", () => go(1));
}

for (const box of document.querySelectorAll(".filters")) {
  const section = box.closest("section"), said = box.querySelector("output"), folds = [...section.querySelectorAll(".rest, .slice")];
  const rows = [...section.querySelectorAll("tbody tr")], fields = [...box.querySelectorAll("select, input")];
  if (rows.length < 2) continue;
  const isByWhom = fields.length > 2, whose = rows.map((row) => (isByWhom ? row.cells[2].textContent : "")), names = rows.map((row) => row.cells[1].textContent.toLowerCase());
  const words = rows.map((row) => [...row.cells[0].children].map((each) => each.lastChild.textContent.trim()));
  [new Set(words.flat()), new Set(whose)].slice(0, fields.length - 1).forEach((values, at) => {
    fields[at].append(...[...values].filter(Boolean).sort().map((each) => new Option(each)));
  });
  box.hidden = false;
  box.addEventListener("input", () => {
    const [answer, whom, name] = isByWhom ? fields.map((each) => each.value) : [fields[0].value, "", fields[1].value];
    const isAny = Boolean(answer || whom || name.trim()), part = name.trim().toLowerCase();
    let kept = 0;
    rows.forEach((row, at) => {
      const isKept = (!answer || words[at].includes(answer)) && (!whom || whose[at] === whom) && names[at].includes(part);
      row.classList.toggle("miss", !isKept);
      kept += isKept;
    });
    if (isAny) folds.forEach((each) => { each.open = true; });
    said.textContent = isAny ? `${kept || "none"} of ${rows.length}` : "";
  });
}
