// SPDX-License-Identifier: Apache-2.0
// Finds sections that have all words that are typed. INDEX is below this code: `sections` has a title, a page's title, a link and a
// length each, and `words` the numbers of the sections that have a word, each as the difference to the one before it.
(function () {
  "use strict";
  const input = document.querySelector(".find input");
  const list = document.querySelector(".find ol");
  const top = document.documentElement.dataset.top;

  function numbers(differences) {
    let number = 0;
    return differences.split(" ").map((difference) => (number += parseInt(difference, 36)));
  }

  function find(text) {
    const { sections, words } = window.INDEX;
    const typed = text.toLowerCase().match(/[\p{L}\p{N}_]+/gu) || [];
    let scores = null;
    for (const word of typed) {
      const found = new Map();
      for (const known of Object.keys(words)) {
        if (!known.startsWith(word)) continue;
        for (const number of numbers(words[known])) {
          found.set(number, Math.max(found.get(number) || 0, known === word ? 2 : 1));
        }
      }
      sections.forEach(([title, page], number) => {
        const isIn = (words) => words.toLowerCase().includes(word);
        const more = (isIn(title) ? 6 : 0) + (isIn(page) ? 3 : 0) + (isIn(title) && title === page ? 8 : 0);
        if (more) found.set(number, (found.get(number) || 0) + more);
      });
      const before = scores;
      scores = before ? new Map([...found].filter(([n]) => before.has(n)).map(([n, score]) => [n, score + before.get(n)])) : found;
    }
    const whole = text.trim().toLowerCase();
    const rank = ([number, score]) => score + (sections[number][0].toLowerCase() === whole ? 6 : 0);
    return [...(scores || [])]
      .sort((a, b) => rank(b) - rank(a) || sections[a[0]][3] - sections[b[0]][3])
      .slice(0, 12)
      .map(([number]) => sections[number]);
  }

  function item(section) {
    const [title, page, link] = section;
    const li = document.createElement("li");
    const a = li.appendChild(document.createElement("a"));
    a.href = top + link;
    a.textContent = title;
    a.appendChild(document.createElement("small")).textContent = title === page ? "" : page;
    return li;
  }

  function show() {
    const found = find(input.value);
    list.replaceChildren(...found.map(item));
    if (input.value.trim() && !found.length) {
      const li = list.appendChild(document.createElement("li"));
      li.className = "none";
      li.textContent = "No section has all of these words.";
    }
  }

  input.hidden = false;
  input.addEventListener("input", show);
  input.addEventListener("keydown", (event) => {
    const first = list.querySelector("a");
    if (event.key === "Enter" && first) first.click();
    if (event.key === "ArrowDown" && first) { first.focus(); event.preventDefault(); }
    if (event.key === "Escape") { input.value = ""; show(); }
  });
  list.addEventListener("keydown", (event) => {
    const at = [...list.querySelectorAll("a")].indexOf(document.activeElement);
    const step = { ArrowDown: 1, ArrowUp: -1 }[event.key];
    if (step === undefined) return;
    (list.querySelectorAll("a")[at + step] || input).focus();
    event.preventDefault();
  });
  list.addEventListener("click", () => { setTimeout(() => { input.value = ""; show(); }); });
  document.addEventListener("click", (event) => { if (!event.target.closest(".find")) list.replaceChildren(); });
  document.addEventListener("keydown", (event) => {
    if (event.key === "/" && !/INPUT|TEXTAREA/.test(document.activeElement.tagName)) { input.focus(); event.preventDefault(); }
  });
})();
