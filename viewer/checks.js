"use strict";
// What viewer/browse tries of a page beside its counts, within the page. Each check gives a sentence for each thing that is
// wrong, but `stops` and `does`, which give lines that viewer/test compares.

const MOST_SCREENS = 8;
const MOST_STOPS = 40;
const SAYS_RULE = 20; // letters: a rule is a sentence

const texts = (selector) => [...document.querySelectorAll(selector)].map((one) => one.textContent);
const isShown = () => page.model !== null && page.model.lanes.length > 0;
const isNarrowWindow = () => window.innerWidth <= 800;

/** The number of a datagram is never cut. */
function cutNumbers() {
  const rightOf = (one) => one.getBoundingClientRect().right;
  const isCut = (one) => rightOf(one) > rightOf(one.closest(".box")) || one.scrollWidth > one.clientWidth + 1;
  return [...document.querySelectorAll(".box .number")].filter(isCut).map((one) => `the number ${one.textContent} is cut`);
}

/** No digest stands whole twice. */
function wholeTwice() {
  const found = document.body.innerText.match(/(?<![0-9a-f])[0-9a-f]{64}(?![0-9a-f])/g) ?? [];
  return found.filter((digest, i) => found.indexOf(digest) !== i).map((digest) => `${digest} stands whole twice`);
}

/** Nothing but the chart is wider than its place, and the page never is. */
function tooWide() {
  const places = [...document.querySelectorAll(".card:not(.chart), #told p, table")];
  const wide = places.filter((one) => one.scrollWidth > one.clientWidth + 1);
  const whole = document.documentElement.scrollWidth > window.innerWidth ? ["the page is wider than its window"] : [];
  return [...whole, ...wide.map((one) => `${one.id || one.tagName} is wider than its place`)];
}

/** In a narrow window each field of the sessions' table stands below the last, with its column's name. */
function stackFaults() {
  const rows = [...document.querySelectorAll("#sessions tbody tr")];
  const isStacked = (row) => getComputedStyle(row).display === "block";
  const isNamed = (cell) => getComputedStyle(cell, "::before").content === `"${cell.dataset.label}"`;
  if (!isNarrowWindow()) return rows.some(isStacked) ? ["the sessions are stacked in a wide window"] : [];
  const cells = rows.flatMap((row) => [...row.querySelectorAll("td")]);
  return [
    rows.every(isStacked) ? null : "the sessions aren't stacked",
    cells.every(isNamed) ? null : "a field has no name",
  ].filter(Boolean);
}

/** Where there is more at a side, a shade and a sentence say so. */
function scrollFaults() {
  chart.scrollLeft = 0;
  chart.scrollTop = 0;
  drawRows();
  const looks = byId("edges").className;
  const told = byId("sight").textContent;
  const isWider = chart.scrollWidth > chart.clientWidth + 1;
  const isTaller = chart.scrollHeight > chart.clientHeight + 1;
  const says = `and it says "${looks}", "${told}"`;
  return [
    isWider === looks.includes("right") && isWider === /lanes? .* of/.test(told) ? null : `wider: ${isWider}, ${says}`,
    isTaller === looks.includes("below") && isTaller === /rows .* of/.test(told) ? null : `taller: ${isTaller}, ${says}`,
  ].filter(Boolean);
}

/** Above a hundred events Echo and Confirm begin hidden, and the page says so and shows them by choice. */
function hidingFaults() {
  const { trace, datagrams } = page.model;
  const isMany = trace.isTraced && trace.events.length > 100;
  const wanted = isMany ? ["Echo", "Confirm"].filter((name) => datagrams.some((one) => kindName(one.message) === name)) : [];
  const unchecked = [...document.querySelectorAll("#filters label:has(input:not(:checked))")];
  const off = unchecked.map((label) => label.textContent.split(" ")[0]).filter((name) => name !== "narrow");
  const told = [...document.querySelectorAll("#told p")].filter((one) => one.textContent.includes("begin hidden"));
  const faults = off.sort().join() === [...wanted].sort().join() ? [] : [`hidden are "${off}", and "${wanted}" is wanted`];
  if ((told.length > 0) !== (wanted.length > 0)) faults.push("what is hidden isn't told");
  told[0]?.querySelector("button").click();
  const isTold = wanted.length > 0 && texts("#told").join().includes("begin hidden");
  if (page.filters.hidden.size > 0 || isTold) faults.push("they aren't shown by choice");
  return faults;
}

/** Each event is in one row, what folds says nothing of slots or views, and opens and closes by a click. */
function foldFaults() {
  const { items } = page.layout;
  const folds = items.filter((item) => item.run.length > 1);
  const count = (all) => all.reduce((sum, item) => sum + item.run.length, 0);
  const faults = count(items) === page.model.rows.length ? [] : [`${count(items)} rows of ${page.model.rows.length} are shown`];
  const isWrong = ({ run }) => run.length < 3 || run.some(({ row }) => row.event?.marks.length > 0);
  if (folds.some(isWrong)) faults.push("a fold has what doesn't fold");
  if (folds.length > 0) faults.push(...clickFold(items.indexOf(folds[0]), items.length, folds[0].run.length));
  const label = () => [...document.querySelectorAll("#filters label")].find((one) => one.textContent === "fold what is alike");
  label().click();
  if (page.layout.items.length !== page.model.rows.length) faults.push("folds can't be switched off");
  label().click();
  return faults;
}

function clickFold(place, before, size) {
  const rows = page.layout.items[place].run.map(({ row }) => row);
  const button = () => { showItem(place); drawRows(); return document.querySelector(`#row-${rows[0].index} .when button`); };
  button().click();
  const isOpen = page.layout.items.length === before + size - 1;
  button().click();
  return isOpen && page.layout.items.length === before ? [] : ["a fold doesn't open and close"];
}

/** What is in the history and isn't decided has its note. */
function noteFaults() {
  const bare = [...document.querySelectorAll("#sessions tbody tr")].filter((row) => {
    const session = page.model.sessions.get(row.dataset.session);
    const isNoted = row.textContent.includes("all shards voted commit; no node has decided it yet");
    return isNoted !== (session.place !== null && session.decisions.size === 0);
  });
  return bare.map((row) => `session ${row.dataset.session.slice(0, 4)} has its note wrongly`);
}

/** Each count of events leads through them all, and each stop has what is to be asked there. */
function stops() {
  const lines = [];
  for (const name of ["votes", "decisions", "views", "drops"]) {
    const button = document.querySelector(`[data-say="${name}"]`).closest("button");
    const { count, faults } = button ? goThrough(name, button) : { count: 0, faults: [] };
    lines.push(...faults.map((one) => `wrong ${one}`), count === null ? null : `stops ${name} ${count}`);
  }
  letGo();
  return lines.filter(Boolean);
}

function goThrough(name, button) {
  const seen = new Set();
  const faults = [];
  for (button.click(); !seen.has(page.current); button.click()) {
    if (seen.size >= MOST_STOPS) return { count: null, faults };
    seen.add(page.current);
    faults.push(...stopFaults(name), ...wholeTwice());
  }
  return { count: seen.size, faults };
}

const QUESTIONS = {
  votes: /^Why (is this locked|commit|abort)\?$/,
  decisions: /^Why (accepted|aborted|was this skipped)\?$/,
  views: /^/,
  drops: /^Why was this dropped\?$/,
};

function stopFaults(name) {
  const row = page.current;
  const box = document.querySelector(`#row-${row.index} .box`)?.getBoundingClientRect();
  const own = chart.getBoundingClientRect();
  const isInSight = box && box.top >= own.top && box.top < own.bottom && box.left >= own.left && box.left < own.right;
  const asked = texts("#chosen .why h4");
  const canJudge = page.model.isPlayed && row.event.marks.some((mark) => page.model.sessions.get(mark.session)?.content);
  const isFree = name === "views" || (name !== "drops" && !canJudge);
  const isAsked = isFree || asked.some((one) => QUESTIONS[name].test(one));
  const answerOf = (one) => [...one.querySelectorAll("p")].map((part) => part.textContent).join(" ");
  const isAnswered = [...document.querySelectorAll("#chosen .why")].every((one) => answerOf(one).length >= SAYS_RULE);
  return [isInSight ? null : `the stop ${name} at event ${row.event.number} isn't in sight`,
    isAsked && isAnswered ? null : `the stop ${name} at event ${row.event.number} has no answer`].filter(Boolean);
}

/** What each session does, as its row says. */
function does() {
  return [...document.querySelectorAll("#sessions tbody tr")].map((row) => `does ${row.cells[1].textContent}`);
}

/** Every method is named. */
function nameFaults() {
  return [...document.querySelectorAll("#sessions tbody tr")].flatMap((row) => {
    const { content } = page.model.sessions.get(row.dataset.session);
    const told = row.cells[1].textContent;
    const isNamed = !content || content.traces.every((trace) => told.includes(`${trace.method}: `));
    return isNamed ? [] : [`session ${row.dataset.session.slice(0, 4)} has a method without its name: ${told}`];
  });
}

/** Sessions, and a datagram of each kind, chosen. */
function choiceFaults() {
  const faults = [];
  const kinds = new Map(page.model.datagrams.map((datagram) => [kindName(datagram.message), datagram]));
  const sessions = [...page.model.sessions.values()].slice(0, 6);
  for (const [what, item] of [...sessions.map((one) => ["session", one]), ...[...kinds.values()].map((one) => ["datagram", one])]) {
    choose(what, item);
    faults.push(...wholeTwice(), ...tooWide());
  }
  letGo();
  return faults;
}

/** The chart, screen after screen. */
function screenFaults() {
  const faults = [];
  for (let screen = 0; screen < MOST_SCREENS; screen += 1) {
    chart.scrollTop = screen * chart.clientHeight;
    drawRows();
    faults.push(...cutNumbers());
  }
  chart.scrollTop = 0;
  drawRows();
  return faults;
}

/** Every answer to a question, with its event and the ways on. */
function whys() {
  const rows = page.model.rows.filter((row) => row.event);
  const spaced = (one) => one.textContent.replace(/\s+/g, " ");
  const told = (row, one) => [row.event.number, ...[...one.querySelectorAll("h4, p, button")].map(spaced)].join(" | ");
  return rows.flatMap((row) => whysOf(row).map((one) => `why ${told(row, one)}`));
}

/** All of this, in lines. */
function checked() {
  if (!isShown()) return [...wholeTwice(), ...tooWide()].map((one) => `wrong ${one}`);
  const checks = [hidingFaults, wholeTwice, tooWide, stackFaults, scrollFaults, foldFaults, noteFaults, nameFaults, choiceFaults,
    screenFaults];
  return [...checks.flatMap((check) => check()).map((one) => `wrong ${one}`), ...stops(), ...does()];
}

/** What the page opens on, and whether it can be cleared. */
function openingFaults(schedule, trace) {
  const faults = [
    page.texts.schedule === schedule && page.texts.trace === trace ? null : "the example isn't that of examples/",
    texts("#told").join().includes("This is an example that the page holds") ? null : "it doesn't say that this is an example",
  ];
  byId("clear").click();
  const isClear = byId("drawn").hidden && byId("told").childElementCount === 0 && page.model === null && page.texts.trace === null;
  faults.push(isClear ? null : "the page isn't cleared");
  byId("show-example").click();
  faults.push(page.isExample && !byId("drawn").hidden ? null : "the example doesn't come back");
  return faults.filter(Boolean).map((one) => `wrong ${one}`);
}

/** The colour and the line of each family of kinds, as they are drawn. */
function looks() {
  const inkOf = (name) => getComputedStyle(document.documentElement).getPropertyValue(`--${name}`).trim();
  const families = [...new Set(Object.values(KINDS).map((kind) => kind.family))];
  const samples = byId("drawn").appendChild(make("div", { class: "arrow" }, ...families.map(lineSample)));
  const lineOf = (name) => {
    const line = getComputedStyle(samples.querySelector(`.k-${name} .line`));
    const core = getComputedStyle(samples.querySelector(`.k-${name} .core`));
    return `${line.strokeWidth} ${line.strokeDasharray.replaceAll(" ", "")} ${core.display === "none" ? "one" : "two"}`;
  };
  const lines = families.map((name) => `look ${name} ${inkOf(name)} ${lineOf(name)}`);
  samples.remove();
  return [`look card ${inkOf("card")} - - -`, ...lines];
}
