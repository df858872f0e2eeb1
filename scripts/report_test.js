// Opens each of `pages` wide, narrow and as it is printed, folded and with all folds open, and says what is wrong with it. For scripts/report_test.sh.

const faults = [];
let pictures = 0;

// As wide as the pages are shown; the last is that of a sheet of paper.
const looks = [{ name: "wide", width: 1000 }, { name: "narrow", width: 400 }, { name: "print", width: 680 }];

function overlap(one, other) {
  const a = one.getBoundingClientRect(), b = other.getBoundingClientRect(), by = 0.5;
  return a.left + by < b.right && b.left + by < a.right && a.top + by < b.bottom && b.top + by < a.bottom;
}

function holds(outer, inner, by = 1) {
  const a = outer.getBoundingClientRect(), b = inner.getBoundingClientRect();
  return a.left <= b.left + by && b.right <= a.right + by && a.top <= b.top + by && b.bottom <= a.bottom + by;
}

const isFolded = part => part.closest("details:not([open]) > :not(summary)") !== null;

// Boxes and texts of a picture stand apart; a text behind a box is in it, but for the pixel by which the height of small letters is rounded up.
function checkPicture(svg, fault) {
  const box = svg.getBoundingClientRect();
  if (box.width < 20 || box.height < 20) fault("an empty picture");
  const apart = [];
  for (const part of svg.querySelectorAll("rect, text")) {
    if (!holds(svg, part)) fault(`cut off: ${part.textContent || part.className.baseVal}`);
    const before = part.previousElementSibling;
    if (part.tagName === "text" && before && before.tagName === "rect") {
      if (!holds(before, part, 2)) fault(`out of its box: ${part.textContent}`);
    } else {
      for (const other of apart) if (overlap(part, other)) fault(`overlap: ${part.outerHTML} ${other.outerHTML}`);
      apart.push(part);
    }
  }
}

// The picture of the end stands in the red box, with what is wrong in it, and is seen without scrolling.
function checkBox(page, fault) {
  const box = page.querySelector(".banner.bad");
  if (!box) return;
  if (!page.querySelector("li.last .bad")) fault("nothing is marked");
  const marked = box.querySelector("figure .bad");
  if (!marked) fault("the end isn't drawn in the red box");
  else if (!holds(box, marked)) fault("the picture is out of the red box");
  else if (marked.getBoundingClientRect().bottom > 700) fault("the picture isn't at the top");
}

// What builds or changes nothing is folded and out of sight; what is shown of a run has its picture.
function checkFolds(page, fault) {
  for (const step of page.querySelectorAll("ol.run li[value]")) {
    if (!isFolded(step) && !step.querySelector("figure")) fault(`not folded: ${step.textContent.slice(0, 40)}`);
  }
  for (const details of page.querySelectorAll("details")) {
    const summary = details.firstElementChild;
    if (details.getBoundingClientRect().height > summary.getBoundingClientRect().height + 1) fault("a fold is open");
    if (!summary.textContent.trim()) fault("a fold says nothing");
    const built = details.parentElement.classList.contains("build");
    if (built && !details.parentElement.querySelector(":scope > figure")) fault("what is built isn't drawn");
  }
}

// The listing stands left of the run, or above it where there is no room; the line that is told of is marked in it.
function checkListing(page, look, fault) {
  for (const beside of page.querySelectorAll(".beside")) {
    const [lines, run] = beside.children;
    const first = run.querySelector("li p, li summary");
    if (first) {
      const a = lines.getBoundingClientRect(), b = first.getBoundingClientRect();
      if (look.name === "narrow" ? a.bottom > b.top + 1 : a.right > b.left || a.top > b.top || b.top > a.bottom) fault("the listing isn't beside the run");
    }
    const marks = lines.querySelectorAll(".listing mark:not(.since)");
    if (!marks.length) fault("no line of the listing is marked");
    for (const line of lines.querySelectorAll(".listing > *")) {
      if (line.scrollWidth > line.clientWidth + 1) fault(`a line is cut off: ${line.textContent}`);
      if ([...run.querySelectorAll("li > p")].some(part => !isFolded(part) && overlap(part, line))) fault(`a line overlaps the run: ${line.textContent}`);
    }
    const colour = getComputedStyle(lines.querySelector(".listing > *:not(mark)") || lines).backgroundColor;
    for (const mark of marks) if (getComputedStyle(mark).backgroundColor === colour) fault("a marked line looks like the others");
  }
}

// A certified page draws what can't happen next to the green box.
function checkNever(page, fault) {
  const box = page.querySelector(".banner.good");
  if (!box) return;
  const heading = [...page.querySelectorAll("h2")].find(one => !one.closest(".banner"));
  if (heading.textContent !== "What can't happen") fault("what can't happen isn't ahead of all else");
  if (!page.querySelector(".shapes.never figure")) fault("what can't happen isn't drawn");
}

function checkParts(page, fault) {
  const parts = [...page.querySelectorAll("h1, h2, h3, p, summary, figure, dl div, section.banner > p")];
  const shown = parts.filter(part => part.textContent && !isFolded(part));
  for (let i = 1; i < shown.length; i++) {
    if (overlap(shown[i - 1], shown[i])) fault(`overlap: ${shown[i].textContent.slice(0, 40)}`);
  }
}

function check(name, look, page) {
  const fault = what => faults.push(`${name}, ${look.name}: ${what}`);
  if (name === "index.html") {
    if (page.querySelectorAll("tbody tr").length !== pages.length - 1) fault("not all routines");
    const verdicts = [...page.querySelectorAll(".verdict")];
    if (verdicts.some(verdict => verdict.getBoundingClientRect().right > look.width)) fault("a verdict is cut off");
  } else if (page.querySelectorAll("svg.graph").length !== 1) {
    fault("no picture of the states");
  }
  checkBox(page, fault);
  checkFolds(page, fault);
  checkListing(page, look, fault);
  checkNever(page, fault);
  for (const open of [false, true]) {
    page.querySelectorAll("details").forEach(details => { details.open = open; });
    if (page.documentElement.scrollWidth > look.width) fault("wider than the window");
    checkParts(page, fault);
  }
  const svgs = [...page.querySelectorAll("svg")];
  pictures += svgs.length;
  svgs.forEach(svg => checkPicture(svg, fault));
}

// Lets the rules for paper hold in place of those for the screen.
function print(page) {
  for (const rule of page.styleSheets[0].cssRules) {
    if (!rule.media) continue;
    rule.media.mediaText = rule.media.mediaText === "print" ? "all" : "not all";
  }
}

async function open(name, look) {
  const frame = document.createElement("iframe");
  frame.style.cssText = `width: ${look.width}px; height: 2000px; border: 0`;
  frame.src = `report_test/${name}`;
  await new Promise(done => { frame.onload = done; document.body.append(frame); });
  if (look.name === "print") print(frame.contentDocument);
  check(name, look, frame.contentDocument);
  const colour = getComputedStyle(frame.contentDocument.body).backgroundColor;
  frame.remove();
  return `${look.name} ${colour}`;
}

async function all() {
  const colours = new Set();
  for (const look of looks) {
    for (const name of pages) {
      try { colours.add(await open(name, look)); } catch (error) { faults.push(`${name}, ${look.name}: ${error}`); }
    }
  }
  const said = document.createElement("pre");
  const lines = faults.length ? faults : [`ok: ${pages.length} pages, ${pictures} pictures, ${[...colours].join(", ")}`];
  said.textContent = lines.map(line => `said: ${line}`).join("\n") + "\n";
  document.body.replaceChildren(said);
}

all();
