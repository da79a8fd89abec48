// The table of the tours, the sheet of one, the walk along it, and what a street tells.

const PLAY_MILLISECONDS = 900;

function byId(id) {
  return document.getElementById(id);
}

// An element with properties and children. A child that is text stays text.
function element(name, properties, ...children) {
  const node = Object.assign(document.createElement(name), properties);
  node.append(...children);
  return node;
}

function button(text, label, onClick) {
  const node = element("button", {type: "button", onclick: onClick}, text);
  node.setAttribute("aria-label", label);
  return node;
}

function number(value) {
  return element("td", {className: "number"}, value === null ? "" : String(value));
}

// A row of a sheet; its first cell is a button if there is something to do on a click.
function sheetRow(step, at, onStep) {
  const first = element("th", {scope: "row", className: "number"});
  first.append(onStep ? button(at, `step ${at}: show it on the map`, () => onStep(at)) : String(at));
  const way = element("td", {}, step.way);
  if (step.against) way.append(" ", element("strong", {className: "against"}, "AGAINST ONE-WAY"));
  const row = element("tr", {className: step.serves ? "serve" : "drive"});
  row.append(first, element("td", {className: "word"}, row.className), way, number(step.size), number(step.serves ? step.load : null));
  return row;
}

function sheetTable(plan, tour, onStep) {
  const heads = [["step", "number"], ["do", ""], ["way", ""], [plan.unit, "number"], ["load", "number"]];
  const head = element("tr", {}, ...heads.map(([text, className]) => element("th", {scope: "col", className}, text)));
  const rows = plan.tours[tour - 1].steps.map((step, at) => sheetRow(step, at + 1, onStep));
  return element(
    "table", {}, element("caption", {className: "unseen"}, `Steps of tour ${tour}; it starts and ends at the depot`),
    element("thead", {}, head), element("tbody", {}, ...rows),
  );
}

class Page {
  constructor(model) {
    Object.assign(this, {model, plan: model.plan, tour: 0, step: 0, timer: null});
    this.fillHead();
    this.fillTours();
    this.map = new TourMap(byId("map"), model, street => this.tellStreet(street));
    this.listen();
    this.show(0);
  }

  fillHead() {
    const {plan} = this;
    document.title = `Tours of ${plan.file}`;
    byId("proof").textContent = `Cost ${plan.cost}: ${plan.proof}`;
    byId("origin").textContent = plan.origin;
    byId("check").textContent = plan.check;
    byId("load-head").textContent = `load of ${plan.capacity}`;
    byId("size-head").textContent = plan.isMap ? "length" : "cost";
  }

  fillTours() {
    const rows = this.plan.tours.map((tour, at) => this.tourRow(tour, at + 1));
    byId("tour-table").tBodies[0].replaceChildren(...rows);
  }

  tourRow(tour, at) {
    const swatch = element("span", {className: "swatch"});
    swatch.style.background = `var(${colourName(at)})`;
    const shown = button("", `Tour ${at}: show it alone`, () => this.show(at));
    shown.append(swatch, String(at));
    const row = element("tr", {}, element("th", {scope: "row"}, shown));
    row.append(number(tour.load), number(tour.size), number(tour.deadheads));
    row.addEventListener("click", event => event.target.closest("button") || this.show(at));
    return row;
  }

  listen() {
    byId("show-all").onclick = () => this.show(0);
    byId("back").onclick = () => this.walk(this.step - 1);
    byId("next").onclick = () => this.walk(this.step + 1);
    byId("slider").oninput = () => this.walk(Number(byId("slider").value));
    byId("play").onclick = () => (this.timer === null ? this.play() : this.pause());
    byId("print-all").onclick = () => this.print(this.plan.tours.map((_, at) => at + 1));
    byId("print-one").onclick = () => this.print([this.tour]);
    addEventListener("beforeprint", () => byId("print").hasChildNodes() || this.prepareAll());
    addEventListener("afterprint", () => byId("print").replaceChildren());
    matchMedia("(prefers-color-scheme: dark)").addEventListener("change", () => this.map.draw());
  }

  prepareAll() {
    preparePrint(this.model, this.plan.tours.map((_, at) => at + 1));
  }

  print(tours) {
    preparePrint(this.model, tours);
    window.print();
  }

  // Shows one tour alone with its sheet, or all if it is 0.
  show(tour) {
    this.pause();
    Object.assign(this, {tour, step: 0});
    [...byId("tour-table").tBodies[0].rows].forEach((row, at) => {
      row.classList.toggle("chosen", at + 1 === tour);
      row.querySelector("button").setAttribute("aria-pressed", String(at + 1 === tour));
    });
    byId("show-all").setAttribute("aria-pressed", String(tour === 0));
    byId("sheet").hidden = tour === 0;
    byId("said").textContent = tour ? `Tour ${tour} is shown alone. Its sheet is below the table.` : "All tours are shown.";
    if (tour) this.fillSheet();
    this.map.show(tour);
  }

  fillSheet() {
    const {facts, steps} = this.plan.tours[this.tour - 1];
    byId("sheet-title").textContent = `Tour ${this.tour} of ${this.plan.tours.length}`;
    byId("facts").replaceChildren(...facts.map(fact => element("p", {}, fact)));
    byId("sheet-steps").replaceChildren(sheetTable(this.plan, this.tour, step => this.stepTo(step)));
    byId("slider").max = steps.length;
    this.mark();
  }

  stepTo(step) {
    this.pause();
    this.walk(step);
  }

  walk(step) {
    const last = this.plan.tours[this.tour - 1].steps.length;
    this.step = Math.min(Math.max(step, 0), last);
    if (this.step === last) this.pause();
    this.map.walk(this.step);
    this.mark();
  }

  // Marks the step at hand in the sheet, and says where it is.
  mark() {
    const {steps} = this.plan.tours[this.tour - 1], step = steps[this.step - 1];
    const words = step ? `${step.serves ? "serve" : "drive"}, ${step.way}` : "";
    const place = step ? `step ${this.step} of ${steps.length}: ${words}` : "at the depot";
    byId("slider").value = this.step;
    byId("slider").setAttribute("aria-valuetext", place);
    byId("where").textContent = place;
    byId("sheet-steps").querySelector("[aria-current]")?.removeAttribute("aria-current");
    const row = byId("sheet-steps").querySelector("tbody").rows[this.step - 1];
    row?.setAttribute("aria-current", "step");
    row?.scrollIntoView({block: "nearest"});
  }

  play() {
    if (this.step === this.plan.tours[this.tour - 1].steps.length) this.walk(0);
    this.timer = setInterval(() => this.walk(this.step + 1), PLAY_MILLISECONDS);
    byId("play").textContent = "Pause";
  }

  pause() {
    clearInterval(this.timer);
    this.timer = null;
    byId("play").textContent = "Play";
  }

  // What a street tells, as a node for the map, and in words for who does not see it.
  tellStreet(street) {
    const facts = factsOf(street), title = titleOf(street);
    byId("said").textContent = `${title}: ${facts.map(([name, value]) => `${name} ${value}`).join("; ")}`;
    const rows = facts.flatMap(([name, value]) => [element("dt", {}, name), element("dd", {}, value)]);
    const tours = [...new Set(street.uses.map(use => use.tour))].filter(tour => tour !== this.tour);
    const buttons = tours.map(tour => button(`Show tour ${tour}`, `Show tour ${tour} alone`, () => this.show(tour)));
    const node = element("div", {className: "street"}, element("h3", {}, title), element("dl", {}, ...rows));
    if (buttons.length) node.append(element("p", {className: "buttons"}, ...buttons));
    return node;
  }
}

const page = new Page(readModel());
requestAnimationFrame(() => requestAnimationFrame(() => performance.mark("drawn")));
