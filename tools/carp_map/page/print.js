// The print view: one tour a page, with its map and its sheet.

const SHEET_WIDTH = 680, SHEET_HEIGHT = 360, SHEET_MARGIN = 20, MOST_ROWS = 26;

function shape(name, attributes, ...children) {
  const node = document.createElementNS("http://www.w3.org/2000/svg", name);
  Object.entries(attributes).forEach(([key, value]) => node.setAttribute(key, value));
  node.append(...children);
  return node;
}

// Maps places to pixels so that the given ones fill the picture.
function scaled(crs, places) {
  const flat = places.map(place => crs.latLngToPoint(L.latLng(place), 0));
  const {min, max} = L.bounds(flat);
  const width = max.x - min.x, height = max.y - min.y;
  const fits = Math.min(SHEET_WIDTH / width, SHEET_HEIGHT / height);
  const scale = Number.isFinite(fits) ? fits : 1;
  const toPixels = place => {
    const {x, y} = crs.latLngToPoint(L.latLng(place), 0);
    return [scale * (x - min.x), scale * (y - min.y)];
  };
  return {toPixels, width: scale * width, height: scale * height};
}

// Some lines as one path, since thousands of them take a browser long to print.
function pathOf(lines, name) {
  const drawn = lines.map(line => `M${line.map(([x, y]) => `${x.toFixed(1)} ${y.toFixed(1)}`).join("L")}`);
  return shape("path", {d: drawn.join(""), class: name});
}

function printStroke({use, line, arrow}) {
  const parts = [pathOf([line], use.serves ? "serves" : "drives")];
  if (arrow) parts.push(shape("polygon", {points: arrow.map(([x, y]) => `${x.toFixed(1)},${y.toFixed(1)}`).join(" ")}));
  if (reach(line) > 30) {
    const [x, y] = along(line, 0.35).point;
    parts.push(shape("text", {x: x.toFixed(1), y: (y - 3).toFixed(1)}, String(use.number)));
  }
  const group = shape("g", {}, ...parts);
  group.style.setProperty("--colour", `var(${colourName(use.tour)})`);
  return group;
}

// The streets near a tour and the tour itself, as a picture.
function printMap(model, tour) {
  const used = model.streets.filter(street => usesBy(street, tour).length > 0);
  const crs = model.plan.isMap ? L.CRS.EPSG3857 : L.CRS.Simple;
  const {toPixels, width, height} = scaled(crs, [model.depot, ...used.flatMap(street => street.line)]);
  const frame = L.bounds([-SHEET_MARGIN, -SHEET_MARGIN], [width + SHEET_MARGIN, height + SHEET_MARGIN]);
  const lines = model.streets.map(street => street.line.map(toPixels)).filter(line => line.some(point => frame.contains(point)));
  const [x, y] = toPixels(model.depot), {x: wide, y: high} = frame.getSize();
  return shape(
    "svg", {viewBox: `${-SHEET_MARGIN} ${-SHEET_MARGIN} ${wide} ${high}`, width: wide, height: high},
    pathOf(lines, "street"),
    ...used.flatMap(street => strokesOf(street.line.map(toPixels), usesBy(street, tour)).map(printStroke)),
    shape("rect", {x: x - 5, y: y - 5, width: 10, height: 10}),
  );
}

function printPage(model, tour) {
  const {plan} = model, {steps, facts} = plan.tours[tour - 1];
  const section = element("section", {className: steps.length > MOST_ROWS ? "sheet long" : "sheet"});
  section.append(
    element("h2", {}, `Tour ${tour} of ${plan.tours.length}`),
    element("p", {className: "origin"}, `${plan.origin}. Cost ${plan.cost}: ${plan.proof}.`),
    ...facts.map(fact => element("p", {}, fact)),
    printMap(model, tour),
    element("div", {className: "steps"}, sheetTable(plan, tour, null)),
  );
  return section;
}

// Fills the print view with these tours, and empties it after the print.
function preparePrint(model, tours) {
  document.getElementById("print").replaceChildren(...tours.map(tour => printPage(model, tour)));
}
