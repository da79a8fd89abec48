// What the page shows: the streets, and the tours with their steps.

const COLOURS = 7;

function colourName(tour) {
  return `--tour-${(tour - 1) % COLOURS + 1}`;
}

// Places are [latitude, longitude], as Leaflet has them.
function streetOf(feature) {
  return {...feature.properties, line: feature.geometry.coordinates.map(([x, y]) => [y, x]), uses: []};
}

// The steps of all tours, each with its tour and its number there.
function stepsOf(tours) {
  return tours.flatMap((tour, at) => tour.steps.map((step, place) => ({...step, tour: at + 1, number: place + 1})));
}

function readModel() {
  const {features, plan} = JSON.parse(document.getElementById("data").textContent);
  const streets = features.filter(({geometry}) => geometry.type === "LineString").map(streetOf);
  const [x, y] = features.find(({properties}) => properties.depot).geometry.coordinates;
  for (const step of stepsOf(plan.tours)) streets[step.street - 1].uses.push(step);
  // Moves back to the first end come before the others, so that both directions lie on their right.
  streets.forEach(({uses}) => uses.sort((a, b) => a.forward - b.forward));
  return {streets, plan, depot: [y, x]};
}

// The uses of a street by one tour, or by all if it is 0.
function usesBy(street, tour) {
  return tour ? street.uses.filter(use => use.tour === tour) : street.uses;
}

function times(count) {
  return count === 1 ? "once" : `${count} times`;
}

function titleOf(street) {
  return street.name ?? `street ${street.number}, without a name`;
}

// How often a street is crossed, with service and without.
function crossings({uses}) {
  const without = uses.filter(use => !use.serves).length;
  if (uses.length === 0) return "never";
  if (without === uses.length) return `${times(without)}, without service`;
  return without ? `${times(uses.length)}: once with service, ${times(without)} without` : "once, with service";
}

// What is to be known of a street, in rows of two words.
function factsOf(street) {
  const served = street.uses.find(use => use.serves);
  return [
    ["street", `${street.number}, between ${street.ends[0]} and ${street.ends[1]}`],
    ["demand", street.demand ? String(street.demand) : "0: it needs no service"],
    ["cost", street.service === street.cost ? String(street.cost) : `${street.cost}, with service ${street.service}`],
    ...(street.length === null ? [] : [["length", `${street.length} m`]]),
    ...(street.oneway ? [["one-way", `from ${street.ends[street.oneway > 0 ? 0 : 1]} only`]] : []),
    ["served by", served ? `tour ${served.tour}` : "no tour"],
    ["crossed", crossings(street)],
  ];
}
