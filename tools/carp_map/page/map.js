// The map of the streets and the tours, on Leaflet without tiles.

const FADED = 0.25;
// In pixels: how far beside a street it may be touched.
const TOUCH = 8;

// The colours of the style sheet by name, which differ between light and dark.
function tints() {
  const style = getComputedStyle(document.documentElement);
  const names = ["--text", "--street", ...Array.from({length: COLOURS}, (_, at) => colourName(at + 1))];
  return Object.fromEntries(names.map(name => [name, style.getPropertyValue(name).trim()]));
}

class TourMap {
  constructor(element, model, onStreet) {
    Object.assign(this, {model, onStreet, tour: 0, at: 0, hovered: null});
    this.tip = L.tooltip({direction: "top", offset: [0, -8]});
    // A map lies on the Earth; what is laid out without one lies on a plane.
    this.map = L.map(element, {
      crs: model.plan.isMap ? L.CRS.EPSG3857 : L.CRS.Simple, renderer: L.canvas({padding: 0.3}),
      attributionControl: false, zoomSnap: 0.25, minZoom: model.plan.isMap ? 0 : -20, maxZoom: model.plan.isMap ? 22 : 8,
    });
    if (model.plan.isMap) L.control.scale({imperial: false}).addTo(this.map);
    this.bounds = L.latLngBounds([model.depot, ...model.streets.flatMap(street => street.line)]);
    this.fit(this.bounds);
    this.ground = L.layerGroup().addTo(this.map);
    this.over = L.layerGroup().addTo(this.map);
    this.labels = L.layerGroup().addTo(this.map);
    this.addStreets();
    this.addDepot();
    this.map.setMinZoom(this.map.getZoom() - 2);
    this.map.on("zoomend", () => this.draw());
    this.map.on("click", event => this.choose(this.streetAt(event.layerPoint), event.latlng));
    this.map.on("mousemove", event => this.hover(this.streetAt(event.layerPoint), event.latlng));
    this.map.on("mouseout", () => this.hover(null));
  }

  fit(bounds) {
    this.map.fitBounds(bounds, {padding: [24, 24], maxZoom: this.model.plan.isMap ? 18 : 2, animate: false});
  }

  addStreets() {
    const style = {color: tints()["--street"], weight: NARROW, lineCap: "round", smoothFactor: 0, interactive: false};
    for (const street of this.model.streets) {
      street.layer = L.polyline(street.line, style);
      this.ground.addLayer(street.layer);
    }
  }

  addDepot() {
    const icon = L.divIcon({className: "depot", iconSize: [14, 14]});
    L.marker(this.model.depot, {icon, keyboard: false, title: "depot", zIndexOffset: 1000}).addTo(this.map);
  }

  // The street nearest to a point, or null if none is near.
  streetAt(point) {
    const distances = this.model.streets.map(({layer}) => layer.closestLayerPoint(point)?.distance ?? Infinity);
    const least = Math.min(...distances), street = this.model.streets[distances.indexOf(least)];
    return least <= TOUCH + street.layer.options.weight / 2 ? street : null;
  }

  // Tells about a street beside a place on it.
  choose(street, place) {
    this.hover(null);
    if (!street) return;
    const popup = L.popup({maxWidth: 280, autoPanPaddingTopLeft: [55, 8]});
    popup.setLatLng(place).setContent(this.onStreet(street)).openOn(this.map);
  }

  // Shows the name of the street below the pointer, or none if it is null.
  hover(street, place) {
    if (street === this.hovered) return;
    this.hovered = street;
    this.map.getContainer().classList.toggle("over-street", street !== null);
    this.tip.remove();
    if (street) this.tip.setContent(document.createTextNode(titleOf(street))).setLatLng(place).addTo(this.map);
  }

  // Shows one tour alone, or all if it is 0.
  show(tour) {
    Object.assign(this, {tour, at: 0});
    this.map.closePopup();
    const used = this.model.streets.filter(street => usesBy(street, tour).length > 0);
    const places = [this.model.depot, ...used.flatMap(street => street.line)];
    this.fit(tour ? L.latLngBounds(places) : this.bounds);
    this.draw();
  }

  // Shows the tour as far as after this step; all of it if the step is 0.
  walk(step) {
    this.at = step;
    this.draw();
    const place = step ? this.placeAfter(step) : null;
    if (place && !this.map.getBounds().pad(-0.1).contains(place)) this.map.panTo(place);
  }

  placeAfter(number) {
    const step = this.model.plan.tours[this.tour - 1].steps[number - 1];
    const line = this.model.streets[step.street - 1].line;
    return line[step.forward ? line.length - 1 : 0];
  }

  pixelsOf(street) {
    return street.line.map(place => this.map.project(place)).map(({x, y}) => [x, y]);
  }

  placeOf(point) {
    return this.map.unproject(point);
  }

  draw() {
    this.over.clearLayers();
    this.labels.clearLayers();
    this.tints = tints();
    this.longest = new Map();
    this.model.streets.forEach(street => this.drawStreet(street));
    this.longest.forEach(({place}, tour) => this.drawLabel(tour, place));
    if (this.at) this.drawWalker();
  }

  drawStreet(street) {
    const uses = usesBy(street, this.tour), line = uses.length ? this.pixelsOf(street) : [];
    this.styleStreet(street.layer, this.tints["--street"], widthOf(line, uses.length));
    for (const stroke of strokesOf(line, uses)) {
      this.drawStroke(stroke);
      this.offerLabel(stroke);
    }
  }

  // Sets the style of a street if it is another one, since most streets keep theirs.
  styleStreet(layer, color, weight) {
    if (layer.options.color !== color || layer.options.weight !== weight) layer.setStyle({color, weight});
  }

  drawStroke({use, line, arrow}) {
    const color = this.tints[colourName(use.tour)], opacity = this.at && use.number > this.at ? FADED : 1;
    const places = line.map(point => this.placeOf(point));
    if (this.at === use.number) this.over.addLayer(L.polyline(places, {color, weight: 12, opacity: 0.4, interactive: false}));
    this.over.addLayer(L.polyline(places, {
      color, opacity, weight: use.serves ? 3 : 2, dashArray: use.serves ? null : "6 5", smoothFactor: 0, interactive: false,
    }));
    if (arrow) {
      const corners = arrow.map(point => this.placeOf(point));
      this.over.addLayer(L.polygon(corners, {
        stroke: false, fillColor: color, fillOpacity: opacity, smoothFactor: 0, interactive: false,
      }));
    }
  }

  // Keeps the longest line that a tour serves, where its number is to stand.
  offerLabel({use, line}) {
    const length = use.serves ? reach(line) : -1;
    if (length > (this.longest.get(use.tour)?.length ?? -1)) {
      this.longest.set(use.tour, {length, place: this.placeOf(along(line, 0.4).point)});
    }
  }

  drawLabel(tour, place) {
    const html = document.createElement("span");
    html.textContent = tour;
    html.style.background = this.tints[colourName(tour)];
    const icon = L.divIcon({className: "label", html, iconSize: null});
    this.labels.addLayer(L.marker(place, {icon, keyboard: false, interactive: false}));
  }

  drawWalker() {
    const color = this.tints[colourName(this.tour)];
    this.over.addLayer(L.circleMarker(this.placeAfter(this.at), {
      radius: 8, weight: 3, color: this.tints["--text"], fillColor: color, fillOpacity: 1, interactive: false,
    }));
  }
}
