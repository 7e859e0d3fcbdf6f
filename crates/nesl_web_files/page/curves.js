/** Curves over n, as SVG that is made here. */

const SVG = "http://www.w3.org/2000/svg";
const HEIGHT = 240;
const LEAST = 34; // between two ticks of n
const STYLES = ["fill", "stroke", "stroke-width", "stroke-dasharray", "paint-order", "font-family", "font-size"];
const MOST_TITLE = 28; // characters
const EDGE = { left: 44, right: 18, top: 26, bottom: 26 };

/**
 * @typedef {object} Curve
 * @property {string} name its class, "first" or "second"
 * @property {string} [title] what it is called beside its end
 * @property {number[][]} points each an n and what was measured for it, in order of n
 */

function shape(tag, attributes, ...children) {
  const made = document.createElementNS(SVG, tag);
  Object.entries(attributes).forEach(([name, value]) => made.setAttribute(name, value));
  made.append(...children);
  return made;
}

/** A short text for a number on an axis. */
export function short(number) {
  const [size, unit] = [[1e9, "G"], [1e6, "M"], [1e3, "k"]].find(([least]) => number >= least) ?? [1, ""];
  return `${Number((number / size).toPrecision(3))}${unit}`;
}

/** Round numbers from low to high: powers of 10, with 2 and 5 times them where few lie there. */
function logarithmicTicks(low, high) {
  const within = (factors) => {
    const found = [];
    for (let power = 10 ** Math.floor(Math.log10(low)); power <= high; power *= 10) {
      found.push(...factors.map((factor) => factor * power).filter((tick) => tick >= low && tick <= high));
    }
    return found;
  };
  const tens = within([1]);
  if (tens.length > 6) return tens.filter((_, place) => place % Math.ceil(tens.length / 6) === 0);
  return tens.length > 2 ? tens : within([1, 2, 5]);
}

/** Round numbers from 0 to high, at most seven. */
function linearTicks(high) {
  const rough = high / 5;
  const power = 10 ** Math.floor(Math.log10(rough));
  const step = Math.max(1, power * [1, 2, 5, 10].find((factor) => factor * power >= rough));
  return Array.from({ length: Math.floor(high / step) + 1 }, (_, place) => place * step);
}

/** An axis for these numbers, from one place to another: where a number lies, and the ticks. */
function axis(numbers, logarithmic, from, to) {
  const high = Math.max(...numbers, 1);
  const low = logarithmic ? Math.min(...numbers) : 0;
  const scale = logarithmic ? Math.log : (number) => number;
  const wide = scale(high) - scale(low) || 1;
  const at = (number) => from + ((scale(number) - scale(low)) / wide) * (to - from);
  return { at, ticks: logarithmic ? logarithmicTicks(low, high) : linearTicks(high) };
}

/** Those of the values of n at which a tick has room, the last one among them. */
function ticksAt(numbers, at) {
  const kept = [];
  for (const n of [...new Set(numbers)].sort((one, other) => other - one)) {
    if (!kept.length || at(kept.at(-1)) - at(n) > LEAST) kept.push(n);
  }
  return kept;
}

function drawAxes(across, up, width) {
  const foot = HEIGHT - EDGE.bottom;
  const rows = up.ticks.map((tick) => shape("g", { transform: `translate(0 ${up.at(tick)})` },
    shape("line", { x1: EDGE.left, x2: width - EDGE.right }),
    shape("text", { x: EDGE.left - 10, dy: "0.32em", "text-anchor": "end" }, short(tick))));
  const columns = across.ticks.map((tick) => shape("g", { transform: `translate(${across.at(tick)} 0)` },
    shape("line", { class: "foot", y1: foot, y2: foot + 5 }),
    shape("text", { y: foot + 19, "text-anchor": "middle" }, tick < 10000 ? tick : short(tick))));
  const base = shape("line", { class: "foot", x1: EDGE.left, x2: width - EDGE.right, y1: foot, y2: foot });
  const name = shape("text", { x: width - 1, y: foot, dy: "0.32em", "text-anchor": "end" }, "n");
  return shape("g", { class: "axes" }, ...rows, base, ...columns, name);
}

function drawCurve({ name, points }, across, up) {
  const places = points.map(([n, told]) => [across.at(n), up.at(told)]);
  const marks = places.map(([x, y], place) => {
    const title = shape("title", {}, `n ${points[place][0]}: ${points[place][1]}`);
    return name === "first" ? shape("circle", { cx: x, cy: y, r: 3.5 }, title)
      : shape("rect", { x: x - 5, y: y - 5, width: 10, height: 10 }, title);
  });
  return shape("g", { class: `curve ${name}` }, shape("polyline", { points: places.join(" ") }), ...marks);
}

/** The names of curves at their last points: above the upper one, and below the other. */
function drawTitles(curves, across, up) {
  let lowest = -Infinity;
  const rows = curves.filter(({ title, points }) => title && points.length)
    .map(({ title, points }) => [title, across.at(points.at(-1)[0]), up.at(points.at(-1)[1])])
    .sort((one, other) => one[2] - other[2]);
  return rows.map(([title, x, y], at) => {
    lowest = Math.max(11, at ? y + 20 : y - 10, lowest + 13);
    const text = title.length > MOST_TITLE ? `${title.slice(0, MOST_TITLE - 1)}…` : title;
    return shape("text", { class: "title", x, y: lowest, "text-anchor": "end" }, text);
  });
}

/** The curves of a place as an SVG of its own, with the colours that they have here. */
export function svgText(host) {
  const own = host.querySelector("svg");
  const copy = own.cloneNode(true);
  const sources = own.querySelectorAll("*");
  copy.querySelectorAll("*").forEach((one, at) => {
    const style = getComputedStyle(sources[at]);
    for (const name of STYLES) {
      one.setAttribute(name, style.getPropertyValue(name));
    }
  });
  copy.setAttribute("xmlns", SVG);
  const fill = getComputedStyle(host.parentElement).backgroundColor;
  copy.prepend(shape("rect", { width: "100%", height: "100%", fill }));
  return new XMLSerializer().serializeToString(copy);
}

/**
 * Draws curves in a place of the page. An n of 0 has no place on a logarithmic axis.
 * @param {Element} host
 * @param {Curve[]} curves
 * @param {{ n: boolean, told: boolean }} logarithmic which axes are logarithmic
 * @param {string} label what is drawn, in words
 */
export function drawCurves(host, curves, logarithmic, label) {
  const width = Math.max(260, host.clientWidth);
  const isSeen = ([n]) => n > 0 || !logarithmic.n;
  const shown = curves.map(({ points, ...curve }) => ({ ...curve, points: points.filter(isSeen) }));
  const points = shown.flatMap((curve) => curve.points);
  if (!points.length) return host.replaceChildren();
  const across = axis(points.map(([n]) => n), logarithmic.n, EDGE.left, width - EDGE.right);
  across.ticks = ticksAt(points.map(([n]) => n), across.at);
  const up = axis(points.map(([, told]) => told), logarithmic.told, HEIGHT - EDGE.bottom, EDGE.top);
  const box = { viewBox: `0 0 ${width} ${HEIGHT}`, width, height: HEIGHT, role: "img", "aria-label": label };
  const drawn = shown.map((curve) => drawCurve(curve, across, up));
  const titles = shown.length > 1 ? drawTitles(shown, across, up) : [];
  return host.replaceChildren(shape("svg", box, drawAxes(across, up, width), ...drawn, ...titles));
}
