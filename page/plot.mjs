// One column over another, as SVG.

import { isClock, shown } from './relations.mjs';

const LEFT = 58;
const RIGHT = 18;
const TOP = 10;
const BOTTOM = 28;
const SVG = 'http://www.w3.org/2000/svg';

const HOUR = 3600000;
const DAY = 24 * HOUR;
const CLOCK_STEPS = [HOUR / 60, HOUR / 12, HOUR / 4, HOUR, 3 * HOUR, 6 * HOUR, 12 * HOUR, DAY, 2 * DAY, 7 * DAY, 30 * DAY, 90 * DAY, 365 * DAY];

/** Draws pairs [x, y] in this width: a curve if x never falls, or a band if there are too many for one; else dots. */
export function plot(pairs, x, y, width) {
    const height = Math.round(Math.min(370, Math.max(230, width * 0.62)));
    const svg = element('svg', { viewBox: `0 0 ${width} ${height}`, width, height, role: 'img' });
    svg.setAttribute('aria-label', `${y.name} over ${x.name}, ${pairs.length} rows`);
    if (pairs.length === 0) return svg;
    const across = scaleOf(pairs.map(it => it[0]), LEFT, width - RIGHT, x);
    const up = scaleOf(pairs.map(it => it[1]), height - BOTTOM, TOP, y);
    drawAxes(svg, across, up, width, height);
    const points = pairs.map(it => [across.place(it[0]), up.place(it[1])]);
    const [kind, path] = drawingOf(points, width - LEFT - RIGHT);
    svg.append(element('path', { class: kind, d: path }));
    return svg;
}

function drawAxes(svg, across, up, width, height) {
    for (const value of ticksOf(up, height / 55)) {
        const y = up.place(value);
        svg.append(element('line', { class: 'grid', x1: LEFT, x2: width - RIGHT, y1: y, y2: y }));
        svg.append(label(up.text(value), { x: LEFT - 8, y: y + 4, 'text-anchor': 'end' }));
    }
    for (const value of ticksOf(across, width / 105)) {
        const x = Math.min(across.place(value), width - 32);
        svg.append(label(across.text(value), { x, y: height - 7, 'text-anchor': 'middle' }));
    }
}

// The class and the path of the points in a plot of this width.
function drawingOf(points, width) {
    const isCurve = points.length > 1 && points.every(([x], at) => at === 0 || points[at - 1][0] <= x);
    if (isCurve && points.length > 2 * width) return ['band', bandOf(points)];
    const places = points.map(([x, y]) => `${x.toFixed(1)} ${y.toFixed(1)}`);
    if (isCurve) return ['curve', `M${places.join('L')}`];
    return ['dots', [...new Set(places)].map(it => `M${it}h0`).join('')];
}

// The least and the greatest value in each column of pixels, as the outline of an area.
function bandOf(points) {
    const ends = new Map();
    for (const [x, y] of points) {
        const column = Math.round(x);
        const [top, bottom] = ends.get(column) ?? [y, y];
        ends.set(column, [Math.min(top, y), Math.max(bottom, y)]);
    }
    const columns = [...ends];
    const above = columns.map(([x, [top]]) => `${x} ${top.toFixed(1)}`);
    const below = columns.map(([x, [, bottom]]) => `${x} ${bottom.toFixed(1)}`).reverse();
    return `M${[...above, ...below].join('L')}Z`;
}

// Where values are between two ends of the plot, and how they are written there.
function scaleOf(values, from, to, attribute) {
    let least = values[0];
    let most = values[0];
    for (const value of values) {
        least = Math.min(least, value);
        most = Math.max(most, value);
    }
    if (least === most) [least, most] = [least - 1, most + 1];
    const place = value => from + (value - least) / (most - least) * (to - from);
    const clock = isClock(least, attribute);
    const text = value => clock ? shortly(value, most - least) : shown(value, attribute);
    return { least, most, clock, place, text };
}

// Round values between the ends, at most `many` of them.
function ticksOf({ least, most, clock }, many) {
    const rough = (most - least) / many;
    const ten = 10 ** Math.floor(Math.log10(rough));
    const round = [1, 2, 5, 10].map(it => it * ten).find(it => it >= rough);
    const step = clock ? CLOCK_STEPS.find(it => it >= rough) ?? round : Math.max(1, round);
    const ticks = [];
    for (let value = Math.ceil(least / step) * step; value <= most; value += step) ticks.push(value);
    return ticks;
}

// A time in short: the day in a long span, else day and hour.
function shortly(value, span) {
    const text = new Date(value).toISOString();
    return span > 12 * DAY ? text.slice(0, 10) : text.slice(5, 16).replace('T', ' ');
}

function element(name, attributes) {
    const made = document.createElementNS(SVG, name);
    for (const [key, value] of Object.entries(attributes)) made.setAttribute(key, value);
    return made;
}

function label(text, attributes) {
    const made = element('text', attributes);
    made.textContent = text;
    return made;
}
