// What lies over the drawing and is no part of it: outlines, handles and badges.
import {attributes, bounds, element, join, sameLook, svg} from './figure.js';
import {versions} from './versions.js';

export const EDGES = {nw: [0, 1], n: [1], ne: [2, 1], e: [2], se: [2, 3], s: [3], sw: [0, 3], w: [0]};
const PAD = 7;  // pixels between a figure and its handles
const ABOVE = 24;  // pixels between a figure and its badge
const WIDE = 22;  // pixels from a badge to the next one, or to a name
const coarse = matchMedia('(pointer: coarse)');
const sizes = () => coarse.matches ? {edge: 16, corner: 10, between: 7} : {edge: 8, corner: 5, between: 3};

export function marks(canvas) {
    const {drawing, live, figures, tool} = canvas, {unit} = canvas.view, all = [];
    const conflicting = versions(figures, live), badges = new Map();
    for (const {figure, designer} of conflicting) {
        const place = String(bounds(figure)), before = badges.get(place) ?? 0;
        all.push(outline(figure, 'halo'), outline(figure, 'version', designer.colour), badge(figure, designer, unit, before));
        badges.set(place, before + 1);
    }
    for (const {site, holds} of live.designers) {
        if (site === live.site || !holds.length) continue;
        const held = new Set(holds), {name, colour} = live.designer(site);
        const ones = figures.filter(({object}) => held.has(object));
        all.push(...ones.map(figure => outline(figure, 'held', colour)));
        const theirs = conflicting.find(({figure, designer}) => designer.site === site && held.has(figure.object));
        const one = theirs?.figure ?? ones[0];
        if (one) all.push(tag(one, name, colour, unit, badges.has(String(bounds(one))) ? WIDE : 0));
    }
    for (const figure of figures) if (live.faults.has(figure.key)) all.push(outline(figure, 'fault'));
    all.push(...waiting(drawing, live));
    const chosen = figures.filter(({key}) => drawing.selected.has(key));
    all.push(...chosen.map(figure => outline(figure, 'chosen')));
    if (chosen.length && tool === 'select' && live.mayDraw) all.push(...handles(chosen, unit));
    return all;
}

const outline = (figure, name, colour) =>
    svg(element(figure), {...attributes(figure), class: name, ...colour && {style: `stroke: ${colour}`}});

// Gestures that wait for a word of the designer: how the figures would become.
function waiting(drawing, live) {
    if (!live.asked) return [];
    const before = new Map(drawing.figures.map(figure => [figure.key, figure])), after = live.waiting();
    const there = new Set(after.map(({key}) => key));
    const changes = one => !before.has(one.key) || !sameLook(before.get(one.key), one);
    return [
        ...after.filter(changes).map(one => outline(one, 'waits')),
        ...drawing.figures.filter(({key}) => !there.has(key)).map(one => outline(one, 'waits gone')),
    ];
}

// Whose version it is; beside so many badges of versions at the same place.
function badge(figure, {name, colour}, unit, before) {
    const [left, top, right] = bounds(figure), x = (left + right) / 2 + before * WIDE * unit;
    const place = `translate(${x} ${top - ABOVE * unit}) scale(${unit})`;
    return svg('g', {transform: place, class: 'badge'},
        svg('circle', {r: 9, style: `fill: ${colour}`}), svg('text', {y: 4}, name.slice(0, 1).toUpperCase()));
}

// Who has selected it; above a badge, so much higher.
function tag(figure, name, colour, unit, higher) {
    const [left, top] = bounds(figure), wide = 7 * name.length + 12;
    return svg('g', {transform: `translate(${left} ${top - (ABOVE + 8 + higher) * unit}) scale(${unit})`, class: 'tag'},
        svg('rect', {width: wide, height: 17, rx: 4, style: `fill: ${colour}`}),
        svg('text', {x: wide / 2, y: 12.5}, name));
}

function handles(chosen, unit) {
    const [left, top, right, bottom] = join(chosen.map(bounds)), pad = PAD * unit, size = sizes().edge * unit;
    const box = [left - pad, top - pad, right + pad, bottom + pad];
    const frame = svg('rect', {x: box[0], y: box[1], width: box[2] - box[0], height: box[3] - box[1], class: 'frame'});
    const edges = Object.entries(EDGES).map(([edge, sides]) => {
        const x = sides.includes(0) ? box[0] : sides.includes(2) ? box[2] : (left + right) / 2;
        const y = sides.includes(1) ? box[1] : sides.includes(3) ? box[3] : (top + bottom) / 2;
        return svg('rect', {x: x - size / 2, y: y - size / 2, width: size, height: size, rx: 2 * unit,
            class: `handle ${edge}`, 'data-edge': edge});
    });
    return [frame, ...edges, ...chosen.length === 1 && chosen[0].kind === 'polygon' ? corners(chosen[0], unit) : []];
}

// A polygon's corners, and between them where new ones are dragged out.
function corners({shape}, unit) {
    const {corner, between} = sizes(), all = [];
    for (let i = 0; i < shape.length; i += 2) {
        const next = (i + 2) % shape.length;
        const [x, y] = [(shape[i] + shape[next]) / 2, (shape[i + 1] + shape[next + 1]) / 2];
        all.push(svg('circle', {cx: x, cy: y, r: between * unit, class: 'handle between', 'data-between': i + 2}));
    }
    for (let i = 0; i < shape.length; i += 2) {
        const [cx, cy] = shape.slice(i, i + 2);
        all.push(svg('circle', {cx, cy, r: corner * unit, class: 'handle corner', 'data-corner': i}));
    }
    return all;
}
