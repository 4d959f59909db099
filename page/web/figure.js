// A figure, and what can be done with it. Figures are never changed in place: each function gives a new one.
//
//   {key, object, at, named, kind, shape, colour}
//
//   key      tells it from all others in this page: its name with what it is told apart by, or new-1-..
//   object   its name as 1.5, or null where it was drawn here and has none yet
//   at       the depth at which it was written; below 0 where it was put elsewhere in the order since; null where it is new
//   named    the comment lines that name it, as they came
//   kind     box, circle, ellipse or polygon
//   shape    whole numbers: [x, y, width, height], [x, y, radius, radius] or [x, y, x, y ..]
//   colour   #rrggbb

let drawn = 0, turns = Date.now();
const page = Math.random().toString(36).slice(2, 8);

export const fresh = (kind, shape, colour) =>
    ({key: `new-${++drawn}-${page}`, object: null, at: null, named: [], kind, shape, colour});

// Another one each time, so that it is a change.
export const elsewhere = () => -++turns;

export const copied = figure => fresh(figure.kind, figure.shape, figure.colour);

// As it was, by its name if it has one: where its object is hidden a take shows it again.
export const again = figure => figure.object ? {...figure, at: elsewhere()} : copied(figure);

export const sameShape = (a, b) => a.kind === b.kind && String(a.shape) === String(b.shape);
export const sameLook = (a, b) => a === b || a.colour === b.colour && sameShape(a, b);

export const isRound = figure => figure.kind === 'circle' || figure.kind === 'ellipse';

// The least box around it, as [left, top, right, bottom].
export function bounds({kind, shape}) {
    const [x, y, width, height] = shape;
    if (kind === 'box') return [x, y, x + width, y + height];
    if (kind !== 'polygon') return [x - width, y - height, x + width, y + height];
    const across = shape.filter((_, i) => i % 2 === 0), down = shape.filter((_, i) => i % 2 === 1);
    return [Math.min(...across), Math.min(...down), Math.max(...across), Math.max(...down)];
}

// The least box around boxes.
export const join = all => all.reduce((a, b) =>
    [Math.min(a[0], b[0]), Math.min(a[1], b[1]), Math.max(a[2], b[2]), Math.max(a[3], b[3])]);

export const meet = (a, b) => a[0] <= b[2] && b[0] <= a[2] && a[1] <= b[3] && b[1] <= a[3];

export function moved(figure, dx, dy) {
    if (!dx && !dy) return figure;
    const move = (value, i) => figure.kind === 'polygon' || i < 2 ? value + (i % 2 ? dy : dx) : value;
    return {...figure, shape: figure.shape.map(move)};
}

// As it is when the box `from` around it becomes the box `to`. A circle stays one.
export function fitted(figure, from, to) {
    const factor = i => from[i + 2] === from[i] ? 1 : (to[i + 2] - to[i]) / (from[i + 2] - from[i]);
    const place = (value, i) => Math.round(to[i] + (value - from[i]) * factor(i));
    const length = (value, i) => Math.max(1, Math.round(value * Math.abs(factor(i))));
    const {kind, shape} = figure, [x, y, width, height] = shape;
    if (kind === 'polygon') return {...figure, shape: shape.map((value, i) => place(value, i % 2))};
    if (kind === 'circle') {
        const side = Math.abs(factor(0)) === 1 ? 1 : Math.abs(factor(1)) === 1 ? 0
            : Math.abs(factor(0)) < Math.abs(factor(1)) ? 0 : 1;
        const radius = length(width, side);
        return {...figure, shape: [place(x, 0), place(y, 1), radius, radius]};
    }
    const across = length(width, 0), down = length(height, 1);
    if (kind === 'ellipse') return {...figure, shape: [place(x, 0), place(y, 1), across, down]};
    const left = Math.min(place(x, 0), place(x + width, 0)), top = Math.min(place(y, 1), place(y + height, 1));
    return {...figure, shape: [left, top, across, down]};
}

// The figure between two corners that a pointer drew.
export function between(kind, [ax, ay], [bx, by], colour) {
    const width = Math.abs(bx - ax), height = Math.abs(by - ay);
    if (kind === 'box')
        return fresh(kind, [Math.min(ax, bx), Math.min(ay, by), Math.max(1, width), Math.max(1, height)], colour);
    if (kind === 'ellipse') {
        const across = Math.max(1, Math.round(width / 2)), down = Math.max(1, Math.round(height / 2));
        return fresh(kind, [Math.round((ax + bx) / 2), Math.round((ay + by) / 2), across, down], colour);
    }
    const radius = Math.max(1, Math.round(Math.max(width, height) / 2));
    const [x, y] = [ax + Math.sign(bx - ax || 1) * radius, ay + Math.sign(by - ay || 1) * radius];
    return fresh(kind, [x, y, radius, radius], colour);
}

// What stands in words for who does not see it.
export function inWords(figure) {
    const [left, top, right, bottom] = bounds(figure);
    return `at ${left} ${top}, ${right - left} wide, ${bottom - top} high, ${figure.colour}`;
}

// ---- As SVG

export const element = figure => ({box: 'rect', polygon: 'polygon', circle: 'ellipse', ellipse: 'ellipse'})[figure.kind];

export function attributes({kind, shape, colour}) {
    const [x, y, width, height] = shape;
    if (kind === 'box') return {x, y, width, height, fill: colour};
    if (kind === 'polygon') return {points: shape.join(' '), fill: colour, 'fill-rule': 'evenodd'};
    return {cx: x, cy: y, rx: width, ry: height, fill: colour};
}

export function svg(name, attributes = {}, ...inner) {
    const made = document.createElementNS('http://www.w3.org/2000/svg', name);
    for (const [key, value] of Object.entries(attributes))
        if (key === 'style') made.style.cssText = value;  // as an attribute the server's policy forbids it
        else made.setAttribute(key, value);
    made.append(...inner);
    return made;
}
