// The named FIG text: `figgroup fig --named` writes it, `figgroup take` reads it. Here it is a list of figures, from
// the ground to the top, and the line that says what it knows.
import {elsewhere, isRound} from './figure.js';

const STANDARD = ['#000000', '#0000ff', '#00ff00', '#00ffff', '#ff0000', '#ff00ff', '#ffff00', '#ffffff'];
const HEADER = ['#FIG 3.2', 'Landscape', 'Center', 'Metric', 'A4', '100.00', 'Single', '-2'];
const FIRST_COLOUR = 32;

export function read(text) {
    const colours = new Map(STANDARD.entries()), figures = [];
    let knows = '# figgroup knows nothing', named = [];
    for (const line of text.split('\n')) {
        const words = line.trim().split(/\s+/);
        if (line.startsWith('# figgroup knows ')) knows = line;
        else if (line.startsWith('# figgroup ')) named.push(line);
        else if (line.startsWith('\t')) figures.at(-1).shape = chain(figures.at(-1).kind, words.map(Number));
        else if (words[0] === '0') colours.set(Number(words[1]), words[2].toLowerCase());
        else if (words[0] === '1' || words[0] === '2') {
            figures.push(begun(words, named, colours));
            named = [];
        }
    }
    // Of one depth the later figure lies on top.
    return {text, knows, figures: figures.sort((a, b) => b.depth - a.depth).map(({depth, ...figure}) => figure)};
}

// The figure that a line begins; the points of a chain come on the next one.
function begun(words, named, colours) {
    const kind = words[0] === '2' ? (words[1] === '2' ? 'box' : 'polygon') : words[1] > 2 ? 'circle' : 'ellipse';
    const depth = Number(words[6]), called = name(named, depth);
    return {...called, kind, shape: words.slice(12, 16).map(Number), colour: colours.get(Number(words[5])), depth};
}

let unnamed = 0;

function name(named, depth) {
    if (!named.length) return {key: `text-${++unnamed}`, object: null, at: null, named};
    const [, , object, , at, , ...first] = named[0].split(' ');
    const apart = first.concat(...named.slice(1).map(line => line.split(' ').slice(3)));
    return {key: [object, ...apart].join(' '), object, at: Number(at) === depth ? depth : elsewhere(), named};
}

// The last operation of a site that a text knows.
export function known({knows}, site) {
    const last = knows.split(' ').find(word => word.startsWith(`${site}.`));
    return last ? Number(last.split('.')[1]) : 0;
}

// The operations that tell a version of an object from its others.
export const apart = figure => figure.object ? figure.key.split(' ').slice(1) : [];

function chain(kind, points) {
    if (kind === 'polygon') return points.slice(0, -2);
    return [points[0], points[1], points[4] - points[0], points[5] - points[1]];
}

// The figures as they are sent behind those that were answered last. Where a version comes back beside others of its
// object, as by an undo of a settlement, these name its creation too: to an object whose versions all stand by their
// names a take gives nothing but layers.
export function behind(answered, figures) {
    const there = new Set(answered.map(({key}) => key));
    const back = new Set(figures.filter(({key, object}) => object && !there.has(key)).map(({object}) => object));
    return figures.map(figure => back.has(figure.object) && there.has(figure.key)
        ? {...figure, named: [...figure.named, `# figgroup with ${figure.object}`]} : figure);
}

// Writes figures as a text, and tells the line on which each begins, counted from #FIG. A figure that was not put
// elsewhere keeps its depth; any other one gets that of the next below it, and stands behind it in the text.
export function write(figures, knows) {
    const colours = new Map([...new Set(figures.map(figure => figure.colour))].map((colour, i) => [colour, FIRST_COLOUR + i]));
    const lines = [...HEADER, knows, '1200 2', ...[...colours].map(([colour, number]) => `0 ${number} ${colour}`)];
    const stays = figure => figure.at !== null && figure.at >= 0;
    let depth = figures.find(stays)?.at ?? 50;
    const begins = new Map();
    for (const figure of figures) {
        if (stays(figure)) depth = figure.at;
        lines.push(...figure.named);
        begins.set(lines.length + 1, figure.key);
        lines.push(...object(figure, colours.get(figure.colour), depth));
    }
    return {text: lines.join('\n') + '\n', begins};
}

function object({kind, shape}, colour, depth) {
    const [x, y, width, height] = shape, paint = `0 0 ${colour} ${colour} ${depth} -1 20 0.000`;
    if (isRound({kind})) {
        const type = kind === 'circle' ? 3 : 1, end = kind === 'circle' ? [x + width, y] : [x + width, y + height];
        return [`1 ${type} ${paint} 1 0.0000 ${[x, y, width, height, x, y, ...end].join(' ')}`];
    }
    const corners = [x, y, x + width, y, x + width, y + height, x, y + height];
    const points = kind === 'box' ? corners : shape;
    const type = kind === 'box' ? 2 : 3;
    return [`2 ${type} ${paint} 0 0 -1 0 0 ${points.length / 2 + 1}`, `\t ${[...points, points[0], points[1]].join(' ')}`];
}

// What operation lines create, as it is when all are made: figures without a key, each with the name of its object.
export function created(lines) {
    const objects = new Map();
    for (const line of lines.split('\n').filter(Boolean)) {
        const {op, id, object, set, to, ...values} = JSON.parse(line);
        if (op === 'create') objects.set(id.join('.'), values);
        else if (objects.has(object.join('.'))) objects.get(object.join('.'))[set] = to;
    }
    return [...objects].filter(([, {shown}]) => shown).map(([object, {kind, place, size, points, colour}]) => ({
        object, kind, colour: `#${colour}`,
        shape: kind === 'polygon' ? points.flatMap(([x, y]) => [x + place[0], y + place[1]]) : [...place, ...size],
    }));
}
