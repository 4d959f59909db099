// The words of buttons and keys: what each does, by which keys, and how the help tells it.
import {copied, moved} from './figure.js';

export const WORDS = [
    ['undo', ['Ctrl+z'], 'Undo'],
    ['redo', ['Ctrl+Z', 'Ctrl+y'], 'Redo'],
    ['copy', ['Ctrl+d'], 'Copy beside'],
    ['hold', ['Ctrl+c'], 'Take a copy along'],
    ['cut', ['Ctrl+x'], 'Take it along, and delete it here'],
    ['paste', ['Ctrl+v'], 'Put the copy here'],
    ['delete', ['Delete', 'Backspace'], 'Delete'],
    ['all', ['Ctrl+a'], 'Select all'],
    ['front', ['Home', '}'], 'To the front'],
    ['up', ['PageUp', ']'], 'One up'],
    ['down', ['PageDown', '['], 'One down'],
    ['ground', ['End', '{'], 'To the ground'],
    ['in', ['+', '='], 'Larger'],
    ['out', ['-'], 'Smaller'],
    ['fit', ['4', '5', '0'], 'Show all'],
    ['look', ['3'], 'Show what is selected'],
    ['life', ['1'], 'Show it at 100 %'],
    ['grid', ['#', '%'], 'The grid, to which points keep'],
    ['end', ['Enter'], 'End the polygon; or draw in the middle'],
    ['leave', ['Escape'], 'Leave it, select nothing'],
    ['help', ['?'], 'This help'],
];

export const TOOLS = [
    ['select', ['s', 'v', 'F1'], 'Select, move, resize'],
    ['box', ['r', 'F4'], 'Box'],
    ['circle', ['c'], 'Circle'],
    ['ellipse', ['e', 'F5'], 'Ellipse'],
    ['polygon', ['b', 'p', 'Shift+F6'], 'Polygon: click each corner, the first one again ends it'],
];

// What no word names.
export const HINTS = [
    ['← ↑ → ↓', 'Move what is selected; with Shift ten times as far, with Alt by one unit'],
    ['Tab, Shift+Tab', 'On the canvas: select the next object, the one before'],
    ['Shift and a click', 'Select it in addition'],
    ['Ctrl and a drag', 'Keep the direction, the shape of a box, or draw a square'],
    ['Alt and a drag', 'Let go of the grid'],
    ['A drag of a small dot', 'A new corner of a polygon; two clicks on a corner take it out'],
    ['Wheel', 'Move the view; with Shift to the sides, with Ctrl zoom'],
    ['Space or the middle button', 'And a drag: move the view'],
    ['Two fingers', 'Move and zoom the view; a finger that rests selects in addition'],
];

// What the words do.
export function actions({drawing, canvas, gestures, ask}) {
    let held = [];
    const beside = () => 2 * canvas.step();
    const paste = figures => {
        const copies = figures.map(figure => moved(copied(figure), beside(), beside()));
        drawing.change([...drawing.figures, ...copies], copies.map(({key}) => key));
        return copies;
    };
    const remove = () => drawing.change(drawing.figures.filter(({key}) => !drawing.selected.has(key)), []);
    return {
        undo: () => drawing.undo(),
        redo: () => drawing.redo(),
        copy: () => paste(drawing.chosen),
        hold: () => held = drawing.chosen,
        cut: () => {
            held = drawing.chosen;
            remove();
        },
        paste: () => held = paste(held),
        delete: remove,
        all: () => drawing.select(drawing.figures.map(({key}) => key)),
        front: () => drawing.arrange(1),
        up: () => drawing.arrange(.5),
        down: () => drawing.arrange(-.5),
        ground: () => drawing.arrange(-1),
        in: () => canvas.zoom(1 / 1.25),
        out: () => canvas.zoom(1.25),
        fit: () => canvas.fit(),
        look: () => canvas.fit(drawing.chosen.length ? drawing.chosen : undefined),
        life: () => canvas.zoom(15 / canvas.view.unit),
        grid: () => {
            canvas.snap = !canvas.snap;
            canvas.look();
        },
        colour: () => ask('colour'),
        help: () => ask('help'),
        end: () => gestures.corners ? gestures.close() : gestures.addInMiddle(),
        leave: () => {
            gestures.cancel();
            gestures.use('select');
            drawing.select([]);
        },
    };
}
