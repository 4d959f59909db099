// Puts the page together: buttons and keys get their words.
import {Drawing} from './drawing.js';
import {Live} from './live.js';
import {Store} from './store.js';
import {Canvas} from './canvas.js';
import {Gestures} from './gestures.js';
import {Panels} from './panels.js';
import {Objects} from './objects.js';
import {actions, TOOLS, WORDS} from './words.js';

const HOLD = 200;  // milliseconds until the others see what is selected
const find = selector => document.querySelector(selector);

export const store = new Store(), drawing = new Drawing(), live = new Live(drawing, store);
export const canvas = new Canvas(find('#canvas'), drawing, live), gestures = new Gestures(canvas);
const panels = new Panels(drawing, live, canvas, gestures), objects = new Objects(find('#objects'), drawing, canvas, live);
const words = actions({drawing, canvas, gestures, ask: what => panels.ask(what)});
const KEYS = Object.fromEntries(WORDS.flatMap(([word, keys]) => keys.map(key => [key, word])));
const TOOL_KEYS = Object.fromEntries(TOOLS.flatMap(([tool, keys]) => keys.map(key => [key, tool])));
const ARROWS = {ArrowLeft: [-1, 0], ArrowRight: [1, 0], ArrowUp: [0, -1], ArrowDown: [0, 1]};

function act(word) {
    gestures.endNudge();
    words[word]();
}

document.addEventListener('pointerdown', () => gestures.endNudge(), true);
document.addEventListener('click', ({target}) => {
    const button = target.closest('button');
    if (button?.dataset.do) act(button.dataset.do);
    if (button?.dataset.tool) gestures.use(button.dataset.tool);
});

// The name of a key, as Ctrl+z, Shift+F6 or }. Whether a letter is a capital Shift says alone, and not Caps Lock.
function named({key, ctrlKey, metaKey, shiftKey}) {
    const sign = key.length > 1 ? key : shiftKey ? key.toUpperCase() : key.toLowerCase();
    return (ctrlKey || metaKey ? 'Ctrl+' : '') + (shiftKey && key.length > 1 && !ARROWS[key] ? 'Shift+' : '') + sign;
}

document.addEventListener('keydown', event => {
    const {target} = event, name = named(event), bare = name.replace(/^Ctrl\+/, '');
    if (target.matches('input:not([type=checkbox])') || find('dialog[open]')) return;
    if (name === 'Ctrl+c' && String(getSelection())) return;  // words that are to be copied
    if (target.closest('button, input') && (bare === ' ' || bare === 'Enter')) return;
    if (bare === ' ') gestures.panning = true;
    else if (KEYS[name]) act(KEYS[name]);
    else if (TOOL_KEYS[name]) gestures.use(TOOL_KEYS[name]);
    else if (ARROWS[bare]) nudge(ARROWS[bare], event);
    else if (!stepThrough(name, target)) return;
    event.preventDefault();
});
document.addEventListener('keyup', ({key}) => {
    if (key === ' ') gestures.panning = false;
});
addEventListener('blur', () => {
    gestures.panning = false;
    gestures.endNudge();
});

function nudge(way, {altKey, shiftKey}) {
    const step = altKey || !canvas.snap ? 1 : canvas.step();
    gestures.nudge(...way.map(value => value * step * (shiftKey ? 10 : 1)));
}

// Tab selects the next object on the canvas; behind the last one it goes on in the page.
function stepThrough(name, target) {
    const by = {Tab: 1, 'Shift+Tab': -1}[name];
    if (!by || target !== canvas.root) return false;
    const keys = drawing.figures.map(({key}) => key), chosen = keys.findIndex(key => drawing.selected.has(key));
    const next = chosen < 0 ? (by > 0 ? 0 : keys.length - 1) : chosen + by;
    if (keys[next]) drawing.select([keys[next]]);
    return Boolean(keys[next]);
}

find('#snap').onchange = () => act('grid');

// What is selected here the others see.
let held = '', due = null;
drawing.addEventListener('shown', () => due ??= setTimeout(() => {
    due = null;
    const holds = drawing.chosen.map(({object}) => object).filter(Boolean).slice(0, 100);
    if (String(holds) !== held) live.hold(holds);
    held = String(holds);
}, HOLD));

// The first drawing that comes is shown whole.
live.addEventListener('told', function first() {
    if (!live.joined || live.state === 'empty') return;
    live.removeEventListener('told', first);
    canvas.fit();
});

objects.show();
panels.show();
live.begin();
