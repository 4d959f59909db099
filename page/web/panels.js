// What stands around the canvas: the state, questions, colours, measures, designers, and what is to be settled.
import {attributes, bounds, element, fitted, inWords, join, meet, svg} from './figure.js';
import {askedWords, freeSite, left, limitLeft, limitNext, limitWords, MORE, PROXY, stateWords} from './notices.js';
import {conflicts, hidden, label, whose} from './versions.js';
import {HINTS, TOOLS, WORDS} from './words.js';

const COLOURS = new Map(Object.entries({  // with what they are called for who hears the page
    '#1b1b1f': 'black', '#5f6672': 'grey', '#b8bec9': 'light grey', '#ffffff': 'white', '#d64545': 'red',
    '#ef8354': 'orange', '#f4c95d': 'yellow', '#fff3c4': 'cream', '#2e7d32': 'green', '#8bc34a': 'light green',
    '#1b998b': 'teal', '#bfe3d0': 'mint', '#2d4a8a': 'dark blue', '#4f7cac': 'blue', '#a9d0f5': 'light blue',
    '#7d5ba6': 'violet',
}));
const MOST_CARDS = 12;          // objects in conflict that are shown at once
const MOST_OWN = 16;            // colours of the drawing that are offered
const FEW = 1000;               // operations of a site; from so few left on it is told
const NEED = ['copy', 'delete', 'front', 'up', 'down', 'ground'];  // words for what is selected

const html = (name, properties = {}, ...inner) => {
    const made = Object.assign(document.createElement(name), properties);
    made.append(...inner);
    return made;
};
const find = selector => document.querySelector(selector);
const all = selector => document.querySelectorAll(selector);

// A key as it stands on the keyboard.
const keycap = key => key.length === 1 ? key.toUpperCase() : key.replace(/^Ctrl\+(.)$/, (_, letter) =>
    letter === letter.toUpperCase() ? `Ctrl+Shift+${letter}` : `Ctrl+${letter.toUpperCase()}`);

// Puts such elements there, unless they read the same: so the focus stays where it is.
function put(selector, key, make) {
    const root = find(selector);
    if (root.dataset.shows === key) return;
    root.dataset.shows = key;
    root.replaceChildren(...make());
}

export class Panels {
    #due = null;
    #spoken = '';
    #typed = null;  // the field in which somebody types

    constructor(drawing, live, canvas, gestures) {
        Object.assign(this, {drawing, live, canvas, gestures});
        for (const target of [drawing, live, canvas])
            for (const event of ['shown', 'told', 'looked']) target.addEventListener(event, () => this.#later());
        live.addEventListener('news', ({detail}) => this.speak(`others changed ${detail} ${detail > 1 ? 'objects' : 'object'}`));
        find('#swatches').append(...[...COLOURS.keys()].map(colour => this.#swatch(colour)));
        find('#own').onchange = event => this.paint(event.target.value);
        find('#corners').onchange = () => this.#bend();
        find('#more').onclick = () => document.body.classList.toggle('open');
        for (const input of all('#measures input[data-side]')) input.onchange = () => this.#measure(input);
        find('#measures').addEventListener('input', ({target}) => this.#typed = target);
        find('#measures').addEventListener('keydown', ({key}) => key === 'Escape' && this.#leave());
        for (const event of ['change', 'focusout']) find('#measures').addEventListener(event, () => {
            this.#typed = null;
            this.#later();
        });
        this.#help();
    }

    // Many events at once are one round of work.
    #later() {
        this.#due ??= requestAnimationFrame(() => {
            this.#due = null;
            this.show();
        });
    }

    show() {
        this.#state();
        this.#left();
        this.#bar();
        this.#conflicts();
        this.#hidden();
        this.#designers();
        this.#colours();
        this.#measures();
        this.#bubbles();
        this.#buttons();
    }

    // Tells it to who hears the page.
    speak(words) {
        find('#spoken').textContent = words;
    }

    // ---- Colours

    #swatch(colour) {
        const made = html('button', {className: 'swatch', title: colour, onclick: () => this.paint(colour)});
        made.setAttribute('aria-label', COLOURS.get(colour) ?? colour);
        made.style.background = colour;
        return made;
    }

    paint(colour) {
        this.gestures.colour = colour;
        this.drawing.changeChosen(figure => figure.colour === colour ? figure : {...figure, colour});
        this.#later();
    }

    #colours() {
        const used = [...new Set(this.drawing.figures.map(({colour}) => colour))]
            .filter(colour => !COLOURS.has(colour)).slice(0, MOST_OWN);
        put('#used', used.join(), () => used.map(colour => this.#swatch(colour)));
        const {chosen} = this.drawing, next = this.gestures.colour;
        const on = new Set(chosen.length ? chosen.map(figure => figure.colour) : [next]);
        for (const swatch of all('.swatch')) {
            swatch.classList.toggle('on', on.has(swatch.title));
            swatch.setAttribute('aria-pressed', on.has(swatch.title));
        }
        find('#painted').textContent = `Colour of what is ${chosen.length ? 'selected' : 'drawn next'}`;
        find('#colour i').style.background = next;
        if (document.activeElement !== find('#own')) find('#own').value = on.size > 1 ? next : [...on][0];
    }

    // ---- The state, and what is asked

    #state() {
        const {state, words, reason, hindrance, opened, store, faults, fileFaults, site, notice} = this.live;
        const marked = faults.size > 0;
        const said = stateWords({state, reason, hindrance, opened, full: store.full, marked, faults: fileFaults, own: site});
        find('#state').className = `${state} ${fileFaults.length ? 'faulty' : ''}`;
        if (find('#state').textContent !== said) find('#state').textContent = said;
        find('#state').title = words || said;
        put('#notices', JSON.stringify([notice, fileFaults]), () => [
            ...notice ? [html('p', {}, notice)] : [], ...fileFaults.map(({words}) => html('p', {className: 'fault'}, words))]);
    }

    // How many operations are left, if these are few, and how to go on.
    #left() {
        const {last, designers, joined} = this.live, rest = left(last), free = freeSite(designers);
        put('#left', rest > FEW ? '' : `${rest} ${free} ${joined}`, () => rest > FEW ? [] : [
            html('p', {}, limitLeft(last)),
            ...this.#other(free),
            html('p', {}, html('code', {}, 'draw anew FOLDER'), ' begins a new drawing from this picture.'),
        ]);
    }

    #button(words, run) {
        return html('button', {onclick: run, disabled: !this.live.joined}, words);
    }

    // A button for another number, if one is free.
    #other(free) {
        return free ? [this.#button(`Go on as site ${free}`, () => this.live.goOn())] : [];
    }

    // A button that takes back what is refused. After a reload nothing can be undone, and all of it is dropped.
    #back() {
        const {drawing, live} = this;
        return drawing.done.length ? html('button', {onclick: () => drawing.undo()}, 'Undo')
            : html('button', {onclick: () => live.giveUp()}, 'Drop it');
    }

    // Watching, gestures that wait, a refusal: a line over the canvas, with what can be done.
    #bar() {
        const {live} = this, {state, asked, joined, opened, failed, gone, needs, last, designers} = live;
        const count = asked?.changes.length ?? 0, exhausted = state === 'refused' && live.words.includes('Exhausted');
        const shows = asked ? 'asked' : failed && !opened ? 'closed' : exhausted ? 'limit'
            : state === 'saved' && live.store.more ? 'more' : this.#bars[state] ? state : '';
        const key = [shows, count, gone, joined, live.faults.size, this.drawing.done.length > 0, needs, last,
            freeSite(designers)].join();
        put('#bar', shows && key, () => shows ? this.#bars[shows]() : []);
    }

    #bars = {
        closed: () => [html('span', {}, PROXY)],
        watching: () => [html('span', {}, 'Another page of yours draws: this one watches.'),
            this.#button('Draw here', () => this.live.takeOver())],
        asked: () => [html('span', {}, askedWords(this.live.asked.changes.length, this.live.gone)),
            this.#button('Draw them anew on the newest drawing', () => this.live.makeAnew()),
            this.#button('Drop them', () => this.live.drop())],
        refused: () => [html('span', {}, `This is not taken yet. ${this.live.faults.size ? 'Mend' : 'Change'} it, or undo it.`),
            this.#back(), this.#button('Try again', () => this.live.sendAgain())],
        more: () => [html('span', {}, MORE), this.#button('Show them', () => location.reload())],
        limit: () => {
            const {needs, last, designers} = this.live, free = freeSite(designers);
            return [html('span', {}, `${limitWords(needs, last)} ${limitNext(last, free)}`),
                this.#back(), ...this.#other(free)];
        },
    };

    // What figgroup says of a figure stands at it.
    #bubbles() {
        const {faults, state, words, fileFaults} = this.live;
        const bubbles = this.drawing.figures.filter(({key}) => faults.has(key)).map(figure => {
            const [left, , , bottom] = bounds(figure), [x, y] = this.canvas.pixel([left, bottom]);
            const bubble = html('p', {className: 'bubble'}, faults.get(figure.key));
            bubble.style.left = `${Math.max(70, Math.min(x, innerWidth - 560))}px`;
            bubble.style.top = `${Math.max(70, Math.min(y + 8, innerHeight - 80))}px`;
            return bubble;
        });
        const told = words.includes('Exhausted') || fileFaults.some(fault => words.includes(fault.words));
        if (state === 'refused' && !bubbles.length && !told) bubbles.push(html('p', {className: 'bubble middle'}, words));
        find('#bubbles').replaceChildren(...bubbles);
    }

    // ---- What is to be settled

    // Two designers changed one object at once: each version with a picture, and a click keeps it.
    #conflicts() {
        const {figures} = this.drawing, {live} = this, found = conflicts(figures, live);
        const shown = [...found].slice(0, MOST_CARDS), more = found.size - shown.length;
        const key = found.size ? JSON.stringify([shown, shown.map(([object]) => live.names.get(object)), more,
            live.designers.length, live.mayDraw, figures.length]) : '';
        put('#conflicts', key, () => found.size ? [
            html('h2', {}, 'Choose a version'),
            ...shown.map(([object, versions]) => this.#card(object, versions)),
            ...more ? [html('p', {}, `and ${more} more`)] : [],
        ] : []);
        const told = found.size ? `${found.size} ${found.size > 1 ? 'objects have' : 'object has'} versions in conflict` : '';
        if (told && told !== this.#spoken) this.speak(told);
        this.#spoken = told;
        find('#more').dataset.count = found.size + hidden(live).length || '';
    }

    #card(object, versions) {
        const figures = versions.map(({figure}) => figure), [left, top, right, bottom] = join(figures.map(bounds));
        const [x, y] = [(left + right) / 2, (top + bottom) / 2];
        const half = .65 * Math.max(right - left, (bottom - top) * 4 / 3);
        const around = [x - half, y - half * 3 / 4, x + half, y + half * 3 / 4];
        return html('article', {},
            html('h3', {}, `${versions.length} versions of ${label(`${figures[0].kind} ${object}`, object, this.live)}`),
            html('div', {className: 'versions'}, ...versions.map(({figure, designer}) => {
                const others = new Set(figures.filter(other => other !== figure).map(({key}) => key));
                const name = whose(figure, designer, this.live);
                const card = html('button', {onclick: () => this.keep(figure, others), disabled: !this.live.mayDraw},
                    this.#picture(around, others), html('b', {}, name), html('span', {}, 'Keep this one'));
                card.setAttribute('aria-label', `Keep ${name}: ${inWords(figure)}`);
                card.style.setProperty('--whose', designer.colour);
                card.dataset.keep = figure.key;
                return card;
            })));
    }

    #picture(around, without) {
        const [left, top, right, bottom] = around;
        return svg('svg', {viewBox: [left, top, right - left, bottom - top].join(' '), 'aria-hidden': true},
            ...this.drawing.figures.filter(figure => !without.has(figure.key) && meet(bounds(figure), around))
                .map(figure => svg(element(figure), attributes(figure))));
    }

    keep(figure, others) {
        this.drawing.change(this.drawing.figures.filter(({key}) => !others.has(key)), [figure.key]);
    }

    #hidden() {
        const {live} = this, found = hidden(live), off = !live.mayDraw || !live.joined;
        put('#hidden', JSON.stringify([found, off]), () => found.map(({object, words}) => html('article', {},
            html('p', {}, words), html('div', {className: 'choice'},
                html('button', {onclick: () => live.show(object, true), disabled: off}, 'Show it'),
                html('button', {onclick: () => live.show(object, false), disabled: off}, 'Leave it deleted')))));
    }

    // ---- Designers, measures, buttons

    #designers() {
        const {designers, site: own} = this.live;
        put('#designers', JSON.stringify(designers.map(({site, name, pages}) => [site, name, pages])), () =>
            designers.map(({site, name, pages}) => {
                const row = html('li', {className: pages ? 'here' : ''}, html('i', {}), name,
                    html('small', {}, site === own ? '(you)' : pages ? '' : '(away)'));
                row.style.setProperty('--whose', `var(--site-${site})`);
                return row;
            }));
        const you = designers.find(({site}) => site === own);
        if (you) document.title = `${you.name} – figgroup`;
    }

    #measures() {
        const {chosen} = this.drawing;
        find('#measures').hidden = !chosen.length;
        if (!chosen.length) return this.#typed = null;
        const [left, top, right, bottom] = join(chosen.map(bounds));
        [left, top, right - left, bottom - top].forEach((value, i) => this.#fill(`[data-side="${i}"]`, value));
        const polygon = chosen.length === 1 && chosen[0].kind === 'polygon';
        find('#corners').parentNode.hidden = !polygon;
        if (polygon) this.#fill('#corners', chosen[0].shape.join(' ').replace(/(\S+) (\S+)/g, '$1,$2'));
    }

    // Gives up what is typed in a field.
    #leave() {
        this.#typed = null;
        this.#measures();
        find('#canvas').focus();
    }

    #fill(selector, value) {
        if (find(selector) !== this.#typed) find(selector).value = value;
    }

    // One measure becomes what was typed, and the others stay. What is no number makes nothing.
    #measure({dataset, valueAsNumber}) {
        const side = Number(dataset.side), value = Math.round(valueAsNumber), from = join(this.drawing.chosen.map(bounds));
        const to = [...from];
        if (side < 2) [to[side], to[side + 2]] = [value, value + from[side + 2] - from[side]];
        else to[side] = from[side - 2] + Math.max(1, value);
        if (Number.isFinite(value) && String(from) !== String(to)) this.drawing.changeChosen(figure => fitted(figure, from, to));
    }

    #bend() {
        const shape = find('#corners').value.split(/[\s,]+/).filter(Boolean).map(value => Math.round(Number(value)));
        if (shape.length >= 6 && shape.length % 2 === 0 && shape.every(Number.isFinite))
            this.drawing.changeChosen(figure => String(figure.shape) === String(shape) ? figure : {...figure, shape});
    }

    #buttons() {
        const {drawing, canvas, live, gestures} = this, off = !live.mayDraw;
        for (const button of all('button[data-tool]')) {
            button.classList.toggle('on', button.dataset.tool === canvas.tool);
            button.setAttribute('aria-pressed', button.dataset.tool === canvas.tool);
        }
        for (const word of NEED) find(`[data-do=${word}]`).disabled = off || !drawing.selected.size;
        find('[data-do=undo]').disabled = off || !drawing.done.length;
        find('[data-do=redo]').disabled = off || !drawing.undone.length;
        find('#scale').textContent = `${Math.round(1500 / canvas.view.unit)} %`;  // xfig has 15 units a pixel
        find('#snap').checked = canvas.snap;
        find('#hint').hidden = drawing.figures.length > 0 || canvas.tool !== 'select' || off;
        find('#done').hidden = gestures.corners < 3;
        find('#count').textContent = String(drawing.figures.length);
    }

    // ---- The help

    ask(what) {
        if (what === 'colour') find('#own').showPicker();
        else find('#help').showModal();
    }

    #help() {
        const rows = [...TOOLS, ...WORDS].map(([, keys, tells]) => [keys.map(keycap).join(', '), tells]);
        find('#keys').append(...[...rows, ...HINTS].map(([keys, tells]) =>
            html('div', {}, html('dt', {}, keys), html('dd', {}, tells))));
    }
}
