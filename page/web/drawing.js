// The drawing as this page shows it: the figures, what is selected, and what can be undone. Each gesture ends in one
// call of `change`, which gives the figures as they are then; what a gesture did is the difference of two lists.
import {again, elsewhere, sameLook} from './figure.js';

// What changed from one list to another: for each figure how it was and became, and which one it lay upon.
export function difference(before, after) {
    if (before === after) return [];
    const was = new Map(before.map((figure, i) => [figure.key, {figure, below: before[i - 1]?.key}]));
    const is = new Map(after.map((figure, i) => [figure.key, {figure, below: after[i - 1]?.key}]));
    return [...new Set([...was.keys(), ...is.keys()])]
        .map(key => ({key, was: was.get(key), is: is.get(key)}))
        .filter(({was, is}) => !was || !is || was.figure.at !== is.figure.at || !sameLook(was.figure, is.figure));
}

// The changes of figures that are not there any more. `find` tells the key that a figure has now.
export function gone(figures, changes, find = key => key) {
    const there = new Set(figures.map(({key}) => key));
    return changes.filter(({key, was, is}) => was && is && !there.has(find(key)));
}

// The same changes by the keys that their figures have now, so that another page finds these.
export function renamed(changes, find) {
    const placed = one => one && {...one, below: one.below && find(one.below)};
    return changes.map(({key, was, is}) => ({key: find(key), was: placed(was), is: placed(is)}));
}

export const turned = changes => changes.map(({key, was, is}) => ({key, was: is, is: was}));

// Does such changes to another list. Of a figure that others changed meanwhile, only the attributes change that the gesture
// changed. If it is gone, nothing changes: see `gone`. A deleted figure comes back by its name, if it had one. `find` tells
// the key that a figure has now, `rename` hears of a new one.
export function redo(figures, changes, find = key => key, rename = () => {}) {
    const list = [...figures];
    const upon = below => below ? list.findIndex(figure => figure.key === find(below)) + 1 || list.length : 0;
    for (const {key, was, is} of changes) {
        const place = list.findIndex(figure => figure.key === find(key));
        if (!is && place >= 0) list.splice(place, 1);
        if (!was && place < 0) {
            const one = again(is.figure);
            rename(find(key), one.key);
            list.splice(upon(is.below), 0, one);
        }
        if (!was || !is || place < 0) continue;
        const now = changed(list[place], was.figure, is.figure);
        list[place] = now;
        if (was.figure.at === is.figure.at) continue;
        list.splice(place, 1);
        list.splice(upon(is.below), 0, {...now, at: elsewhere()});
    }
    return list;
}

function changed(figure, was, is) {
    const now = {...figure};
    if (was.colour !== is.colour) now.colour = is.colour;
    if (String(was.shape) !== String(is.shape)) now.shape = is.shape;
    return now;
}

export class Drawing extends EventTarget {
    figures = [];
    selected = new Set();
    undone = [];
    done = [];
    names = new Map();        // the object that a figure became which was drawn here, by its key
    mayChange = () => true;   // whether gestures are taken now
    #renamed = new Map();

    // The key that a figure has now, which had this one once. What is shown has its own.
    find = key => {
        while (this.#renamed.has(key)) key = this.#renamed.get(key);
        return key;
    };

    get chosen() {
        return this.figures.filter(figure => this.selected.has(figure.key));
    }

    // Ends a gesture. The figures are now so; `selected` are the keys of those that are selected then.
    change(figures, selected = this.selected) {
        const changes = this.mayChange() ? difference(this.figures, figures) : [];
        if (!changes.length) return this.select(this.selected);
        this.figures = figures;
        this.select(selected);
        this.done.push(changes);
        this.undone = [];
        this.dispatchEvent(new Event('gesture'));
    }

    // Changes each selected figure.
    changeChosen(change) {
        this.change(this.figures.map(figure => this.selected.has(figure.key) ? change(figure) : figure));
    }

    select(keys) {
        const there = new Set(this.figures.map(figure => figure.key));
        this.selected = new Set([...keys].filter(key => there.has(key)));
        this.dispatchEvent(new Event('shown'));
    }

    // ---- Undo

    undo() {
        this.#turn(this.done, this.undone);
    }

    redo() {
        this.#turn(this.undone, this.done);
    }

    #turn(from, to) {
        const changes = this.mayChange() && from.length ? turned(from.pop()) : null;
        if (!changes) return;
        to.push(changes);
        this.#make(changes);
    }

    // Makes changes on what is shown now.
    again(changes) {
        this.done.push(changes);
        this.#make(changes);
    }

    #make(changes) {
        const {length} = gone(this.figures, changes, this.find);
        this.figures = redo(this.figures, changes, this.find, (old, key) => {
            this.#renamed.delete(key);
            if (old !== key) this.#renamed.set(old, key);
        });
        this.select(changes.map(({key}) => this.find(key)));
        this.dispatchEvent(new Event('gesture'));
        if (length) this.dispatchEvent(new CustomEvent('gone', {detail: length}));
    }

    // Back to figures that were shown before. What was done since can't be undone.
    leave(figures) {
        for (const {key} of figures) this.#renamed.delete(key);
        this.figures = figures;
        this.done = [];
        this.undone = [];
        this.select(this.selected);
    }

    // ---- A newer text

    // Shows its figures, and tells how many others changed. What was drawn here has a name there, and what is in conflict
    // since has others: a figure of an unknown key becomes the one of its object, or that looks the same.
    adopt(figures) {
        const old = new Map(this.figures.map(figure => [figure.key, figure]));
        const left = new Map(figures.filter(figure => !old.has(figure.key)).map(figure => [figure.key, figure]));
        const there = new Set(figures.map(figure => figure.key));
        for (const key of there) this.#renamed.delete(key);  // as where a conflict came, and was settled
        for (const figure of this.figures.filter(({key}) => !there.has(key))) {
            const one = this.#becomes(figure, [...left.values()]);
            if (!one) continue;
            left.delete(one.key);
            this.#renamed.set(figure.key, one.key);
        }
        const was = new Map(this.figures.map(figure => [this.find(figure.key), figure]));
        const news = figures.filter(figure => !was.has(figure.key) || !sameLook(was.get(figure.key), figure)).length
            + [...was.keys()].filter(key => !there.has(key)).length;
        const selected = [...this.selected].map(this.find);
        // What did not change stays the same object, so that nothing has to be drawn anew.
        this.figures = figures.map(figure => {
            const same = old.get(figure.key);
            return same && same.at === figure.at && sameLook(same, figure) ? same : figure;
        });
        this.names.clear();
        this.select(selected);
        return news;
    }

    #becomes(figure, left) {
        const object = figure.object ?? this.names.get(figure.key);
        const ones = left.filter(other => object ? other.object === object : sameLook(other, figure));
        return ones.find(other => sameLook(other, figure)) ?? ones[0];
    }

    // ---- The order

    // 1 to the front, -1 to the ground, and half of it by one step over what is not selected.
    arrange(way) {
        const chosen = this.chosen.map(figure => ({...figure, at: elsewhere()}));
        const rest = this.figures.filter(figure => !this.selected.has(figure.key));
        if (!chosen.length) return;
        const keys = this.figures.map(figure => figure.key);
        const below = key => this.figures.slice(0, keys.indexOf(key)).filter(one => !this.selected.has(one.key)).length;
        const place = {1: rest.length, [-1]: 0, .5: below(chosen.at(-1).key) + 1, [-.5]: below(chosen[0].key) - 1}[way];
        rest.splice(Math.max(0, place), 0, ...chosen);
        if (String(rest.map(figure => figure.key)) !== String(keys)) this.change(rest);
    }
}
