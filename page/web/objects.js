// The list of objects, for the keyboard and for who hears the page: the topmost first, each an option in words.
import {apart} from './fig.js';
import {inWords} from './figure.js';
import {label, whose} from './versions.js';

export class Objects {
    #options = new Map();  // by key: the element, and the figure that it tells
    #active = null;        // the key where the arrow keys are
    #due = null;
    #count = 0;

    constructor(root, drawing, canvas, live) {
        Object.assign(this, {root, drawing, canvas, live});
        drawing.addEventListener('shown', () => this.#later());
        live.addEventListener('named', () => {
            for (const option of this.#options.values()) option.figure = null;
            this.#later();
        });
        root.addEventListener('keydown', event => this.#key(event));
        root.addEventListener('click', event => this.#click(event));
        root.addEventListener('focus', () => this.#go(this.#active ?? this.#keys()[0]));
    }

    #later() {
        this.#due ??= requestAnimationFrame(() => {
            this.#due = null;
            this.show();
        });
    }

    show() {
        const {figures, selected} = this.drawing, keys = new Set(figures.map(({key}) => key));
        for (const [key, {node}] of this.#options) if (!keys.has(key)) node.remove(), this.#options.delete(key);
        let next = this.root.firstChild;
        for (const figure of [...figures].reverse()) {
            const option = this.#options.get(figure.key) ?? this.#made(figure);
            if (option.figure !== figure) this.#tell(option, figure);
            option.node.setAttribute('aria-selected', selected.has(figure.key));
            if (option.node === next) next = next.nextSibling;
            else this.root.insertBefore(option.node, next);
        }
        if (!keys.has(this.#active)) this.#active = null;
        const [one] = selected;
        if (selected.size === 1 && one !== this.#active) this.#activate(one);
    }

    #made({key}) {
        const [node, swatch, name] = ['li', 'i', 'span'].map(part => document.createElement(part));
        node.append(swatch, name);
        Object.assign(node, {id: `object-${this.#count++}`, role: 'option'});
        node.dataset.object = key;
        const option = {node, swatch, name};
        this.#options.set(key, option);
        return option;
    }

    #tell(option, figure) {
        const {live} = this, [first] = apart(figure);
        const version = first ? `, ${whose(figure, live.designer(first.split('.')[0]), live)}` : '';
        const name = label(`${figure.kind} ${figure.object ?? ''}`.trim(), figure.object, live) + version;
        option.figure = figure;
        option.swatch.style.background = figure.colour;
        option.name.textContent = name;
        option.node.setAttribute('aria-label', `${name} ${inWords(figure)}`);
    }

    #keys() {
        return this.drawing.figures.map(({key}) => key).reverse();
    }

    #activate(key) {
        this.#active = key;
        const option = this.#options.get(key);
        if (!option) return;
        this.root.setAttribute('aria-activedescendant', option.node.id);
        for (const {node} of this.#options.values()) node.classList.toggle('active', node === option.node);
        this.#reveal(option.node);
    }

    // Scrolls the list, and not what is around it.
    #reveal({offsetTop, offsetHeight}) {
        const {root} = this, least = offsetTop + offsetHeight - root.clientHeight;
        root.scrollTop = Math.max(least, Math.min(offsetTop, root.scrollTop));
    }

    #go(key, selected = [key]) {
        if (key === undefined) return;
        this.#activate(key);
        this.drawing.select(selected);
    }

    #key(event) {
        const keys = this.#keys(), place = keys.indexOf(this.#active), {selected} = this.drawing;
        const next = {ArrowDown: place + 1, ArrowUp: place - 1, Home: 0, End: keys.length - 1}[event.key];
        if (next !== undefined) {
            const key = keys[Math.max(0, Math.min(keys.length - 1, next))];
            this.#go(key, event.shiftKey ? [...selected, key] : [key]);
        } else if (event.key === ' ' && this.#active) {
            const others = [...selected].filter(key => key !== this.#active);
            this.drawing.select(selected.has(this.#active) ? others : [...others, this.#active]);
        } else if (event.key === 'Enter') {
            this.canvas.root.focus();
        } else return;
        event.preventDefault();
        event.stopPropagation();
    }

    #click({target, shiftKey, ctrlKey}) {
        const key = target.closest('[data-object]')?.dataset.object, {selected} = this.drawing;
        if (!key) return;
        this.#go(key, shiftKey || ctrlKey ? [...selected, key] : [key]);
    }
}
