// The canvas: shows the drawing as SVG, in a view that is moved and zoomed.
import {attributes, bounds, element, join, svg} from './figure.js';
import {marks} from './marks.js';

const LEAST = .05, MOST = 4000;  // units of FIG that a pixel may have
const EMPTY = [0, 0, 9600, 6000];  // what is seen of an empty drawing

export class Canvas extends EventTarget {
    view = {x: -600, y: -600, unit: 8};  // the corner, and how many units of FIG a pixel has
    snap = true;
    tool = 'select';
    preview = null;          // what figures become if the gesture ended now, by key
    sketch = null;           // an element of a gesture under way
    #layer = {};
    #shown = new Map();      // the element of each key, and the figure that it shows
    #due = null;

    constructor(root, drawing, live) {
        super();
        Object.assign(this, {root, drawing, live});
        this.#layer.pattern = svg('pattern', {id: 'grid', patternUnits: 'userSpaceOnUse'});
        this.#layer.ground = svg('rect', {fill: 'url(#grid)', class: 'ground'});
        this.#layer.figures = svg('g', {class: 'figures'});
        this.#layer.marks = svg('g', {class: 'marks'});
        root.append(svg('defs', {}, this.#layer.pattern), this.#layer.ground, this.#layer.figures, this.#layer.marks);
        drawing.addEventListener('shown', () => this.draw());
        live.addEventListener('told', () => this.#later());
        new ResizeObserver(() => this.look()).observe(root);
    }

    // ---- The view

    look(view = this.view) {
        this.view = view;
        const {width, height} = this.root.getBoundingClientRect(), {x, y, unit} = view;
        this.root.setAttribute('viewBox', [x, y, width * unit, height * unit].join(' '));
        for (const [key, value] of Object.entries({x, y, width: width * unit, height: height * unit}))
            this.#layer.ground.setAttribute(key, value);
        this.#grid();
        this.mark();
        this.dispatchEvent(new Event('looked'));
    }

    #grid() {
        const step = this.step(), wide = 5 * step, {pattern, ground} = this.#layer;
        const line = (at, name) =>
            svg('path', {d: `M${at} 0V${wide}M0 ${at}H${wide}`, class: name, 'stroke-width': this.view.unit});
        pattern.setAttribute('width', wide);
        pattern.setAttribute('height', wide);
        pattern.replaceChildren(...[1, 2, 3, 4].map(i => line(i * step, 'thin')), line(0, 'wide'));
        ground.style.visibility = this.snap ? '' : 'hidden';
    }

    // The least of 1, 2, 5, 10, 20 .. units that is 10 pixels or more.
    step() {
        const least = 10 * this.view.unit, power = 10 ** Math.floor(Math.log10(least));
        return Math.max(1, power * [1, 2, 5, 10].find(factor => factor * power >= least));
    }

    onGrid(value, free) {
        const step = this.snap && !free ? this.step() : 1;
        return Math.round(value / step) * step;
    }

    // Shows all of these figures, or of the drawing.
    fit(figures = this.drawing.figures) {
        const {width, height} = this.root.getBoundingClientRect();
        const [left, top, right, bottom] = figures.length ? join(figures.map(bounds)) : EMPTY;
        const unit = Math.max(LEAST, 1.2 * Math.max((right - left) / width, (bottom - top) / height));
        this.look({x: (left + right - width * unit) / 2, y: (top + bottom - height * unit) / 2, unit});
    }

    zoom(factor, [x, y] = this.middle()) {
        const unit = Math.min(MOST, Math.max(LEAST, this.view.unit * factor)), by = unit / this.view.unit;
        this.look({x: x - (x - this.view.x) * by, y: y - (y - this.view.y) * by, unit});
    }

    // Moves the view by so many pixels.
    pan(dx, dy, {x, y, unit} = this.view) {
        this.look({x: x + dx * unit, y: y + dy * unit, unit});
    }

    middle() {
        const {width, height} = this.root.getBoundingClientRect();
        return [this.view.x + width / 2 * this.view.unit, this.view.y + height / 2 * this.view.unit];
    }

    // From the pixels of an event to units, and back to pixels of the page.
    at({clientX, clientY}, {x, y, unit} = this.view) {
        const {left, top} = this.root.getBoundingClientRect();
        return [x + (clientX - left) * unit, y + (clientY - top) * unit];
    }

    pixel([x, y]) {
        const {left, top} = this.root.getBoundingClientRect();
        return [left + (x - this.view.x) / this.view.unit, top + (y - this.view.y) / this.view.unit];
    }

    // ---- The figures

    get figures() {
        const {preview, drawing} = this;
        return preview ? drawing.figures.map(figure => preview.get(figure.key) ?? figure) : drawing.figures;
    }

    draw() {
        const figures = this.figures, layer = this.#layer.figures, keys = new Set(figures.map(({key}) => key));
        for (const [key, {node}] of this.#shown) if (!keys.has(key)) node.remove(), this.#shown.delete(key);
        let next = layer.firstChild;
        for (const figure of figures) {
            const shown = this.#shown.get(figure.key) ?? {node: svg(element(figure), {'data-key': figure.key})};
            if (shown.figure !== figure)
                for (const [name, value] of Object.entries(attributes(figure))) shown.node.setAttribute(name, value);
            shown.figure = figure;
            this.#shown.set(figure.key, shown);
            if (shown.node === next) next = next.nextSibling;
            else layer.insertBefore(shown.node, next);
        }
        this.mark();
    }

    #later() {
        this.#due ??= requestAnimationFrame(() => {
            this.#due = null;
            this.mark();
        });
    }

    // All that lies over the drawing and is no part of it.
    mark() {
        this.#layer.marks.replaceChildren(...marks(this), ...this.sketch ? [this.sketch] : []);
    }

    use(tool) {
        this.tool = tool;
        this.root.dataset.tool = tool;
        this.mark();
        this.dispatchEvent(new Event('looked'));
    }
}
