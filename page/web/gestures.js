// Gestures: what the mouse, a pen, fingers and the arrow keys do on the canvas. Each ends in one change of the drawing.
import {attributes, between, bounds, element, fitted, fresh, join, moved, svg} from './figure.js';
import {EDGES} from './marks.js';

const PAUSE = 350;       // milliseconds until nudges by keys are one gesture
const DOUBLE = 500;      // between two clicks that are a double one
const LONG = 600;        // until a finger that rests adds to what is selected
const SLACK = 4;         // pixels that a click may move
const NEAR = 9;          // pixels to the first corner that close a polygon
const STEPS = 10;        // of the grid that a figure has which the keyboard draws

export class Gestures {
    colour = '#4f7cac';
    panning = false;         // the space bar is down
    #drag = null;
    #corners = null;         // of a polygon that is being drawn
    #pointer = [0, 0];
    #fingers = new Map();
    #pinch = null;
    #click = {time: 0};
    #rests = null;
    #before = [];            // what was selected before a finger came
    #nudge = null;

    constructor(canvas) {
        Object.assign(this, {canvas, root: canvas.root, drawing: canvas.drawing, live: canvas.live});
        const {root} = canvas;
        root.addEventListener('pointerdown', event => this.#down(event));
        root.addEventListener('pointermove', event => this.#moves(event));
        root.addEventListener('pointerup', event => this.#up(event));
        root.addEventListener('pointercancel', event => {
            this.#fingers.delete(event.pointerId);
            this.cancel();
        });
        root.addEventListener('lostpointercapture', () => this.#drag && this.cancel());
        root.addEventListener('wheel', event => this.#wheel(event), {passive: false});
        root.addEventListener('contextmenu', event => event.preventDefault());
    }

    // ---- Fingers: one draws, two move and zoom the view

    #down(event) {
        if (event.pointerType === 'touch') {
            this.#fingers.set(event.pointerId, event);
            if (this.#fingers.size > 1) return this.#pinchBegins();
        }
        this.root.setPointerCapture(event.pointerId);
        this.#press(event);
    }

    #moves(event) {
        if (this.#fingers.has(event.pointerId)) this.#fingers.set(event.pointerId, event);
        if (this.#pinch) return this.#pinchMoves();
        const {x, y} = this.#click;
        if (Math.hypot(event.clientX - x, event.clientY - y) > SLACK) clearTimeout(this.#rests);
        this.#move(event);
    }

    #up(event) {
        this.#fingers.delete(event.pointerId);
        if (!this.#pinch) return this.#release(event);
        if (!this.#fingers.size) this.#pinch = null;
    }

    #pinchBegins() {
        const polygon = this.#corners;
        this.cancel();
        this.#corners = polygon;
        this.#pinch = {view: this.canvas.view, ...this.#span()};
    }

    // The middle between two fingers, and how far they are apart, in pixels.
    #span() {
        const [a, b] = [...this.#fingers.values()];
        return {clientX: (a.clientX + b.clientX) / 2, clientY: (a.clientY + b.clientY) / 2,
            apart: Math.max(1, Math.hypot(a.clientX - b.clientX, a.clientY - b.clientY))};
    }

    #pinchMoves() {
        if (this.#fingers.size < 2) return;
        const {view, ...then} = this.#pinch, now = this.#span(), {canvas} = this;
        canvas.look(view);
        canvas.pan(then.clientX - now.clientX, then.clientY - now.clientY);
        canvas.zoom(then.apart / now.apart, canvas.at(now));
    }

    #wheel(event) {
        event.preventDefault();
        const {canvas} = this, lines = event.deltaMode === 1 ? 20 : 1;
        if (event.ctrlKey || event.metaKey) return canvas.zoom(1.0025 ** (event.deltaY * lines), canvas.at(event));
        if (event.shiftKey && !event.deltaX) return canvas.pan(event.deltaY * lines, 0);
        canvas.pan(event.deltaX * lines, event.deltaY * lines);
    }

    // ---- A pointer goes down, moves, and goes up

    #press(event) {
        this.endNudge();
        this.live.start();  // nothing newer is shown while a button is down
        const at = this.canvas.at(event), {key, edge, corner, between: gap} = event.target.dataset;
        if (event.button === 1 || event.button === 2 || this.panning) return this.#pan(event);
        if (event.button) return;
        const twice = this.#isDouble(event);
        if (this.canvas.tool !== 'select' && !this.live.mayDraw) return;
        if (this.canvas.tool === 'polygon') return twice ? this.close() : this.#corner(at, event);
        if (this.canvas.tool !== 'select') return this.#sketch(at);
        if (twice && corner !== undefined) return this.dropCorner(Number(corner));
        if (edge) return this.#resize(at, EDGES[edge]);
        if (corner ?? gap) return this.#bend(Number(corner ?? gap), gap !== undefined);
        if (!key) return this.#catch(at, event.shiftKey);
        if (event.shiftKey || event.ctrlKey) return this.#toggle(key);
        if (!this.drawing.selected.has(key)) this.drawing.select([key]);
        if (event.pointerType === 'touch') this.#rests = setTimeout(() => this.#longPress(key), LONG);
        this.#carry(at);
    }

    // Not by dblclick: that never comes where the handle under the pointer was drawn anew between the clicks.
    #isDouble({timeStamp, clientX, clientY}) {
        const {time, x, y} = this.#click, slack = 3 * SLACK;
        const twice = timeStamp - time < DOUBLE && Math.abs(clientX - x) < slack && Math.abs(clientY - y) < slack;
        this.#click = {time: twice ? 0 : timeStamp, x: clientX, y: clientY};
        return twice;
    }

    #toggle(key) {
        const {selected} = this.drawing;
        this.drawing.select(selected.has(key) ? [...selected].filter(one => one !== key) : [...selected, key]);
    }

    // A finger that rests on a figure takes it in addition; what was selected before stays so.
    #longPress(key) {
        this.#rests = null;
        this.#leave();
        this.drawing.select([...this.#before, key]);
    }

    #move(event) {
        this.#pointer = this.canvas.at(event).map(value => this.canvas.onGrid(value, event.altKey));
        if (this.#corners) this.#outline();
        this.#drag?.move(this.canvas.at(event), event);
    }

    #release(event) {
        const drag = this.#drag;
        this.#drag = null;
        clearTimeout(this.#rests);
        if (!this.#corners) this.canvas.sketch = null;
        drag?.end?.(this.canvas.at(event), event);
        this.#before = [...this.drawing.selected];
        this.canvas.mark();
        this.live.rest();
    }

    // Gives the gesture up.
    cancel() {
        this.#corners = null;
        this.#leave();
    }

    #leave() {
        clearTimeout(this.#rests);
        this.#drag = this.canvas.preview = this.canvas.sketch = null;
        this.canvas.draw();
        this.live.rest();
    }

    // ---- Changes of what is selected

    // `change` gives what a figure becomes.
    #changing(change) {
        if (!this.live.start()) return;
        this.#drag = {
            move: (at, event) => {
                this.canvas.preview = new Map(this.drawing.chosen.map(figure => [figure.key, change(figure, at, event)]));
                this.canvas.draw();
            },
            end: () => this.#commit(),
        };
    }

    #commit() {
        const {figures} = this.canvas;
        this.canvas.preview = null;
        this.drawing.change(figures);
    }

    #carry([x, y]) {
        const {canvas} = this, [left, top] = join(this.drawing.chosen.map(bounds));
        // What lies off the grid stays so in a direction in which it is not really moved.
        const step = (from, by, free) =>
            Math.abs(by) < SLACK * canvas.view.unit ? 0 : canvas.onGrid(from + by, free) - from;
        this.#changing((figure, at, event) => {
            let [dx, dy] = [step(left, at[0] - x, event.altKey), step(top, at[1] - y, event.altKey)];
            if (event.ctrlKey) Math.abs(dx) < Math.abs(dy) ? dx = 0 : dy = 0;
            return moved(figure, dx, dy);
        });
    }

    #resize(start, sides) {
        const from = join(this.drawing.chosen.map(bounds));
        this.#changing((figure, at, event) => {
            const to = [...from];
            for (const side of sides)
                to[side] = this.canvas.onGrid(from[side] + at[side % 2] - start[side % 2], event.altKey);
            if (event.ctrlKey && sides.length === 2) keepShape(from, to, sides);
            return fitted(figure, from, to);
        });
    }

    // Drags a corner of a polygon, or a new one out of the middle of an edge.
    #bend(index, isNew) {
        this.#changing((figure, at, event) => {
            const point = at.map(value => this.canvas.onGrid(value, event.altKey)), shape = [...figure.shape];
            shape.splice(index, isNew ? 0 : 2, ...point);
            return {...figure, shape};
        });
    }

    dropCorner(corner) {
        this.drawing.changeChosen(figure => figure.kind === 'polygon' && figure.shape.length > 6
            ? {...figure, shape: figure.shape.filter((_, i) => i >> 1 !== corner >> 1)} : figure);
    }

    // ---- New figures

    #sketch(start) {
        const from = start.map(value => this.canvas.onGrid(value)), {unit} = this.canvas.view;
        let figure = null;
        if (!this.live.start()) return;
        this.#drag = {
            move: (at, event) => {
                const to = at.map(value => this.canvas.onGrid(value, event.altKey));
                if (event.ctrlKey) square(from, to);
                figure = between(this.canvas.tool, from, to, this.colour);
                this.#show(svg(element(figure), {...attributes(figure), class: 'new', style: `fill: ${figure.colour}`}));
            },
            end: at => figure && Math.hypot(at[0] - start[0], at[1] - start[1]) > SLACK * unit && this.add(figure),
        };
    }

    #show(element) {
        this.canvas.sketch = element;
        this.canvas.mark();
    }

    #corner(at, event) {
        const point = at.map(value => this.canvas.onGrid(value, event.altKey)), first = this.#corners?.[0];
        const near = first && Math.hypot(at[0] - first[0], at[1] - first[1]) < NEAR * this.canvas.view.unit;
        if (near && this.#corners.length > 2) return this.close();
        this.#corners = [...this.#corners ?? [], point];
        this.#pointer = point;
        this.#outline();
    }

    #outline() {
        const points = [...this.#corners, this.#pointer].join(' ');
        const dots = this.#corners.map(([x, y]) => svg('circle', {cx: x, cy: y, r: 3 * this.canvas.view.unit}));
        this.#show(svg('g', {class: 'drawn'}, svg('polyline', {points}), ...dots));
        this.canvas.dispatchEvent(new Event('looked'));
    }

    // Whether a polygon is being drawn.
    get corners() {
        return this.#corners?.length ?? 0;
    }

    // Ends the polygon that is being drawn.
    close() {
        const same = (a, b) => a && String(a) === String(b);
        const corners = (this.#corners ?? []).filter((point, i, all) => !same(all[i - 1], point));
        this.#corners = this.canvas.sketch = null;
        if (corners.length > 2) this.add(fresh('polygon', corners.flat(), this.colour));
        this.canvas.mark();
        this.canvas.dispatchEvent(new Event('looked'));
    }

    // A figure of the tool in the middle of what is seen, for who has no pointer.
    addInMiddle() {
        const {canvas} = this, step = canvas.step(), [x, y] = canvas.middle().map(value => canvas.onGrid(value));
        const half = STEPS / 2 * step;
        if (canvas.tool === 'select') return;
        if (canvas.tool === 'polygon')
            return this.add(fresh('polygon', [x, y - half, x + half, y + half, x - half, y + half], this.colour));
        this.add(between(canvas.tool, [x - half, y - half], [x + half, y + half], this.colour));
    }

    add(figure) {
        this.drawing.change([...this.drawing.figures, figure], [figure.key]);
        this.use('select');
    }

    // A tool that draws begins with nothing selected, so that a colour is chosen for what comes, and not for what is there.
    use(tool) {
        this.#corners = this.canvas.sketch = null;
        if (tool !== 'select') this.drawing.select([]);
        this.canvas.use(tool);
    }

    // ---- Selecting, and the view

    #catch([x, y], more) {
        const before = more ? [...this.drawing.selected] : [];
        const area = ([atX, atY]) => [Math.min(x, atX), Math.min(y, atY), Math.max(x, atX), Math.max(y, atY)];
        this.drawing.select(before);
        this.#drag = {
            move: at => {
                const [left, top, right, bottom] = area(at);
                this.#show(svg('rect', {x: left, y: top, width: right - left, height: bottom - top, class: 'area'}));
            },
            end: at => this.drawing.select([...before, ...this.drawing.figures.filter(figure => {
                const around = bounds(figure), within = area(at);
                return String(join([around, within])) === String(within);
            }).map(({key}) => key)]),
        };
    }

    #pan({clientX, clientY}) {
        const {view} = this.canvas;
        this.#drag = {move: (_, event) => this.canvas.pan(clientX - event.clientX, clientY - event.clientY, view)};
    }

    // ---- Arrow keys: nudges are one gesture when they pause

    nudge(dx, dy) {
        const {canvas, drawing, live} = this;
        if (!drawing.selected.size || !this.#nudge && !live.start()) return;
        clearTimeout(this.#nudge);
        canvas.preview = new Map(canvas.figures.filter(({key}) => drawing.selected.has(key))
            .map(figure => [figure.key, moved(figure, dx, dy)]));
        canvas.draw();
        this.#nudge = setTimeout(() => this.endNudge(), PAUSE);
    }

    endNudge() {
        if (!this.#nudge) return;
        clearTimeout(this.#nudge);
        this.#nudge = null;
        this.#commit();
        this.live.rest();
    }
}

// Makes the drag of a corner keep the shape of a box.
function keepShape(from, to, sides) {
    const [across, down] = [0, 1].map(i => (to[i + 2] - to[i]) / Math.max(1, from[i + 2] - from[i]));
    const factor = Math.max(across, down);
    for (const side of sides) {
        const i = side % 2, length = Math.round((from[i + 2] - from[i]) * factor);
        to[side] = side < 2 ? from[i + 2] - length : from[i] + length;
    }
}

// Makes the second corner one of a square.
function square(from, to) {
    const side = Math.max(Math.abs(to[0] - from[0]), Math.abs(to[1] - from[1]));
    for (const i of [0, 1]) to[i] = from[i] + side * (Math.sign(to[i] - from[i]) || 1);
}
