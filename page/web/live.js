// What this page and the server tell each other.
//
// The drawing on the screen is `base`, the last text that was shown, and the gestures since. A text is sent with what its
// base knew, which is what its designer saw. So no newer text is shown while a gesture is under way or not yet answered: it
// waits. What others did meanwhile is then concurrent, as it was for the eye.
//
// One text is sent at a time, and again, as it was, until it is answered: the server makes nothing of a request that it
// answered. Further gestures wait, and go together. What is not answered is kept in the browser.
//
// One page of a site draws, the one that was opened last or took over; the others watch. What waited on a page that does
// not draw any more, or on a drawing that its site went on from, is never made without a word of the designer: it is asked.
//
// The server says that it is alive each 15 seconds. A connection on which nothing comes for longer is given up.
import {behind, created, known, read, write} from './fig.js';
import {difference, gone, redo, renamed} from './drawing.js';
import {sameLook} from './figure.js';
import {heard, namesOfObjects} from './messages.js';
import {faultsOf, goneWords, limitLeft, needed} from './notices.js';

const SOON = 250, LATE = 4000, AGAIN = 2000;  // milliseconds

export class Live extends EventTarget {
    state = 'calling';    // or: offline, empty, saved, sending, refused, watching, asked
    patience = 40000;     // milliseconds without a message, after which a connection counts as dead
    joined = false;       // the server knows this page
    opened = false;       // there was a connection since the page was loaded
    failed = false;       // a connection ended, or could not be made
    draws = true;         // this page is the one of its site that draws
    asked = null;         // changes that wait for a word of the designer
    site = null;
    designers = [];
    names = new Map();    // of objects
    status = '';
    faults = new Map();   // of a refused drawing: what is wrong with which figure
    words = '';           // why the server refused
    hindrance = '';       // why the server could not save yet
    needs = 0;            // how many operations the refused changes need, as far as the page can see
    reason = '';          // why it ended the connection
    fileFaults = [];      // what is wrong with files of the drawing, and who can't draw
    notice = '';          // what became of changes, until the next gesture
    last = 0;             // the last operation of the site that this page knows of
    busy = false;         // a gesture is under way
    #base = null;
    #acked = [];          // the figures that were answered last
    #made = '';           // the operations of which the base does not know that they were made here
    #sent = null;         // the request that is not answered yet
    #wanted = null;       // an object that is to be shown or hidden next
    #unsent = false;      // there were gestures since
    #refused = false;     // what is unsent was refused
    #shown = 0;           // the last operation of the site that is on the screen
    #stale = false;       // the site has operations that no text has shown here
    #turn = null;
    #number = 0;
    #newest = null;
    #socket = null;
    #address = null;      // of the number under which this designer goes on
    #holds = [];
    #silent = null;
    #kept = [];           // what the browser's store has

    constructor(drawing, store) {
        super();
        Object.assign(this, {drawing, store});
        drawing.mayChange = () => this.mayDraw || this.busy;
        drawing.addEventListener('gesture', () => {
            this.#unsent = true;
            this.#refused = false;
            this.faults.clear();
            this.notice = '';
            this.#step();
        });
        store.onlost = () => this.#step();
        drawing.addEventListener('gone', ({detail}) => this.#note(goneWords(detail)));
    }

    async begin() {
        const record = await this.store.find();
        if (record) this.#recall(record);
        addEventListener('offline', () => this.#hangUp());
        this.#call();
    }

    // Whether gestures are taken now, be it to wait.
    get mayDraw() {
        return Boolean(this.#base) && this.draws && !this.asked && !this.#stale && !this.#sent?.show && !this.#wanted
            && !this.#address;
    }

    // ---- The designer's words

    // Begins a gesture, if one may begin. It is taken then, whatever is told before it ends.
    start() {
        this.busy = this.mayDraw;
        return this.busy;
    }

    // A gesture ends, and with it what waited for that.
    rest() {
        this.busy = false;
        this.#step();
    }

    takeOver() {
        this.#say({draw: true});
    }

    // Makes the gestures that waited on the newest drawing.
    makeAnew() {
        if (!this.asked) return;
        this.asked.anew = true;
        if (!this.draws) this.takeOver();
        this.#step();
    }

    drop() {
        this.asked = null;
        this.#step();
    }

    // Gives up the changes that are refused.
    giveUp() {
        if (!this.#refused) return;
        this.#unsent = this.#refused = false;
        this.faults.clear();
        this.drawing.leave(this.#acked);
        this.#step();
    }

    sendAgain() {
        this.#refused = false;
        this.#step();
    }

    // Asks for another number for this designer, as this one's operations run out.
    goOn() {
        this.#say({another: true});
    }

    // Shows an object of which nothing is seen, or leaves it deleted.
    show(object, to) {
        if (this.mayDraw && this.joined) this.#wanted = {show: object, to};
        this.#step();
    }

    // What is selected here, for the others.
    hold(objects) {
        this.#holds = objects;
        this.#say({holds: objects});
    }

    // The figures as they would be if the gestures that wait were made now.
    waiting() {
        return this.asked ? redo(this.drawing.figures, this.asked.changes, this.drawing.find) : [];
    }

    // How many of these gestures can't be made, as their figures are gone.
    get gone() {
        return this.asked ? gone(this.drawing.figures, this.asked.changes, this.drawing.find).length : 0;
    }

    // ---- The connection

    #call(wait = SOON) {
        const socket = this.#socket = new WebSocket(new URL('live', location.href.replace(/^http/, 'ws')));
        this.#listen();
        socket.onmessage = ({data}) => {
            if (socket !== this.#socket) return;
            this.#listen();
            this.#hear(heard(data));
        };
        socket.onopen = () => {
            wait = SOON;
            this.opened = true;
            this.#say({page: this.store.page, turn: this.#turn, draws: this.draws});
        };
        socket.onclose = ({reason}) => {
            if (socket !== this.#socket) return;
            clearTimeout(this.#silent);
            this.#socket = null;
            this.joined = false;
            this.failed = true;
            this.reason = reason;
            this.#step();
            setTimeout(() => this.#call(Math.min(2 * wait, LATE)), wait);
        };
    }

    // Waits for the next message, so long.
    #listen() {
        clearTimeout(this.#silent);
        this.#silent = setTimeout(() => this.#hangUp(), this.patience);
    }

    // Gives up a connection that may be dead, without waiting for its end, and calls again.
    #hangUp() {
        const socket = this.#socket;
        socket?.onclose({reason: ''});
        socket?.close();
    }

    // Says something to the server now, if it is there.
    #say(what) {
        if (this.#socket?.readyState === WebSocket.OPEN) this.#socket.send(JSON.stringify(what));
    }

    #hear(said) {
        if (said.you) this.site = said.you;
        this.#hearNames(said);
        if (said.drawing !== undefined) {
            this.status = said.status ?? '';
            this.#newest = read(said.drawing);
        }
        if (said.drawing !== undefined || said.fault) this.fileFaults = faultsOf(said.fault ?? '', this.designers);
        if (said.draws !== undefined) this.#turns(said);
        if (said.address) this.#address = said.address;
        if (said.address === null) this.#note('No number is free, or the server could not write its files.');
        if (!said.request || said.request === this.#sent?.request) this.#hearAnswer(said);
        this.#step();
    }

    #hearNames({designers, names}) {
        const others = designers?.some(({site, name}) => this.designer(site).name !== name);
        this.designers = designers ?? this.designers;
        this.names = names ? namesOfObjects(names) : this.names;
        if (others || names) this.dispatchEvent(new Event('named'));
    }

    #hearAnswer(said) {
        if (said.taken !== undefined) this.#answered(said);
        if (said.refused) this.#refuse(said.refused);
        if (said.behind !== undefined) this.#behind(said.behind);
        if (said.watching) this.#lose();
        this.hindrance = said.again ?? (said.request ? '' : this.hindrance);
        if (said.again) setTimeout(() => this.#post(), AGAIN);
    }

    // It is told who draws: when this page comes, and when another one takes over.
    #turns({draws, turn, last}) {
        const comes = !this.joined;
        this.joined = true;
        this.draws = draws;
        this.#turn = turn;
        if (!this.#sent && last > this.last) this.#behind(last);
        if (!this.#sent && last < this.last) this.#miss(last);
        if (!comes) return;
        this.#say({holds: this.#holds});
        if (this.#sent) this.#post();
    }

    // ---- What comes next

    #step() {
        if (this.store.lost) this.#forget();
        if (!this.#sent && !this.busy && this.#unsent && this.joined && (!this.draws || this.#stale)) this.#ask();
        if (!this.#sent && !this.#unsent) this.#adopt();
        if (this.asked?.anew && this.joined && this.draws && !this.#stale) this.#anew();
        if (this.#address && this.joined && !this.#sent && !this.busy) return this.#leave();
        if (!this.#sent && this.joined && this.draws && !this.#stale) this.#send();
        this.#keep();
        this.#tell();
    }

    designer(site) {
        const name = this.designers.find(one => one.site == site)?.name ?? `site ${site}`;
        return {site: Number(site), name, colour: `var(--site-${site})`};
    }

    // Tells the designer something that no state says.
    #note(words) {
        this.notice = words;
        this.#tell();
    }

    #tell() {
        this.state = !this.joined ? (this.failed ? 'offline' : 'calling')
            : !this.#base ? 'empty'
            : this.asked ? 'asked'
            : !this.draws ? 'watching'
            : this.#refused ? 'refused'
            : this.#sent || this.#unsent || this.#wanted || this.#stale ? 'sending' : 'saved';
        this.dispatchEvent(new Event('told'));
    }

    // Sends what waits: all gestures together, and behind them what is to be shown.
    #send() {
        if (this.#unsent && !this.#refused) {
            this.#sent = {request: `${this.store.page}.${++this.#number}`, after: this.last, figures: this.drawing.figures};
            this.#unsent = false;
        } else if (this.#wanted && !this.#unsent) {
            this.#sent = {request: `${this.store.page}.${++this.#number}`, after: this.last, ...this.#wanted};
            this.#wanted = null;
        } else return;
        this.#post();
    }

    #post() {
        if (!this.#sent || !this.joined) return;
        const {request, after, figures, show, to} = this.#sent;
        this.#say(show ? {show, to, request, after} : {take: this.#written(figures).text, request, after});
    }

    #written(figures) {
        return write(behind(this.#acked, figures), this.#base.knows);
    }

    // Shows the newest text, unless a gesture is under way, or it is older than what is shown.
    #adopt() {
        const newest = this.#newest, first = !this.#base;
        if (!newest || this.busy || known(newest, this.site) < this.#shown) return;
        const news = this.drawing.adopt(newest.figures);
        this.#newest = null;
        this.#acked = this.drawing.figures;
        this.#base = {...newest, figures: this.#acked};
        this.#shown = known(newest, this.site);
        this.last = Math.max(this.last, this.#shown);
        this.#stale = this.#shown < this.last;  // as long as operations of the site wait for others
        this.#made = '';
        if (!first && news) this.dispatchEvent(new CustomEvent('news', {detail: news}));
    }

    // ---- Answers

    #answered({taken, made}) {
        if (!this.#sent) return;
        const {figures, show} = this.#sent;
        this.#sent = null;
        this.last = taken;
        this.words = '';
        if (show) this.#stale = made !== '';
        if (!figures) return;
        this.#shown = taken;
        this.#acked = figures;
        this.#made += made;
        this.#name();
    }

    // Finds which object each figure became that was drawn here. An answered text shows all of these as they are, and a
    // take may give an object to another figure than the one before it did, so all are found anew.
    #name() {
        const {names} = this.drawing, left = this.#acked.filter(({object}) => !object);
        names.clear();
        for (const one of created(this.#made)) {
            const place = left.findIndex(figure => sameLook(figure, one));
            if (place >= 0) names.set(left.splice(place, 1)[0].key, one.object);
        }
    }

    // The site has operations that this page did not know: nothing is sent before they are shown.
    #behind(last) {
        this.#unsent ||= Boolean(this.#sent?.figures);
        this.#sent = null;
        this.last = last;
        this.#stale = !this.#base || known(this.#base, this.site) < last;
    }

    // The server knows fewer operations of the site than it told: what it has is shown, and nothing is sent before.
    #miss(last) {
        this.#note(`The server lost your operations from ${this.site}.${last + 1} on: draw again what is missing.`);
        this.last = this.#shown = last;
        this.#stale = true;
    }

    // Another page of the site draws.
    #lose() {
        this.draws = false;
        this.#unsent ||= Boolean(this.#sent?.figures);
        this.#sent = null;
    }

    // The words of figgroup, each at the figure of which they tell.
    #refuse(words) {
        this.words = words;
        if (!this.#sent) return;
        const {figures} = this.#sent;
        this.#sent = null;
        if (!figures) return this.#note(words.includes('Exhausted') ? limitLeft(this.last) : words);
        this.needs = needed(difference(this.#acked, figures));
        const {begins} = this.#written(figures);
        for (const line of words.split('\n')) {
            const [, number, text] = line.match(/^drawing line (\d+): (?:figure object \d+: )?(.*)/) ?? [];
            const begun = [...begins].filter(([begin]) => begin <= number);
            if (begun.length) this.faults.set(begun.at(-1)[1], text);
        }
        this.#refused = !this.#unsent;  // until it is mended
        this.#unsent = true;
    }

    // ---- What waits

    // The gestures that were not answered wait for a word of the designer; shown is what was, and then the newest drawing.
    #ask() {
        const changes = difference(this.#acked, this.drawing.figures);
        this.#unsent = this.#refused = false;
        this.faults.clear();
        this.drawing.leave(this.#acked);
        if (changes.length) this.asked = {changes, anew: false};
    }

    #anew() {
        const {changes} = this.asked;
        this.asked = null;
        this.drawing.again(changes);
    }

    #keep() {
        const sent = this.#sent?.figures ? this.#sent : null;
        if (!sent && !this.#unsent && !this.asked) {
            this.#kept = [];
            return this.store.forget();
        }
        const {figures} = this.drawing, shown = this.#base.figures;
        const now = [sent, this.#unsent, this.asked, figures, this.#base];
        if (now.every((part, i) => part === this.#kept[i])) return;
        this.#kept = now;
        this.store.keep({
            base: this.#base.text, acked: this.#acked === shown ? null : this.#acked, made: this.#made, last: this.last,
            sent: sent && {...sent, figures: sent.figures === figures ? null : sent.figures}, now: figures,
            unsent: this.#unsent, asked: this.asked && renamed(this.asked.changes, this.drawing.find), status: this.status,
        });
    }

    // Goes on under another number, with the changes that wait. A page of that number makes them on the newest drawing.
    #leave() {
        const changes = this.asked?.changes ?? difference(this.#acked, this.drawing.figures), address = this.#address;
        this.#address = null;
        const acked = this.#acked === this.#base?.figures ? null : this.#acked;
        if (changes.length && !this.store.hand(address, {
            base: this.#base.text, acked, made: this.#made, last: 0, sent: null, now: this.#acked, unsent: false,
            asked: renamed(changes, this.drawing.find), anew: true, status: this.status,
        })) return this.#note('The browser has no room for the changes that wait: drop or undo them first.');
        this.asked = null;
        this.#unsent = this.#refused = false;
        this.draws = false;
        this.store.forget();
        location.assign(address);
    }

    // Goes on with what a closed page left. Gestures that wait are made on a drawing that comes, and on no older one.
    #recall({base, last, sent, acked, made, now, unsent, asked, anew, status}) {
        this.#base = read(base);
        this.last = this.#shown = last;
        this.status = status;
        this.#acked = acked ?? this.#base.figures;
        this.#sent = sent && {...sent, figures: sent.figures ?? now};
        this.#unsent = unsent;
        this.asked = asked ? {changes: asked, anew: Boolean(anew)} : null;
        this.#stale = Boolean(asked);
        this.#made = made;
        this.#name();
        this.drawing.leave(now);
    }

    // Another window goes on with what waited here.
    #forget() {
        this.store.forget();
        this.#sent = this.asked = null;
        this.#unsent = this.#refused = false;
        this.drawing.leave(this.#acked);
        this.#note('Another window goes on with the changes that waited here.');
    }
}
