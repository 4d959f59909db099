// What the page says of its state, in words.
import {sameShape} from './figure.js';

const LIMIT = 10000;  // operations of a site
const SITES = [1, 2, 3, 4, 5, 6, 7, 8];
const STATES = {
    calling: 'Connecting …', offline: 'No connection: what you draw is kept here', empty: 'No drawing yet',
    sending: 'Saving …', saved: 'Saved', watching: 'Watching', refused: 'Not taken', asked: 'Gestures wait for your word',
};

export const PROXY = 'No connection to the server of this page. Is there a proxy in between? It must pass on web sockets.';

// A number as it is printed, for example 10,000.
export const printed = number => String(number).replace(/\B(?=(\d{3})+$)/g, ',');

export const plural = (count, one, many = `${one}s`) => `${printed(count)} ${count === 1 ? one : many}`;

// The state, in one line. `faults` are those of files, `own` is the site of the page.
export function stateWords({state, reason, hindrance, opened = true, full, marked, faults = [], own}) {
    if (full) return 'No room to keep it here: leave this page open';
    if (state === 'offline' && !opened) return 'No connection';
    if (state === 'offline' && reason) return `No connection: ${reason}`;
    if (state === 'sending' && hindrance) return `Not saved yet: ${hindrance}`;
    if (state === 'refused' && marked) return 'Not taken: mend what is marked';
    if (['saved', 'sending', 'empty'].includes(state) && faults.some(({site}) => site === own)) return "You can't draw: see the message";
    if (faults.length && state === 'saved') return 'Saved; see the message';
    if (faults.length && state === 'empty') return 'No drawing: see the message';
    return STATES[state];
}

// The faults that the server tells in one text, each with the site that can't draw, if it is known: of a file its site,
// else the one of the designer who is named.
export function faultsOf(text, designers) {
    return text.split(/; (?=site-[1-8]\.jsonl|[^;]{1,40} can't draw: )/).filter(Boolean).map(words => {
        const [, file] = words.match(/^site-([1-8])\.jsonl/) ?? [], [, who] = words.match(/^(.*?) can't draw: /) ?? [];
        return {words, site: file ? Number(file) : designers.find(({name}) => name === who)?.site ?? null};
    });
}

// ---- The limit of operations

export const left = last => Math.max(0, LIMIT - last);

// How many operations changes take, at least as far as a page can see: figgroup may need others to keep the order.
export function needed(changes) {
    const one = ({was, is}) => was && is ? Math.max(1, attributes(was.figure, is.figure)) : 1;
    return changes.map(one).reduce((a, b) => a + b, 0);
}

function attributes(was, is) {
    const place = !sameShape(was, is) && corner(was) !== corner(is);
    const size = !sameShape(was, is) && extent(was) !== extent(is);
    return place + size + (was.colour !== is.colour) + (was.at !== is.at);
}

// A place, and what a move leaves as it is.
const corner = ({shape}) => String(shape.slice(0, 2));
const extent = ({kind, shape}) =>
    String(kind === 'polygon' ? shape.map((value, i) => value - shape[i % 2]) : shape.slice(2));

const verb = count => count === 1 ? 'is' : 'are';

export const limitLeft = last => left(last)
    ? `${printed(left(last))} of your 10,000 operations ${verb(left(last))} left.` : 'Your 10,000 operations are used up.';

// Why a change is refused at the limit.
export function limitWords(needs, last) {
    const rest = left(last);
    if (!rest) return limitLeft(last);
    return needs > rest ? `This needs about ${plural(needs, 'operation')}, and ${printed(rest)} ${verb(rest)} left.`
        : `This needs more than the ${plural(rest, 'operation')} left.`;
}

// What to do then.
export function limitNext(last, free) {
    const smaller = left(last) ? ['undo it and make smaller changes'] : [];
    const steps = [...smaller, free ? 'go on under another number' : 'begin a new drawing: draw anew FOLDER'].join(', or ');
    return `${steps[0].toUpperCase()}${steps.slice(1)}.`;
}

// The number under which a designer can go on, or null if all are taken.
export const freeSite = designers => SITES.find(site => !designers.some(one => one.site === site)) ?? null;

// ---- Changes that wait

export const MORE = 'Another window of yours was closed before its changes were saved.';

// Why they are asked.
export const askedWords = (count, gone) =>
    `${plural(count, 'change waits', 'changes wait')} here, outlined: meanwhile your site drew elsewhere. ${goneWords(gone)}`.trim();

// Why some can't be made.
export const goneWords = count => count ? `${plural(count, 'change')} can't be made: ${
    count === 1 ? 'its object was' : 'their objects were'} deleted meanwhile.` : '';
