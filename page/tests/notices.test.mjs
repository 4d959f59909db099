// What the page says, and what it hears, without a browser.
import assert from 'node:assert/strict';
import {test} from 'node:test';
import {difference, gone, redo, renamed} from '../web/drawing.js';
import {fresh, moved} from '../web/figure.js';
import {heard, namesOfObjects} from '../web/messages.js';
import {askedWords, faultsOf, freeSite, goneWords, left, limitLeft, limitNext, limitWords, needed, stateWords} from '../web/notices.js';

const box = (key, x = 0, object = key) => ({...fresh('box', [x, 0, 10, 10], '#ffffff'), key, object, at: 50});
const colour = figure => ({...figure, colour: '#000000'});
let seed = 4711;
const chance = most => (seed = seed * 48271 % 2147483647) % most;

test('a message that is not known is left out', () => {
    for (const data of ['', 'x', 'null', '5', '"you"', '[]', '[1]', '{}', '{"alive":15}', '{"__proto__":{"you":1}}', '[[[[', '{"you":9}',
        '{"you":"1"}', '{"drawing":5}', '{"designers":[{}]}', '{"designers":5}', '{"names":null}', '{"names":{"a":"1.1"}}',
        '{"names":{"a":[1]}}', '{"taken":-1}', '{"taken":1.5}', '{"address":"https://elsewhere/"}', '{"address":"//elsewhere/"}',
        '{"constructor":1,"toString":2}'])
        assert.deepEqual(heard(data), {}, data);
    assert.deepEqual(heard('{"alive":15,"you":2,"more":[1]}'), {you: 2});
    assert.deepEqual(heard('{"address":null}'), {address: null});
    assert.deepEqual(heard('{"address":"/a-Z_9/"}'), {address: '/a-Z_9/'});
    const designers = [{site: 1, name: 'Ann', pages: 1, holds: ['1.1']}];
    assert.deepEqual(heard(JSON.stringify({designers})), {designers});
});

test('no message is an exception', () => {
    const parts = ['you', 'draws', 'turn', 'last', 'request', 'taken', 'made', 'refused', 'drawing', 'designers', 'names', 'address', 'x'];
    const values = [null, 0, -1, 1e999, '', 'a', true, [], [null], [[]], {}, {a: null}, {a: [1]}, [{site: 1}], [{site: 1, name: 'A', pages: 0}]];
    for (let i = 0; i < 3000; i++) {
        const said = Object.fromEntries([0, 1, 2].map(() => [parts[chance(parts.length)], values[chance(values.length)]]));
        heard(JSON.stringify(said));
        heard(JSON.stringify(said).slice(0, chance(30)));
    }
});

test('of several names of an object the first one counts', () =>
    assert.deepEqual([...namesOfObjects({sofa: ['2.1', '2.2'], car: ['2.1', '1.4']})], [['2.1', 'sofa'], ['2.2', 'sofa'], ['1.4', 'car']]));

test('the state', () => {
    const own = [{words: 'site-1.jsonl: lines changed', site: 1}];
    for (const [expected, told] of [
        ['Connecting …', {state: 'calling'}],
        ['No connection: what you draw is kept here', {state: 'offline'}],
        ['No connection', {state: 'offline', opened: false}],
        ['No connection: 64 pages are open', {state: 'offline', reason: '64 pages are open'}],
        ['Not saved yet: the disk failed: No space left on device', {state: 'sending', hindrance: 'the disk failed: No space left on device'}],
        ['Saved', {state: 'saved'}],
        ['Not taken', {state: 'refused'}],
        ['Not taken: mend what is marked', {state: 'refused', marked: true}],
        ["You can't draw: see the message", {state: 'saved', faults: own, own: 1}],
        ['Saved; see the message', {state: 'saved', faults: own, own: 2}],
        ['No drawing: see the message', {state: 'empty', faults: own, own: 2}],
        ['Saving …', {state: 'sending', faults: own, own: 2}],
        ["You can't draw: see the message", {state: 'sending', faults: own, own: 1}],
        ['No room to keep it here: leave this page open', {state: 'offline', full: true}],
    ]) assert.equal(stateWords(told), expected);
});

test('faults of files', () => {
    const first = 'site-1.jsonl: lines changed; yours are kept in drawing.kept-1: fetch site-1.jsonl', second = 'site-3.jsonl line 5: Field';
    const third = "Ben can't draw: operation 2.3 waits for 3.1, which is not in site-3.jsonl. Fetch that file";
    const designers = [{site: 1, name: 'Ann'}, {site: 2, name: 'Ben'}];
    assert.deepEqual(faultsOf(`${first}; ${second}; ${third}`, designers),
        [{words: first, site: 1}, {words: second, site: 3}, {words: third, site: 2}]);
    assert.deepEqual(faultsOf('line 5: Field', designers), [{words: 'line 5: Field', site: null}]);
    assert.deepEqual(faultsOf(third, []), [{words: third, site: null}]);
    assert.deepEqual(faultsOf('', designers), []);
});

test('how many operations changes need', () => {
    const row = Array.from({length: 20}, (_, i) => box(`1.${i + 1}`, 20 * i)), [one, two] = row;
    const wider = {...one, shape: [5, 0, 30, 10]}, higher = {...one, at: -3}, polygon = {...one, kind: 'polygon', shape: [0, 0, 9, 0, 0, 9]};
    for (const [expected, before, after] of [
        [0, row, row], [20, row, row.map(figure => moved(figure, 5, 0))], [20, row, row.map(colour)], [1, [one], [one, two]], [1, [one, two], [one]],
        [2, [one], [moved(colour(one), 5, 0)]], [2, [one], [wider]], [1, [one], [{...one, shape: [0, 0, 30, 10]}]], [1, [one], [higher]],
        [1, [polygon], [moved(polygon, 3, 3)]], [1, [polygon], [{...polygon, shape: [0, 0, 9, 0, 5, 9]}]],
    ]) assert.equal(needed(difference(before, after)), expected);
});

test('words at the limit', () => {
    assert.equal(left(9375), 625);
    assert.equal(left(10001), 0);
    assert.equal(limitLeft(9999), '1 of your 10,000 operations is left.');
    assert.equal(limitLeft(9000), '1,000 of your 10,000 operations are left.');
    assert.equal(limitWords(1000, 9375), 'This needs about 1,000 operations, and 625 are left.');
    assert.equal(limitWords(3, 9999), 'This needs about 3 operations, and 1 is left.');
    assert.equal(limitWords(5, 9990), 'This needs more than the 10 operations left.');
    assert.equal(limitWords(5, 10000), 'Your 10,000 operations are used up.');
    assert.equal(limitNext(9990, 3), 'Undo it and make smaller changes, or go on under another number.');
    assert.equal(limitNext(9990, null), 'Undo it and make smaller changes, or begin a new drawing: draw anew FOLDER.');
    assert.equal(limitNext(10000, 3), 'Go on under another number.');
    assert.equal(freeSite([1, 2, 4].map(site => ({site}))), 3);
    assert.equal(freeSite([1, 2, 3, 4, 5, 6, 7, 8].map(site => ({site}))), null);
});

test('changes that wait', () => {
    assert.equal(askedWords(1, 0), '1 change waits here, outlined: meanwhile your site drew elsewhere.');
    assert.equal(goneWords(2), "2 changes can't be made: their objects were deleted meanwhile.");
    assert.equal(goneWords(0), '');
});

test('what waits is made by its new keys, or counted as gone', () => {
    for (let round = 0; round < 500; round++) {
        const before = Array.from({length: 1 + chance(6)}, (_, i) => box(`new-${i}`, 20 * i, null));
        const after = before.filter(() => chance(5)).map(figure => chance(2) ? moved(figure, 0, 1 + chance(50)) : colour(figure));
        const names = new Map(before.map(({key}, i) => [key, `1.${i + 1}`])), find = key => names.get(key) ?? key;
        const there = before.filter(() => chance(6)).map(figure => ({...figure, key: find(figure.key), object: find(figure.key)}));
        const changes = renamed(difference(before, after), find), made = redo(there, changes);
        const keys = new Set(there.map(({key}) => key));
        const wanted = changes.filter(({was, is}) => was && is);
        assert.equal(gone(there, changes).length, wanted.filter(({key}) => !keys.has(key)).length);
        for (const {key, is} of wanted.filter(({key}) => keys.has(key))) {
            const {shape, colour} = made.find(figure => figure.key === key);
            assert.deepEqual({shape, colour}, {shape: is.figure.shape, colour: is.figure.colour});
        }
        for (const {key, is} of changes) if (!is) assert(!made.some(figure => figure.key === key));
    }
});
