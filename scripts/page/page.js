'use strict';
(() => {
const find = id => document.getElementById(id);

// ---- The data: the lines of the audit, and of each event of the run.

function read(text) {
    const run = { edition: 1, sites: [], home: new Map(), accepted: false, report: [], stops: [], events: [] };
    const cycles = new Map();
    for (const line of text.split('\n')) {
        const words = line.split(' ');
        const last = run.events[run.events.length - 1];
        const numbers = words.slice(1).map(Number);
        switch (words[0]) {
            case 'edition': run.edition = numbers[0]; break;
            case 'site':
                run.sites.push({ site: numbers[0], members: numbers.slice(1) });
                for (const p of numbers.slice(1)) run.home.set(p, numbers[0]);
                break;
            case 'accepted': run.accepted = true; break;
            case 'stop': run.stops.push({ site: numbers[0], at: numbers[2], why: '' }); break;
            case 'why': run.stops.find(stop => stop.site === numbers[0]).why = words.slice(4).join(' '); break;
            case 'declared': cycles.set(numbers[0], numbers.slice(2)); break;
            case 'cut': case 'in': case 'drained': run.report.push(line); break;
            case 'begins': last.begins.push(numbers); break;
            case 'ends': last.ends.push(numbers); break;
            case 'probe': last.fate = words.slice(1).join(' '); break;
            default: if (/^\d/.test(line)) run.events.push(entry(line, words));
        }
    }
    run.cycles = cycles;
    if (!run.accepted) run.events = inOrder(run.events);
    run.frames = matched(run.events);
    return run;
}

function entry(line, words) {
    let i = 3;
    const numbers = () => {
        const all = [];
        while (/^\d/.test(words[i])) all.push(Number(words[i++]));
        return all;
    };
    const e = { line, site: Number(words[0]), number: Number(words[1]), kind: words[2], n: [], from: 0, sent: [], declared: 0, begins: [], ends: [], fate: '' };
    if (e.kind === 'got') e.kind += ' ' + words[i++];
    e.n = numbers();
    if (words[i] === 'from') e.from = Number(words[i + 1]), i += 2;
    while (words[i] === 'sent') {
        const kind = words[i + 1];
        i += 2;
        const n = numbers();
        e.sent.push({ kind, n, from: e.site, to: Number(words[i + 1]), sent: 0, got: Infinity });
        i += 2;
    }
    if (words[i] === 'declared') e.declared = Number(words[i + 1]);
    return e;
}

// The entries before the stops of refused journals stand site by site. In this order each frame is got after it was sent.
function inOrder(events) {
    const sites = new Map();
    for (const e of events) {
        if (!sites.has(e.site)) sites.set(e.site, { entries: [], next: 0 });
        sites.get(e.site).entries.push(e);
    }
    const links = new Map();
    const add = (from, to, count) => links.set(from + ' ' + to, (links.get(from + ' ' + to) || 0) + count);
    const ordered = [];
    for (let before = -1; before < ordered.length;) {
        before = ordered.length;
        for (const site of sites.values()) {
            while (site.next < site.entries.length) {
                const e = site.entries[site.next];
                if (e.from && !links.get(e.from + ' ' + e.site)) break;
                if (e.from) add(e.from, e.site, -1);
                for (const frame of e.sent) add(e.site, frame.to, 1);
                ordered.push(e);
                site.next++;
            }
        }
    }
    return ordered;
}

// Gives each frame the moments at which it was sent and got. A link keeps its order.
function matched(events) {
    const frames = [];
    const links = new Map();
    events.forEach((e, i) => {
        e.moment = i + 1;
        if (e.from) {
            const link = links.get(e.from + ' ' + e.site);
            e.frame = link.frames[link.next++];
            e.frame.got = i + 1;
        }
        for (const frame of e.sent) {
            frame.sent = i + 1;
            frame.id = frames.push(frame) - 1;
            const name = frame.from + ' ' + frame.to;
            if (!links.has(name)) links.set(name, { frames: [], next: 0 });
            links.get(name).frames.push(frame);
        }
    });
    return frames;
}

// ---- The state after so many events: who waits for whom, what each controller knows, and which frames are under way.

const KEPT = 100;

function blank(run) {
    const sites = new Map();
    for (const { site } of run.sites) sites.set(site, { waits: new Set(), owed: new Set(), dependents: new Set(), declared: [] });
    return { waits: new Set(), way: new Set(), declared: [], sites, own: new Set() };
}

// A copy shares what it has of a site until the site's next event.
function copied(state) {
    return { waits: new Set(state.waits), way: new Set(state.way), declared: state.declared.slice(), sites: new Map(state.sites), own: new Set() };
}

function owned(state, site) {
    const has = state.sites.get(site);
    if (state.own.has(site)) return has;
    const own = { waits: new Set(has.waits), owed: new Set(has.owed), dependents: new Set(has.dependents), declared: has.declared.slice() };
    state.sites.set(site, own);
    state.own.add(site);
    return own;
}

const pair = (a, b) => a + ' ' + b;

const firsts = (pairs, p) => [...pairs].filter(x => x.startsWith(p + ' '));

function step(run, state, e) {
    const mine = owned(state, e.site);
    const [a, b, c] = e.n;
    const isHere = p => run.home.get(p) === e.site;
    const ended = (asker, holder) => {
        mine.waits.delete(pair(asker, holder));
        if (firsts(mine.waits, asker).length === 0) firsts(mine.dependents, asker).forEach(x => mine.dependents.delete(x));
    };
    if (e.kind === 'ask') {
        for (const k of e.n.slice(1)) {
            mine.waits.add(pair(a, k));
            if (isHere(k)) mine.owed.add(pair(k, a));
        }
    } else if (e.kind === 'reply') {
        mine.owed.delete(pair(a, b));
        if (isHere(b)) ended(b, a);
    } else if (e.kind === 'got request') {
        mine.owed.add(pair(b, a));
    } else if (e.kind === 'got reply') {
        ended(b, a);
    } else if (e.fate === 'acts') {
        mine.dependents.add(pair(c, a));
    }
    if (e.declared) {
        mine.declared.push(e.declared);
        state.declared.push(e.declared);
    }
    if (e.frame) state.way.delete(e.frame.id);
    for (const frame of e.sent) state.way.add(frame.id);
    for (const [j, k] of e.begins) state.waits.add(pair(j, k));
    for (const [j, k] of e.ends) state.waits.delete(pair(j, k));
}

function history(run) {
    const kept = [];
    const state = blank(run);
    run.events.forEach((e, i) => {
        if (i % KEPT === 0) {
            kept.push(copied(state));
            state.own = new Set();
        }
        step(run, state, e);
    });
    if (kept.length === 0) kept.push(state);
    return moment => {
        const from = Math.min(Math.floor(moment / KEPT), kept.length - 1);
        const state = copied(kept[from]);
        for (let i = from * KEPT; i < moment; i++) step(run, state, run.events[i]);
        return state;
    };
}

// A shortest cycle of waits through a process; of several the least.
function cycle(waits, process) {
    const next = new Map();
    for (const wait of waits) {
        const [j, k] = wait.split(' ').map(Number);
        if (!next.has(j)) next.set(j, []);
        next.get(j).push(k);
    }
    for (const ks of next.values()) ks.sort((x, y) => x - y);
    const came = new Map();
    const queue = [process];
    for (const j of queue) {
        for (const k of next.get(j) || []) {
            if (k === process) {
                const path = [process];
                for (let at = j; at !== process; at = came.get(at)) path.unshift(at);
                return [process, ...path];
            }
            if (!came.has(k)) came.set(k, j), queue.push(k);
        }
    }
    return [];
}

function cycles(run, state) {
    return state.declared.slice(0, 64).map(process => {
        const told = run.cycles.get(process) || [];
        const stands = told.length > 1 && told.slice(1).every((k, i) => state.waits.has(pair(told[i], k)));
        return { process, members: stands ? told : cycle(state.waits, process) };
    });
}

// ---- Words.

const listed = ps => ps.length < 2 ? ps.join('') : ps.slice(0, -1).join(', ') + ' and ' + ps[ps.length - 1];

const frameText = f => f.kind + ' ' + f.n.join(' ');

function sentText(frames, none) {
    return frames.length === 0 ? none : 'Sent: ' + listed(frames.map(f => frameText(f) + ' to site ' + f.to)) + '.';
}

// What an event did, each sentence with its rule; before and after are the states.
function wordsOf(run, e, before, after) {
    const [a, b, c] = e.n;
    const was = before.sites.get(e.site);
    const now = after.sites.get(e.site);
    const requests = e.sent.filter(f => f.kind === 'request');
    const probes = e.sent.filter(f => f.kind === 'probe');
    const goesOn = j => {
        const left = firsts(now.waits, j).map(x => x.split(' ')[1]);
        const lost = firsts(was.dependents, j).length;
        if (left.length > 0) return ['It still waits for ' + listed(left) + '.'];
        return ['It waits for nobody any more: process ' + j + ' is active.', ...(lost > 0 ? ['A process that becomes active loses its dependents.'] : [])];
    };
    const started = i => e.declared
        ? ['Process ' + i + ' is declared: waits inside site ' + e.site + ' lead from it back to it.']
        : [sentText(probes, 'No wait leaves the site from what ' + i + ' reaches, so no probe goes out.'), ...(probes.length > 0 ? ['A probe goes along each wait that leaves the site from what ' + i + ' reaches inside it.'] : [])];
    switch (e.kind) {
        case 'ask': {
            const ks = e.n.slice(1);
            const here = ks.filter(k => run.home.get(k) === e.site);
            return [
                'Process ' + a + ' asks ' + listed(ks) + (ks.length > 1 ? ' and waits for all of them.' : ' and waits for it.') + ' It may, since it was active.',
                ...(here.length > 0 ? [listed(here) + (here.length > 1 ? ' are' : ' is') + ' at the same site, and owes it a reply at once.'] : []),
                ...(requests.length > 0 ? [sentText(requests, '')] : []),
                ...(run.edition > 1 ? ['In edition ' + run.edition + ' an ask starts a computation for the asker.', ...started(a)] : []),
            ];
        }
        case 'reply':
            return [
                'Process ' + a + ' grants ' + b + ' what it asked for. It may, since it is active and owed ' + b + ' a reply. The wait of ' + b + ' for ' + a + ' ends.',
                ...(e.sent.length > 0 ? [sentText(e.sent, ''), 'Site ' + e.sent[0].to + ' learns it when the reply comes.'] : goesOn(b)),
            ];
        case 'start':
            return ['A computation starts for process ' + a + ', which waits.', ...started(a)];
        case 'got request':
            return ['request ' + a + ' ' + b + ' came from site ' + e.from + '. From now on ' + b + ' owes ' + a + ' a reply.'];
        case 'got reply':
            return ['reply ' + a + ' ' + b + ' came from site ' + e.from + '. For its controller, ' + b + ' no longer waits for ' + a + '.', ...goesOn(b)];
        default: {
            const name = 'probe ' + e.n.join(' ');
            if (e.fate !== 'acts') return [name + ' ignored: ' + ignored(e) + '.'];
            return [
                name + ' acts: ' + c + ' waits and owes ' + b + ' a reply, and it was not yet known that ' + a + ' depends on ' + (a === c ? 'itself' : c) + '. Now it is.',
                ...(e.declared
                    ? ['Process ' + a + ' is declared: ' + (c === a ? 'its probe has come back to it.' : c + ' reaches it by waits inside site ' + e.site + '.')]
                    : [sentText(probes, 'No wait leaves the site from what ' + c + ' reaches, so no probe goes on.')]),
            ];
        }
    }
}

function ignored(e) {
    const [a, b, c] = e.n;
    if (e.fate === 'ignored active') return c + ' is active, it waits for nobody';
    if (e.fate === 'ignored answered') return c + ' no longer owes ' + b;
    if (a === c) return c + ' is already known to depend on itself';
    return a + ' is already known to depend on ' + c;
}

function stopText(stop) {
    return 'Site ' + stop.site + ' stops at its entry ' + stop.at + ': ' + stop.why;
}

// ---- Drawing.

function el(name, attributes, ...children) {
    const node = document.createElementNS('http://www.w3.org/2000/svg', name);
    for (const key in attributes) node.setAttribute(key, attributes[key]);
    node.append(...children);
    return node;
}

function html(name, text, className) {
    const node = document.createElement(name);
    node.textContent = text;
    if (className) node.className = className;
    return node;
}

const octagon = (x, y, r) => {
    const s = r * 0.42;
    return [[-s, -r], [s, -r], [r, -s], [r, s], [s, r], [-s, r], [-r, s], [-r, -s]].map(p => (x + p[0]).toFixed(1) + ',' + (y + p[1]).toFixed(1)).join(' ');
};

// The head of an arrow that ends at a point, coming from another.
function head(from, to, className) {
    const length = Math.hypot(to.x - from.x, to.y - from.y) || 1;
    const [ux, uy] = [(to.x - from.x) / length, (to.y - from.y) / length];
    const size = className.includes('thick') ? 13 : 9;
    const points = [[0, 0], [-size, size * 0.42], [-size, -size * 0.42]].map(([along, aside]) => (to.x + ux * along - uy * aside).toFixed(1) + ',' + (to.y + uy * along + ux * aside).toFixed(1));
    return el('polygon', { points: points.join(' '), class: 'head ' + className });
}

// The point so far before the end of a line.
function short(from, to, by) {
    const length = Math.hypot(to.x - from.x, to.y - from.y) || 1;
    return { x: to.x - (to.x - from.x) / length * by, y: to.y - (to.y - from.y) / length * by };
}

const LEFT = 58;
const COLUMN = 56;

function drawDiagram(run, state, moment, room) {
    const width = Math.max(260, room.width - 2);
    const row = run.sites.length > 8 ? 58 : 84;
    const height = run.sites.length * row + 46;
    const columns = Math.max(2, Math.floor((width - LEFT - 70) / COLUMN));
    const first = Math.max(1, moment - columns + 1);
    const lanes = new Map(run.sites.map((s, i) => [s.site, i * row + 50]));
    const x = i => LEFT + (Math.max(i, first - 0.6) - first + 0.5) * COLUMN;
    const svg = el('svg', { width, height, viewBox: '0 0 ' + width + ' ' + height, role: 'img', 'aria-label': 'The events of each site up to this moment, and the frames between them' });
    for (const [site, y] of lanes) {
        svg.append(el('path', { d: 'M' + LEFT + ' ' + y + 'H' + (width - 4), class: 'lane' }), el('text', { x: 4, y: y + 4, class: 'name' }, 'site ' + site));
    }
    const shown = run.events.slice(first - 1, moment);
    const frames = new Set();
    for (const e of shown) {
        if (e.frame) frames.add(e.frame);
        for (const frame of e.sent) frames.add(frame);
    }
    const way = [...state.way].slice(0, 150).map(id => run.frames[id]);
    for (const frame of frames) if (frame.got <= moment) svg.append(...arrow(frame, x, lanes));
    const places = new Map();
    for (const frame of way) svg.append(...open(frame, x, lanes, moment, places));
    for (const e of shown) svg.append(...mark(e, x(e.moment), lanes.get(e.site), e.moment === moment));
    if (moment === run.events.length) for (const stop of run.stops) svg.append(...cross(stop, x(moment) + COLUMN * 0.9, lanes.get(stop.site)));
    find('diagram').replaceChildren(svg);
    const now = moment > 0 ? lanes.get(run.events[moment - 1].site) : 0;
    if (now < room.top + 40 || now > room.top + room.height - 30) find('diagram').scrollTop = now - room.height / 2;
}

// What the browser has laid out before anything changes.
function measured() {
    const { clientWidth, clientHeight, scrollTop } = find('diagram');
    return { width: clientWidth, height: clientHeight, top: scrollTop };
}

function mark(e, x, y, isNow) {
    const title = el('title', {}, e.line);
    const kind = (e.declared ? 'declared' : e.from ? (e.fate.startsWith('ignored') ? 'ignored' : 'got') : 'act') + (isNow ? ' now' : '');
    const shape = e.declared ? el('polygon', { points: octagon(x, y, 13), class: 'mark ' + kind }) : e.from
        ? el('rect', { x: x - 10, y: y - 10, width: 20, height: 20, class: 'mark ' + kind })
        : el('circle', { cx: x, cy: y, r: 11, class: 'mark ' + kind });
    const words = e.kind.replace('got ', '');
    const numbers = e.n.join(' ');
    const label = numbers.length > 10 ? numbers.slice(0, 9) + '\u2026' : numbers;
    return [el('g', {}, title, shape, el('text', { x, y: y + 4, class: 'mid inside' }, e.number), el('text', { x, y: y - 28, class: 'mid' }, words), el('text', { x, y: y - 17, class: 'mid' }, label))];
}

function arrow(frame, x, lanes) {
    const from = { x: x(frame.sent), y: lanes.get(frame.from) };
    const to = { x: x(frame.got), y: lanes.get(frame.to) };
    const [start, end] = [short(to, from, 13), short(from, to, 15)];
    return [el('path', { d: 'M' + start.x + ' ' + start.y + 'L' + end.x + ' ' + end.y, class: frame.kind }, el('title', {}, frameText(frame))), head(from, end, frame.kind)];
}

// A frame that is under way: its arrow ends at a ring before the line of the site that it goes to.
function open(frame, x, lanes, moment, places) {
    const from = { x: x(frame.sent), y: lanes.get(frame.from) };
    const down = lanes.get(frame.to) > from.y ? 1 : -1;
    const place = places.get(frame.to) || 0;
    places.set(frame.to, place + 1);
    const to = { x: x(moment) + COLUMN * 0.6, y: lanes.get(frame.to) - down * 8 - down * place * 13 };
    const end = short(from, to, 5);
    const start = short(to, from, 13);
    const shapes = [el('path', { d: 'M' + start.x + ' ' + start.y + 'L' + end.x + ' ' + end.y, class: frame.kind }, el('title', {}, frameText(frame))), el('circle', { cx: to.x, cy: to.y, r: 4, class: 'ring' })];
    if (place < 4) shapes.push(el('text', { x: to.x + 7, y: to.y + 4, class: 'say ' + frame.kind }, frameText(frame)));
    return shapes;
}

function cross(stop, x, y) {
    return [el('path', { d: 'M' + (x - 10) + ' ' + (y - 10) + 'l20 20m0 -20l-20 20', class: 'cross' }, el('title', {}, stopText(stop))), el('text', { x, y: y - 16, class: 'mid name' }, 'stop at ' + stop.at)];
}

// The processes on a circle, those of a site side by side. Of a large world those that take part in a wait.
function drawGraph(run, state, found) {
    const taking = new Set(state.declared);
    for (const wait of state.waits) wait.split(' ').forEach(p => taking.add(Number(p)));
    const all = run.sites.flatMap(s => s.members.map(p => ({ p, site: s.site })));
    const nodes = all.length <= 24 ? all : all.filter(node => taking.has(node.p));
    const radius = Math.max(90, nodes.length * 9);
    const size = radius * 2 + 110;
    const middle = size / 2;
    const svg = el('svg', { viewBox: '0 0 ' + size + ' ' + size, role: 'img', 'aria-label': 'Who waits for whom: the list below says the same' });
    const spots = new Map();
    nodes.forEach((node, i) => {
        const angle = (i + 0.5) / nodes.length * 2 * Math.PI - Math.PI / 2;
        spots.set(node.p, { x: middle + radius * Math.cos(angle), y: middle + radius * Math.sin(angle), angle });
    });
    for (const { site } of run.sites) {
        const own = nodes.filter(node => node.site === site).map(node => spots.get(node.p).angle);
        if (own.length > 0) svg.append(...group(site, own, Math.PI / nodes.length, middle, radius));
    }
    const thick = new Set(found.flatMap(({ members }) => members.slice(1).map((k, i) => pair(members[i], k))));
    for (const wait of state.waits) {
        const [j, k] = wait.split(' ').map(Number);
        svg.append(...edge(spots.get(j), spots.get(k), thick.has(wait)));
    }
    for (const { p } of nodes) {
        const { x, y } = spots.get(p);
        const isDeclared = state.declared.includes(p);
        svg.append(isDeclared ? el('polygon', { points: octagon(x, y, 17), class: 'mark declared' }) : el('circle', { cx: x, cy: y, r: 15, class: 'mark' }), el('text', { x, y: y + 4, class: 'mid name inside' }, p));
    }
    find('graph').replaceChildren(svg);
}

function group(site, angles, half, middle, radius) {
    const [from, to] = [angles[0] - half * 0.8, angles[angles.length - 1] + half * 0.8];
    const r = radius + 24;
    const point = (angle, by) => (middle + by * Math.cos(angle)).toFixed(1) + ' ' + (middle + by * Math.sin(angle)).toFixed(1);
    const centre = (from + to) / 2;
    const isLarge = to - from > Math.PI ? 1 : 0;
    return [
        el('path', { d: 'M' + point(from, r) + 'A' + r + ' ' + r + ' 0 ' + isLarge + ' 1 ' + point(to, r), class: 'group' }),
        el('text', { x: middle + (r + 15) * Math.cos(centre), y: middle + (r + 15) * Math.sin(centre) + 4, class: 'mid' }, 'site ' + site),
    ];
}

function edge(from, to, isThick) {
    const [dx, dy] = [to.x - from.x, to.y - from.y];
    const bend = { x: (from.x + to.x) / 2 + dy * 0.16, y: (from.y + to.y) / 2 - dx * 0.16 };
    const start = short(bend, from, 17);
    const tip = short(bend, to, 19);
    const end = short(bend, to, isThick ? 29 : 26);
    return [el('path', { d: 'M' + start.x.toFixed(1) + ' ' + start.y.toFixed(1) + 'Q' + bend.x.toFixed(1) + ' ' + bend.y.toFixed(1) + ' ' + end.x.toFixed(1) + ' ' + end.y.toFixed(1), class: isThick ? 'cycle' : 'wait' }), head(bend, tip, isThick ? 'thick' : '')];
}

// @EXTRA@
// ---- The page.

const run = read(find('run').textContent);
const stateAt = history(run);
const total = run.events.length;
const slider = find('slider');
let moment = 0;
let timer = 0;

const byNumbers = (x, y) => {
    const [a, b] = [x.split(' ').map(Number), y.split(' ').map(Number)];
    return a[0] - b[0] || a[1] - b[1];
};

function tell(before, state, found) {
    if (moment === 0) {
        find('title').textContent = 'Before the first event';
        find('line').textContent = '';
        find('words').replaceChildren(html('p', 'Nobody waits yet, and no controller knows anything.'));
        return;
    }
    const e = run.events[moment - 1];
    find('title').textContent = 'Event ' + moment + ' of ' + total + ': site ' + e.site + ', entry ' + e.number;
    find('line').textContent = e.line;
    const words = wordsOf(run, e, before, state);
    for (const { process, members } of found) if (process === e.declared) words.push('The cycle: ' + members.join(' '));
    if (moment === total) {
        for (const line of run.report) words.push('At the end: ' + line);
        for (const stop of run.stops) words.push(stopText(stop));
    }
    find('words').replaceChildren(...words.map(text => html('p', text)));
}

function fill(list, texts, none) {
    list.replaceChildren(...(texts.length > 0 ? texts : [none]).map(text => html('li', text)));
}

function knownRows(state) {
    const now = moment > 0 ? run.events[moment - 1].site : 0;
    return run.sites.map(({ site }) => {
        const has = state.sites.get(site);
        const row = html('tr', '', site === now ? 'now' : '');
        const name = html('th', site);
        name.scope = 'row';
        const cells = [has.waits, has.owed, has.dependents].map(pairs => html('td', [...pairs].sort(byNumbers).join(', ')));
        row.append(name, ...cells, html('td', has.declared.join(', ')));
        return row;
    });
}

function wayTexts(state) {
    const frames = [...state.way].map(id => run.frames[id]);
    const texts = frames.slice(0, 100).map(f => frameText(f) + ' from site ' + f.from + ' to site ' + f.to);
    if (frames.length > 100) texts.push('and ' + (frames.length - 100) + ' more');
    return texts;
}

function show(to) {
    const room = measured();
    moment = Math.max(0, Math.min(total, to));
    const state = stateAt(moment);
    const found = cycles(run, state);
    tell(moment > 0 ? stateAt(moment - 1) : state, state, found);
    slider.value = moment;
    slider.setAttribute('aria-valuetext', moment + ' of ' + total);
    find('moment').textContent = moment + ' of ' + total;
    find('first').disabled = find('back').disabled = moment === 0;
    find('forth').disabled = find('last').disabled = moment === total;
    fill(find('waits'), [...state.waits].sort(byNumbers).map(wait => wait.replace(' ', ' waits for ')), 'Nobody waits.');
    find('known').replaceChildren(...knownRows(state));
    fill(find('way'), wayTexts(state), 'No frame is under way.');
    drawGraph(run, state, found);
    drawDiagram(run, state, moment, room);
}

function pause() {
    clearInterval(timer);
    timer = 0;
    find('play').textContent = 'Play';
}

function play() {
    if (timer) return pause();
    if (moment === total) show(0);
    find('play').textContent = 'Pause';
    timer = setInterval(() => {
        show(moment + 1);
        if (moment === total) pause();
    }, 1500);
}

const go = to => {
    pause();
    show(to);
};

const KEYS = { ArrowRight: () => go(moment + 1), ArrowLeft: () => go(moment - 1), Home: () => go(0), End: () => go(total), ' ': play };

find('first').onclick = () => go(0);
find('back').onclick = () => go(moment - 1);
find('play').onclick = play;
find('forth').onclick = () => go(moment + 1);
find('last').onclick = () => go(total);
slider.oninput = () => go(Number(slider.value));
document.onkeydown = event => {
    const act = KEYS[event.key];
    const isOwn = event.target === slider && event.key !== ' ' || event.key === ' ' && event.target.tagName === 'BUTTON';
    if (!act || isOwn || event.ctrlKey || event.altKey || event.metaKey) return;
    event.preventDefault();
    act();
};
window.onresize = () => show(moment);
window.onhashchange = () => go(Number(location.hash.slice(1)) || 0);

slider.max = total;
find('verdict').textContent = run.sites.length + (run.sites.length === 1 ? ' site, ' : ' sites, ') + run.home.size + ' processes, edition ' + run.edition + '. ' + (run.accepted ? 'The journals come from this run: ' + total + ' events.' : 'The journals come from no run: it gets no further than these ' + total + ' events.') + ' Step with the arrow keys.';
show(Number(location.hash.slice(1)) || 0);
})();
