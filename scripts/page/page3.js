// What a page of edition 3 shows otherwise. Each function stands in the place of the one above, or below, that has its name.

// ---- The data. The entries alone say which waits begin and end.

read = (readLines => text => {
    const run = readLines(text);
    run.events.forEach(e => {
        const [a, ...others] = e.n;
        e.stop = Number((/ declared \d+ at (\d+)$/.exec(e.line) || [])[1] || 0);
        e.begins = e.kind === 'ask' ? others.map(k => [a, k]) : [];
        e.ends = e.kind === 'withdraw' ? others.map(k => [a, k]) : e.kind === 'reply' ? [[others[0], a]] : [];
    });
    return run;
})(read);

// ---- The state. A site has a clock, which an ask raises by one and a frame to that of its sender. Waits and marks have stamps.

function siteOf(has) {
    return { clock: has.clock, waits: new Map(has.waits), leaving: new Set(has.leaving), owed: new Set(has.owed), marks: new Map(has.marks), declared: new Map(has.declared) };
}

blank = run => {
    const sites = new Map();
    for (const { site } of run.sites) sites.set(site, siteOf({ clock: 0 }));
    return { waits: new Set(), leaving: new Set(), way: new Set(), declared: [], sites, own: new Set(), taken: 0 };
};

copied = (copy => state => ({ ...copy(state), leaving: new Set(state.leaving), taken: state.taken }))(copied);

owned = (state, site) => {
    if (!state.own.has(site)) {
        state.sites.set(site, siteOf(state.sites.get(site)));
        state.own.add(site);
    }
    return state.sites.get(site);
};

const waitsOf = (has, j) => firsts(has.waits.keys(), j);

// The wait of a process with this stamp is no younger than the ask of i with stamp n.
const counts = (stamp, j, i, n) => stamp < n || stamp === n && j <= i;

// What becomes of a probe of the ask of i with stamp n, from j to k: the first reason for which it is ignored, or it acts.
function fateOf(has, [i, n, j, k]) {
    const waits = waitsOf(has, k);
    if (waits.length === 0) return 'ignored active';
    if (!waits.some(wait => counts(has.waits.get(wait), k, i, n))) return 'ignored younger';
    if (!has.owed.has(pair(k, j))) return 'ignored answered';
    return (has.marks.get(pair(k, i)) || 0) >= n ? 'ignored known' : 'acts';
}

step = (run, state, e) => {
    const mine = owned(state, e.site);
    const [a, b, ...rest] = e.n;
    const isHere = p => run.home.get(p) === e.site;
    const settle = j => {
        if (waitsOf(mine, j).length > 0) return;
        firsts(mine.marks.keys(), j).forEach(mark => mine.marks.delete(mark));
        mine.declared.delete(j);
    };
    const leave = (j, k) => {
        mine.leaving.add(pair(j, k));
        state.leaving.add(pair(j, k));
    };
    const come = (j, k) => {
        mine.leaving.delete(pair(j, k));
        state.leaving.delete(pair(j, k));
    };
    if (e.kind === 'ask' || e.kind === 'start') mine.clock += 1;
    if (e.frame) mine.clock = Math.max(mine.clock, e.frame.clock);
    e.clock = mine.clock;
    switch (e.kind) {
        case 'ask': case 'start':
            mine.declared.delete(a);
            for (const [j, k] of e.begins) {
                mine.waits.set(pair(j, k), mine.clock);
                if (isHere(k)) mine.owed.add(pair(k, j));
            }
            break;
        case 'reply':
            mine.owed.delete(pair(a, b));
            if (isHere(b)) mine.waits.delete(pair(b, a)), settle(b);
            break;
        case 'withdraw':
            for (const [j, k] of e.ends) {
                mine.waits.delete(pair(j, k));
                if (isHere(k)) mine.owed.delete(pair(k, j));
                else leave(j, k);
            }
            settle(a);
            break;
        case 'got request': mine.owed.add(pair(b, a)); break;
        case 'got reply':
            if (mine.waits.delete(pair(b, a))) settle(b);
            else come(b, a);
            break;
        case 'got withdraw': e.owed = mine.owed.delete(pair(b, a)); break;
        default:
            e.fate = fateOf(mine, e.n);
            if (e.fate === 'acts') mine.marks.set(pair(rest[1], a), b);
    }
    if (e.declared) mine.declared.set(e.declared, e.stop);
    if (e.frame) state.way.delete(e.frame.id);
    for (const frame of e.sent) frame.clock = mine.clock, state.way.add(frame.id);
    for (const [j, k] of e.begins) state.waits.add(pair(j, k));
    for (const [j, k] of e.ends) state.waits.delete(pair(j, k));
    state.declared = [...state.sites.values()].flatMap(has => [...has.declared.keys()]).sort((x, y) => x - y);
    state.taken = e.moment;
};

// ---- Stop n has of each site the entries after which its clock is below n, and the ask by which it became n.

const isWithin = (e, n) => e.clock < n || e.clock === n && (e.kind === 'ask' || e.kind === 'start');

// What became of the cycle of a process at its stop: it stands, or the least of its members that left it.
function cycleOf(run, taken, process, stop) {
    const [waits, ended, left] = [new Set(), new Set(), new Set()];
    for (const e of run.events.slice(0, taken)) {
        const within = isWithin(e, stop);
        if (within) for (const [j, k] of e.begins) waits.add(pair(j, k));
        for (const [j, k] of e.ends) {
            if (within) waits.delete(pair(j, k));
            else ended.add(pair(j, k)), e.kind === 'withdraw' && left.add(pair(j, k));
        }
    }
    const members = cycle(new Set([...waits].filter(wait => !ended.has(wait))), process);
    if (members.length > 0) return { process, stop, members, by: 0 };
    const old = cycle(waits, process);
    return { process, stop, members: old, by: Math.min(...old.slice(0, -1).filter((j, i) => left.has(pair(j, old[i + 1])))) };
}

cycles = (run, state) => state.declared.slice(0, 64).map(process =>
    cycleOf(run, state.taken, process, state.sites.get(run.home.get(process)).declared.get(process)));

const cycleText = ({ process, stop, members, by }) =>
    process + ' is declared at stop ' + stop + ': its cycle ' + members.join(' ') + (by ? ' was left by ' + by : ' stands');

// ---- Words.

function clockText(e, was) {
    if (e.clock === was.clock) return [];
    const rises = 'The clock of site ' + e.site + ' rises from ' + was.clock + ' to ' + e.clock;
    return [rises + (e.frame ? ', the clock of the frame.' : ', the stamp of this ' + e.kind + '.')];
}

wordsOf = (run, e, before, after) => {
    const [a, b, c, d] = e.n;
    const was = before.sites.get(e.site);
    const now = after.sites.get(e.site);
    const ks = e.n.slice(1);
    const here = ks.filter(k => run.home.get(k) === e.site);
    const away = ks.filter(k => run.home.get(k) !== e.site);
    const requests = e.sent.filter(f => f.kind === 'request');
    const probes = e.sent.filter(f => f.kind === 'probe');
    const goesOn = j => {
        const left = waitsOf(now, j).map(wait => wait.split(' ')[1]);
        if (left.length > 0) return ['It still waits for ' + listed(left) + '.'];
        const lost = [firsts(was.marks.keys(), j).length > 0 ? 'its marks' : '', was.declared.has(j) ? 'its declaration' : ''].filter(text => text);
        return ['It waits for nobody any more: process ' + j + ' is active.', ...(lost.length > 0 ? ['A process that becomes active loses ' + listed(lost) + '.'] : [])];
    };
    const declared = why => ['Process ' + e.declared + ' is declared: ' + why, 'It lay on a cycle at stop ' + e.stop + '.'];
    const started = () => e.declared
        ? declared('waits inside site ' + e.site + ' lead from it back to it.')
        : [sentText(probes, 'No wait leaves the site from what ' + a + ' reaches, so no probe goes out.')];
    switch (e.kind) {
        case 'ask':
            return [
                'Process ' + a + ' asks ' + listed(ks) + ' and waits for ' + (ks.length > 1 ? 'all of them.' : 'it.') + (waitsOf(was, a).length > 0 ? ' It waited already, and asks for more.' : ''),
                ...clockText(e, was),
                ...(here.length > 0 ? [listed(here) + (here.length > 1 ? ' are' : ' is') + ' at the same site, and owes it a reply at once.'] : []),
                ...(requests.length > 0 ? [sentText(requests, '')] : []),
                ...started(),
            ];
        case 'start': return ['A computation starts for process ' + a + ', which waits.', ...clockText(e, was), ...started()];
        case 'reply':
            return [
                'Process ' + a + ' grants ' + b + ' what it asked for. It may, since it is active and owed ' + b + ' a reply. ' + (before.waits.has(pair(b, a))
                    ? 'The wait of ' + b + ' for ' + a + ' ends.'
                    : b + ' has given up that wait, which site ' + e.site + ' does not know yet.'),
                ...(e.sent.length > 0 ? [sentText(e.sent, ''), 'Site ' + e.sent[0].to + ' learns it when the reply comes.'] : goesOn(b)),
            ];
        case 'withdraw':
            return [
                'Process ' + a + ' gives up its ' + (ks.length > 1 ? 'waits' : 'wait') + ' for ' + listed(ks) + ', which ' + (ks.length > 1 ? 'end' : 'ends') + ' at once.',
                ...(here.length > 0 ? [listed(here) + (here.length > 1 ? ' are' : ' is') + ' at the same site, and owes it nothing any more.'] : []),
                ...(away.length > 0 ? [sentText(e.sent, ''), 'Until an answer comes, it cannot ask ' + listed(away) + ' again.'] : []),
                ...goesOn(a),
            ];
        case 'got request':
            return ['request ' + a + ' ' + b + ' came from site ' + e.from + '. From now on ' + b + ' owes ' + a + ' a reply.', ...clockText(e, was)];
        case 'got reply':
            return [
                'reply ' + a + ' ' + b + ' came from site ' + e.from + '. ' + (was.waits.has(pair(b, a))
                    ? 'For its controller, ' + b + ' no longer waits for ' + a + '.'
                    : b + ' had given up its wait for ' + a + ', and this is the answer: it may ask ' + a + ' again.'),
                ...clockText(e, was),
                ...(was.waits.has(pair(b, a)) ? goesOn(b) : []),
            ];
        case 'got withdraw':
            return [
                'withdraw ' + a + ' ' + b + ' came from site ' + e.from + ': ' + a + ' has given up its wait for ' + b + '.',
                ...clockText(e, was),
                e.owed ? b + ' owes ' + a + ' nothing any more. Its site answers by a reply.' : b + ' owed ' + a + ' nothing any more: it has granted, and its reply and the withdraw crossed on the way.',
                ...(e.owed ? [sentText(e.sent, '')] : []),
            ];
        default: {
            const name = 'probe ' + e.n.join(' ');
            if (e.fate !== 'acts') return [name + ' ignored: ' + ignored(e) + '.', ...clockText(e, was)];
            return [
                name + ' acts: ' + d + ' has a wait that is no younger than the ask of ' + a + ' with stamp ' + b + ', owes ' + c + ' a reply, and has no mark of that ask or of a newer one. Now it has one.',
                ...clockText(e, was),
                ...(e.declared
                    ? declared(d === a ? 'its probe has come back to it.' : d + ' reaches it by waits inside site ' + e.site + '.')
                    : [sentText(probes, 'No wait that counts leaves the site from what ' + d + ' reaches, so no probe goes on.')]),
            ];
        }
    }
};

ignored = e => {
    const [i, n, j, k] = e.n;
    const ask = 'the ask of ' + i + ' with stamp ' + n;
    if (e.fate === 'ignored active') return k + ' is active, it waits for nobody';
    if (e.fate === 'ignored younger') return 'each wait of ' + k + ' is younger than ' + ask;
    if (e.fate === 'ignored answered') return k + ' owes ' + j + ' nothing';
    return k + ' has a mark of ' + ask + ', or of a newer one';
};

// ---- Drawing: a withdrawal is a diamond, a wait that was given up and not answered dots, and a declaration whose cycle was
// left an octagon with a broken line.

mark = (draw => (e, x, y, isNow) => {
    const shapes = draw(e, x, y, isNow);
    const old = shapes[0].children[1];
    if (e.kind === 'withdraw') old.replaceWith(el('polygon', { points: [[0, -14], [14, 0], [0, 14], [-14, 0]].map(p => (x + p[0]) + ',' + (y + p[1])).join(' '), class: old.getAttribute('class') + ' withdrawal' }));
    return shapes;
})(mark);

// The names of frames are longer: right of the lines there is more room for them.
const MORE = 20;

drawDiagram = (draw => (run, state, moment, room) => {
    draw(run, state, moment, { ...room, width: room.width - MORE });
    const svg = find('diagram').firstChild;
    const width = Number(svg.getAttribute('width')) + MORE;
    svg.setAttribute('width', width);
    svg.setAttribute('viewBox', '0 0 ' + width + ' ' + svg.getAttribute('height'));
})(drawDiagram);

drawGraph = (draw => (run, state, found) => {
    const waits = [...state.waits];
    const leaving = [...state.leaving];
    draw(run, { ...state, waits: new Set([...waits, ...leaving]) }, found.filter(({ by }) => !by));
    const arrows = find('graph').querySelectorAll('path.wait, path.cycle');
    leaving.forEach((_, i) => arrows[waits.length + i].setAttribute('class', 'leaving'));
    const left = new Set(found.filter(({ by }) => by).map(({ process }) => String(process)));
    for (const shape of find('graph').querySelectorAll('polygon.declared')) if (left.has(shape.nextSibling.textContent)) shape.setAttribute('class', 'mark over');
    const more = [...leaving.sort(byNumbers).map(wait => wait.replace(' ', ' gave up its wait for ')), ...found.map(cycleText)];
    if (state.declared.length > found.length) more.push('and ' + (state.declared.length - found.length) + ' more are declared');
    find('waits').append(...more.map(text => html('li', text)));
})(drawGraph);

// ---- The page.

knownRows = state => {
    const now = moment > 0 ? run.events[moment - 1].site : 0;
    const stamped = pairs => [...pairs].map(([name, stamp]) => name + ' ' + stamp);
    return run.sites.map(({ site }) => {
        const has = state.sites.get(site);
        const row = html('tr', '', site === now ? 'now' : '');
        const name = html('th', site);
        name.scope = 'row';
        const cells = [stamped(has.waits), [...has.leaving], [...has.owed], stamped(has.marks)].map(pairs => html('td', pairs.sort(byNumbers).join(', ')));
        const declared = [...has.declared].sort((x, y) => x[0] - y[0]).map(([process, stop]) => process + ' at ' + stop);
        row.append(name, html('td', has.clock), ...cells, html('td', declared.join(', ')));
        return row;
    });
};

wayTexts = (tell => state => {
    const frames = [...state.way].map(id => run.frames[id]);
    return tell(state).map((text, i) => i < Math.min(frames.length, 100) ? text + ', clock ' + frames[i].clock : text);
})(wayTexts);

// At the end the report says what became of each declaration.
tell = (show => (before, state, found) => {
    show(before, state, []);
    const told = moment > 0 ? found.filter(({ process }) => moment === total || process === run.events[moment - 1].declared) : [];
    find('words').append(...told.map(one => html('p', cycleText(one) + '.')));
})(tell);

function heading(text) {
    const cell = html('th', text);
    cell.scope = 'col';
    return cell;
}

const keyOf = id => find(id).querySelector('.key');
const spans = texts => texts.flatMap(text => [' ', html('span', text)]);

document.querySelector('thead tr').replaceChildren(...['site', 'clock', 'waits', 'leaving', 'owed', 'marks', 'declared'].map(heading));
keyOf('happened').append(...spans(['diamond: a withdrawal', 'dashes and dots: withdraw']));
keyOf('waiting').append(...spans(['dots: gave up, and has no answer yet', 'broken octagon: declared, and its cycle was left']));
keyOf('knowing').replaceChildren(...spans([
    'waits 1 2 5: 1 waits for 2 since its ask with stamp 5',
    'leaving 1 2: 1 gave up its wait for 2, and has no answer yet',
    'owed 2 1: 2 owes 1 a reply',
    'marks 2 1 5: a probe of the ask of 1 with stamp 5 acted at 2',
    'declared 1 at 5: the cycle of 1 stood at stop 5',
    'stop 5: of each site what it did up to clock 4, and its asks with stamp 5',
]));
