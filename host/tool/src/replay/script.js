'use strict';
// Plays a recorded list. Every step, and every branch, is in the page's data as the difference to the step before it, with
// its answer in words; nothing of the floor is computed here.

const data = JSON.parse(document.getElementById('data').textContent);
const element = id => document.getElementById(id);
const SIDES = ['none', 'west', 'south', 'north', 'east'];
const LETTERS = ['–', 'W', 'S', 'N', 'E'];
const ANGLES = [0, 270, 180, 0, 90];
const STOOD = ['', '', '', 'no arrow', 'turn', 'no gap', ''];
const NO_DISTANCE = 255;
const WINDOW = 256;
const SPEEDS = [0.5, 1, 2, 4, 8, 16, 32, 60];
const reduced = matchMedia('(prefers-reduced-motion: reduce)');

// ---- Floors: each place has none, or tiles' heads, what the last report says of them, counts and canisters.

function opened(view) {
    if (!view) return null;
    const canisters = new Map();
    for (let i = 0; i < view.k.length; i += 4) canisters.set(view.k[i], view.k.slice(i + 1, i + 4));
    return {scene: view.s, heads: view.h.slice(), reasons: view.r.slice(), counts: view.c.slice(), canisters};
}

function copied(floor) {
    if (!floor) return null;
    const canisters = new Map();
    for (const [number, spot] of floor.canisters) canisters.set(number, spot.slice());
    return {...floor, heads: floor.heads.slice(), reasons: floor.reasons.slice(), counts: floor.counts.slice(), canisters};
}

function flip(row, bits = []) {
    for (let i = 0; i < bits.length; i += 2) row[bits[i]] ^= bits[i + 1];
}

function add(row, amounts = [], sign) {
    for (let i = 0; i < amounts.length; i += 2) row[amounts[i]] += sign * amounts[i + 1];
}

function insert(canisters, rows = [], size) {
    for (let i = 0; i < rows.length; i += size) canisters.set(rows[i], rows.slice(i + 1, i + 4));
}

function remove(canisters, rows = [], size) {
    for (let i = 0; i < rows.length; i += size) canisters.delete(rows[i]);
}

function shift(canisters, shifts = [], sign) {
    if (!shifts.length) return;
    const ways = new Map();
    for (const [a, b, ...tiles] of shifts) for (const tile of tiles) ways.set(tile, [sign * a, sign * b]);
    for (const spot of canisters.values()) {
        const way = ways.get(spot[0]);
        if (way) {
            spot[1] += way[0];
            spot[2] += way[1];
        }
    }
}

function move(canisters, moves = [], sign) {
    for (let i = 0; i < moves.length; i += 4) {
        const spot = canisters.get(moves[i]);
        for (let axis = 0; axis < 3; axis++) spot[axis] += sign * moves[i + 1 + axis];
    }
}

function apply(places, step, sign) {
    for (const [place, before, after] of step.f || []) places[place] = opened(sign > 0 ? after : before);
    const floor = places[step.v || 0];
    if (step.f || !floor) return;
    flip(floor.heads, step.h);
    flip(floor.reasons, step.r);
    add(floor.counts, step.c, sign);
    if (sign > 0) {
        remove(floor.canisters, step.o, 5);
        shift(floor.canisters, step.s, 1);
        move(floor.canisters, step.m, 1);
        insert(floor.canisters, step.i, 4);
    } else {
        remove(floor.canisters, step.i, 4);
        move(floor.canisters, step.m, -1);
        shift(floor.canisters, step.s, -1);
        insert(floor.canisters, step.o, 5);
    }
}

class Track {
    constructor(steps, places) {
        this.steps = steps;
        this.places = places;
        this.done = 0;
    }

    seek(done) {
        while (this.done < done) apply(this.places, this.steps[this.done++], 1);
        while (this.done > done) apply(this.places, this.steps[--this.done], -1);
    }

    last() {
        return this.steps[this.done - 1];
    }

    place(fallback) {
        return this.done ? this.last().v || 0 : fallback;
    }
}

const head = packed => ({running: packed & 1, arrow: packed >> 1 & 7, turn: packed >> 4 & 7, distance: packed >> 7});
const report = packed => ({reason: packed & 7, grant: packed >> 3 & 7, missing: packed >> 6});

function why(packed) {
    const {reason, missing} = report(packed);
    return reason ? data.reasons[reason].replace('#', missing) : 'no round yet';
}

// ---- A drawing: tiles of the scene's template, with the parts that change, and canisters.

const parts = element('parts').content;

class Drawing {
    constructor(figure) {
        this.caption = figure.querySelector('figcaption');
        this.sheet = figure.querySelector('.sheet');
        this.scene = undefined;
        this.tiles = [];
        this.canisters = new Map();
        this.sheet.addEventListener('pointerover', event => this.pointed(event));
        this.sheet.addEventListener('click', event => this.chosen(event));
        swipes(this.sheet);
    }

    tileAt(event) {
        const tile = event.target.closest('.tile');
        return tile ? Number(tile.dataset.tile) : null;
    }

    pointed(event) {
        const tile = this.tileAt(event);
        if (tile !== null && chosen === null) describe(tile);
    }

    chosen(event) {
        const tile = this.tileAt(event);
        choose(tile === chosen ? null : tile);
    }

    build(scene) {
        this.scene = scene;
        this.tiles = [];
        this.canisters = new Map();
        if (scene === null) {
            const none = document.createElement('p');
            none.textContent = 'No floor at hand.';
            this.sheet.replaceChildren(none);
            return;
        }
        const svg = element(`scene-${scene}`).content.firstElementChild.cloneNode(true);
        this.samples = [...svg.querySelectorAll('.samples .canister')];
        svg.querySelector('.samples').remove();
        this.svg = svg;
        this.layer = svg.querySelector('.canisters');
        this.settings = data.scenes[scene];
        svg.querySelectorAll('.tile').forEach((group, tile) => this.tiles.push(dressed(group, tile)));
        this.sheet.replaceChildren(svg);
    }

    // step: the one that was just made, where canisters are to be seen moving
    show(floor, key, step) {
        const scene = floor ? floor.scene : null;
        const moving = step && key === this.key && scene === this.scene;
        if (scene !== this.scene) this.build(scene);
        this.key = key;
        if (!floor) return;
        this.svg.classList.toggle('jump', !moving);
        floor.heads.forEach((packed, tile) => this.showTile(tile, packed, floor.reasons[tile]));
        this.svg.setAttribute('aria-label', summary(floor));
        this.showCanisters(floor, moving ? step : null);
    }

    showTile(tile, packed, reasons) {
        const drawn = this.tiles[tile];
        if (drawn.packed !== packed) {
            drawn.packed = packed;
            const {running, arrow, turn, distance} = head(packed);
            drawn.group.classList.toggle('running', running === 1);
            drawn.group.classList.toggle('stopped', running === 0);
            drawn.group.classList.toggle('still', arrow === 0);
            drawn.flow.setAttribute('transform', drawn.flowAt + ` rotate(${ANGLES[arrow]})` + drawn.flowScale);
            drawn.arrow.setAttribute('transform', drawn.arrowAt + ` rotate(${ANGLES[arrow]})`);
            drawn.distance.textContent = distance === NO_DISTANCE ? '–' : distance;
            drawn.turn.textContent = running ? turn ? 'turn ' + LETTERS[turn] : '' : 'stopped';
        }
        if (drawn.reasons !== reasons) {
            drawn.reasons = reasons;
            const text = STOOD[report(reasons).reason];
            drawn.stood.textContent = text;
            drawn.group.classList.toggle('stood', text !== '');
        }
    }

    showCanisters(floor, step) {
        for (const [number, drawn] of this.canisters) {
            if (!floor.canisters.has(number)) this.take(number, drawn, step);
        }
        for (const [number, spot] of floor.canisters) {
            let drawn = this.canisters.get(number);
            const isNew = !drawn;
            if (isNew) {
                drawn = this.labelled(number);
                this.canisters.set(number, drawn);
            }
            const {x, y} = this.corner(spot);
            if (drawn.x !== x || drawn.y !== y) {
                drawn.x = x;
                drawn.y = y;
                drawn.group.style.transform = `translate(${x}px, ${y}px)`;
            }
            if (isNew) {
                if (step) drawn.group.classList.add('booked');
                this.layer.append(drawn.group);
            }
        }
    }

    // a delivered canister goes to the middle of its hopper and fades; any other that is no longer there is removed
    take(number, drawn, step) {
        this.canisters.delete(number);
        const gone = step && step.o ? step.o : [];
        let hopper = null;
        for (let i = 0; i < gone.length; i += 5) if (gone[i] === number) hopper = gone[i + 4];
        if (hopper === null) {
            drawn.group.remove();
            return;
        }
        const middle = (this.settings.width - this.settings.length) / 2;
        const {x, y} = this.corner([hopper, middle, middle]);
        drawn.group.style.transform = `translate(${x}px, ${y}px)`;
        drawn.group.classList.add('delivered');
        setTimeout(() => drawn.group.remove(), beat());
    }

    // in millimetres from the north-west corner of the drawing
    corner([tile, a, b]) {
        const {width, length, corners} = this.settings;
        const x = corners[2 * tile] * width / data.side + a;
        const y = corners[2 * tile + 1] * width / data.side + width - length - b;
        return {x, y};
    }

    labelled(number) {
        const digits = String(number);
        const group = this.samples[digits.length - 1].cloneNode(true);
        group.removeAttribute('id');
        group.removeAttribute('transform');
        group.querySelector('title').remove();
        const texts = group.querySelectorAll('text');
        const half = Math.floor(digits.length / 2);
        const lines = texts.length === 1 ? [digits] : [digits.slice(0, half), digits.slice(half)];
        texts.forEach((text, line) => { text.textContent = lines[line]; });
        return {group};
    }

    mark(tile) {
        this.tiles.forEach((drawn, at) => drawn.group.classList.toggle('chosen', at === tile));
    }
}

// a tile of a fresh floor, with the parts that it can have
function dressed(group, tile) {
    const part = name => parts.querySelector(`.running .${name}`).cloneNode(true);
    const hatch = parts.querySelector('.hatch').cloneNode(true);
    const flow = part('flow'), arrow = part('arrow'), turn = part('turn');
    group.removeAttribute('id');
    group.querySelector('title').remove();
    group.dataset.tile = tile;
    group.querySelector('.bed').after(hatch, flow);
    const distance = group.querySelector('.distance');
    distance.before(arrow);
    distance.after(turn);
    const stood = document.createElementNS('http://www.w3.org/2000/svg', 'text');
    stood.setAttribute('class', 'stood-text');
    stood.setAttribute('x', data.side / 2);
    stood.setAttribute('y', data.side - 8);
    flow.after(stood);
    const place = use => use.getAttribute('transform').split(/ rotate\(\d+\)/);
    const [flowAt, flowScale] = place(flow), [arrowAt] = place(arrow);
    return {group, flow, flowAt, flowScale, arrow, arrowAt, distance, turn, stood};
}

function summary(floor) {
    const stopped = floor.heads.flatMap((packed, tile) => packed & 1 ? [] : [tile]);
    return `Floor with ${floor.canisters.size} canisters; stopped tiles: ${stopped.join(', ') || 'none'}`;
}

// ---- Where the page is: after so many steps, or beside a branch.

const main = new Track(data.steps, [null, null, null, null, null]);
const drawings = {without: new Drawing(element('without')), with: new Drawing(element('with'))};
let branch = null;
let other = null;
let position = 0;
let playing = false;
let chosen = null;
let described = null;
let speed = 3;

const length = () => branch ? branch.at + branch.pairs.length / 2 : data.steps.length;

// steps made of the list and of the branch at a position
function located(at) {
    if (!branch || at <= branch.at) return [at, 0];
    const pair = 2 * (at - branch.at - 1);
    return [branch.pairs[pair], branch.pairs[pair + 1]];
}

function go(to, seen = true) {
    const target = Math.max(0, Math.min(length(), to));
    const from = position;
    const [done, doneWith] = located(target);
    const next = target === from + 1;
    const moving = seen && Math.abs(target - from) === 1;
    const made = (track, wanted) => moving && track.done !== wanted ? track.steps[Math.max(track.done, wanted) - 1] : null;
    const step = made(main, done);
    const stepWith = other && made(other, doneWith);
    position = target;
    main.seek(done);
    if (other) other.seek(doneWith);
    show(moving, next ? step : step && {...step, o: undefined}, next ? stepWith : stepWith && {...stepWith, o: undefined});
}

function show(moving, step, stepWith) {
    const place = main.place(0);
    const floor = main.places[place];
    drawings.without.show(floor, place, moving ? step || {} : null);
    if (other) {
        const [placeWith, floorWith] = shownWith();
        drawings.with.show(floorWith, placeWith, moving ? stepWith || {} : null);
        drawings.with.mark(chosen);
    }
    drawings.without.mark(chosen);
    showAnswer(place, floor);
    showCounts(floor);
    showDeliveries();
    showTiles(floor);
    showControls();
    showOffer();
    describe(chosen === null ? described : chosen);
}

// the branch's floor; before its call it is the list's
function shownWith() {
    const track = position > branch.at ? other : main;
    const place = track.place(main.place(0));
    return [place, track.places[place]];
}

const placeName = place => place === 0 ? 'floor at hand' : `floor ${place - 1} of the barge`;

function showAnswer(place, floor) {
    const step = main.last();
    element('call').classList.toggle('two-answers', other !== null);
    answer(element('answer'), step, 'before the first call');
    element('line').textContent = step ? lineText(step, main) : '';
    element('answer-with').hidden = !other;
    if (other) {
        answer(element('answer-with'), other.last(), 'the call comes after step ' + branch.at);
        text(element('so-far'), `Delivered so far: ${lines.with[position]}; without the call: ${lines.without[position]}. `
            + 'In the chart the dashed line is with it.');
    }
    const {columns, rows} = floor ? data.scenes[floor.scene] : {};
    const name = floor ? `${placeName(place)}, ${columns} × ${rows} tiles, round ${floor.counts[0]}` : 'no floor at hand';
    text(element('floor-line'), capital(name));
    drawings.without.caption.textContent = other ? `As the list has it: step ${main.done}` : '';
    if (other) drawings.with.caption.textContent = `What if: ${branch.text}, after step ${branch.at}`;
}

function answer(where, step, none) {
    const words = step ? step.x : none;
    if (where.textContent !== words) where.textContent = words;
    where.classList.toggle('denied', Boolean(step && step.k));
}

// a line as it was typed; of several rounds, which one
function lineText(step, track) {
    const [number, text] = data.lines[step.l];
    const {first, count} = spans[step.l];
    const which = count > 1 ? ` (${track.done - first} of ${count})` : '';
    return `line ${number}: ${text}${which}`;
}

function showCounts(floor) {
    const counts = floor ? floor.counts : [0, 0, 0, 0];
    const hoppers = floor ? data.scenes[floor.scene].hoppers : [];
    const delivered = hoppers.reduce((sum, _, at) => sum + counts[4 + 6 * at], 0);
    const values = {Round: counts[0], Aboard: floor ? floor.canisters.size : 0, Booked: counts[2], Delivered: delivered,
        'No way': counts[3], 'Last number': counts[1]};
    const list = element('counts');
    if (!list.children.length) {
        for (const name of Object.keys(values)) list.append(made('dt', name), made('dd', ''));
    }
    Object.values(values).forEach((value, at) => text(list.children[2 * at + 1], value));
    const rate = count => count < 0 ? '–' : (count / WINDOW).toFixed(8);
    const measures = {Hopper: [], Delivered: [], Last: [], Least: [], Greatest: [], 'Open window': []};
    hoppers.forEach((hopper, at) => {
        const [took, open, inWindow, last, least, greatest] = counts.slice(4 + 6 * at, 10 + 6 * at);
        const cells = [hopper, took, rate(last), rate(least), rate(greatest), `${inWindow} in ${open}`];
        Object.values(measures).forEach((row, measure) => row.push(cells[measure]));
    });
    const body = element('hoppers').tBodies[0];
    Object.entries(measures).forEach(([name, cells], at) => {
        const row = body.rows[at] || headed(body, name);
        while (row.cells.length > cells.length + 1) row.deleteCell(-1);
        cells.forEach((value, cell) => text(row.cells[cell + 1] || row.insertCell(), value));
    });
}

function headed(body, name) {
    const row = body.insertRow();
    const title = made('th', name);
    title.scope = 'row';
    row.append(title);
    return row;
}

function rowOf(body, cells) {
    const row = body.insertRow();
    for (let at = 0; at < cells; at++) row.insertCell();
    return row;
}

function text(where, value) {
    const words = String(value);
    if (where.textContent !== words) where.textContent = words;
}

const capital = words => words[0].toUpperCase() + words.slice(1);

function made(tag, words) {
    const node = document.createElement(tag);
    node.textContent = words;
    return node;
}

// the deliveries of the list up to here, the last of them
function showDeliveries() {
    let before = 0;
    let after = deliveries.length;
    while (before < after) {
        const middle = before + after >> 1;
        if (deliveries[middle].step <= main.done) before = middle + 1; else after = middle;
    }
    const list = element('deliveries');
    if (list.dataset.count === String(before)) return;
    list.dataset.count = before;
    const last = deliveries.slice(Math.max(0, before - 6), before).reverse();
    const items = last.map(({step, number, hopper}) => item(`${number} into hopper ${hopper}, step ${step}`, () => go(at(step))));
    list.replaceChildren(...items);
    if (!items.length) list.append(made('li', 'none yet'));
}

function item(words, act) {
    const node = document.createElement('li');
    const button = made('button', words);
    button.type = 'button';
    button.className = 'link';
    button.addEventListener('click', act);
    node.append(button);
    return node;
}

// the position that shows so many steps of the list
function at(step) {
    if (!branch || step <= branch.at) return step;
    for (let pair = 0; pair < branch.pairs.length; pair += 2) {
        if (branch.pairs[pair] >= step) return branch.at + 1 + pair / 2;
    }
    return length();
}

const tileRows = {scene: undefined, rows: []};

function showTiles(floor) {
    const scene = floor ? floor.scene : null;
    if (tileRows.scene !== scene) buildTiles(scene);
    text(element('why-caption'), floor && floor.counts[0] ? `Round ${floor.counts[0]}` : 'No round yet');
    if (!floor) return;
    const count = new Array(floor.heads.length).fill(0);
    for (const [tile] of floor.canisters.values()) count[tile]++;
    tileRows.rows.forEach((drawn, tile) => {
        if (drawn.count !== count[tile]) text(drawn.row.cells[1], drawn.count = count[tile]);
        if (drawn.reasons !== floor.reasons[tile]) {
            drawn.reasons = floor.reasons[tile];
            text(drawn.row.cells[2], why(drawn.reasons));
            drawn.row.classList.toggle('stood', STOOD[report(drawn.reasons).reason] !== '');
        }
        drawn.row.classList.toggle('chosen', tile === chosen);
    });
}

function buildTiles(scene) {
    tileRows.scene = scene;
    const body = element('tiles').tBodies[0];
    body.replaceChildren();
    const {columns, rows} = scene === null ? {columns: 0, rows: 0} : data.scenes[scene];
    tileRows.rows = Array.from({length: columns * rows}, (_, tile) => {
        const row = rowOf(body, 3);
        const button = made('button', kind(scene, tile) + tile);
        button.type = 'button';
        button.className = 'link';
        button.addEventListener('click', () => choose(tile));
        row.cells[0].append(button);
        return {row};
    });
}

function kind(scene, tile) {
    const {hoppers, sources} = data.scenes[scene];
    return hoppers.includes(tile) ? 'hopper ' : sources.includes(tile) ? 'fill ' : '';
}

function choose(tile) {
    chosen = tile;
    described = tile;
    drawings.without.mark(tile);
    if (other) drawings.with.mark(tile);
    tileRows.rows.forEach(({row}, at) => row.classList.toggle('chosen', at === tile));
    describe(tile);
}

// all that a tile has, and the command that shows what its stop or repair would do
function describe(tile) {
    const place = main.place(0);
    const floor = main.places[place];
    if (tile === null || !floor || tile >= floor.heads.length) return;
    described = tile;
    const sort = kind(floor.scene, tile);
    text(element('tile-heading'), sort === 'fill ' ? `Fill tile ${tile}` : sort ? `Hopper ${tile}` : `Tile ${tile}`);
    const lines = [other ? `Without the call: ${tileText(floor, tile)}` : capital(tileText(floor, tile))];
    const there = other && shownWith()[1];
    if (there && tile < there.heads.length) lines.push(`With it: ${tileText(there, tile)}`);
    const holder = element('tile-text');
    if (holder.textContent !== lines.join('')) holder.replaceChildren(...lines.map(line => made('p', line)));
    const {running} = head(floor.heads[tile]);
    const where = place ? `on ${place - 1} ` : '';
    const call = `${where}${running ? 'stop' : 'repair'} ${tile}`;
    element('tile-what-if').hidden = sort === 'hopper ';
    const command = `${data.command} --what-if "${call}" --at ${main.done} > what-if.html`;
    if (element('command').value !== command) element('command').value = command;
}

function tileText(floor, tile) {
    const {running, arrow, turn, distance} = head(floor.heads[tile]);
    const {grant} = report(floor.reasons[tile]);
    const far = distance === NO_DISTANCE ? 'none' : distance;
    const state = running ? `arrow ${SIDES[arrow]}, distance ${far}, turn ${SIDES[turn]}.` : 'stopped.';
    const granted = grant ? ` It let the ${SIDES[grant]} side in.` : '';
    const here = [...floor.canisters].filter(([, spot]) => spot[0] === tile).sort(([one], [two]) => one - two);
    const places = here.map(([number, [, a, b]]) => `${number} at (${a}, ${b})`);
    return `${state} Last round: ${why(floor.reasons[tile])}.${granted} Canisters: ${places.join(', ') || 'none'}.`;
}

function showControls() {
    const slider = element('slider');
    slider.max = length();
    slider.value = position;
    const step = main.last();
    slider.setAttribute('aria-valuetext', `step ${main.done} of ${data.steps.length}${step ? ': ' + step.x : ''}`);
    if (document.activeElement !== element('step')) element('step').value = main.done;
    element('step').max = data.steps.length;
    text(element('of'), `of ${data.steps.length}`);
    const here = chart.querySelector('.here');
    here.setAttribute('x1', position);
    here.setAttribute('x2', position);
    if (!playing) share();
    const line = step ? step.l : null;
    if (list.here !== line) {
        if (list.here !== null) list.items[list.here].firstChild.classList.remove('here');
        if (line !== null) list.items[line].firstChild.classList.add('here');
        list.here = line;
    }
}

function showOffer() {
    const offer = element('offer');
    const here = branch ? [] : data.branches.filter(({at}) => at === main.done);
    offer.hidden = !here.length;
    if (offer.dataset.at === String(main.done) || !here.length) return;
    offer.dataset.at = main.done;
    const buttons = here.flatMap(each => {
        const button = made('button', `What if: ${each.text}`);
        button.type = 'button';
        button.addEventListener('click', () => enter(each));
        return [button, ' '];
    });
    offer.replaceChildren('At this step: ', ...buttons);
}

// ---- Branches.

function enter(which) {
    const here = main.done;
    main.seek(which.at);
    branch = which;
    other = new Track(which.steps, main.places.map(copied));
    element('with').hidden = false;
    element('floors').classList.add('two');
    element('compared').hidden = false;
    element('says').replaceChildren(...which.says.map(words => made('p', words)));
    position = at(here);
    if (here === which.at) position = which.at + 1;
    drawChart();
    go(position, false);
}

function leave() {
    const here = main.done;
    branch = null;
    other = null;
    element('with').hidden = true;
    element('floors').classList.remove('two');
    element('compared').hidden = true;
    drawChart();
    go(here, false);
}

// ---- The chart: deliveries so far, by step.

const chart = element('chart');
// up to each position, without the branch's call and with it
let lines;

function drawChart() {
    const total = length();
    lines = {without: [0], with: [0]};
    for (let at = 1; at <= total; at++) {
        const [done, doneWith] = located(at);
        const [before, beforeWith] = located(at - 1);
        const came = (steps, now, then) => now > then && steps[now - 1].o ? steps[now - 1].o.length / 5 : 0;
        const without = came(data.steps, done, before);
        const withIt = branch && at > branch.at ? came(branch.steps, doneWith, beforeWith) : without;
        lines.without.push(lines.without[at - 1] + without);
        lines.with.push(lines.with[at - 1] + withIt);
    }
    const most = Math.max(1, lines.without[total], lines.with[total]);
    chart.setAttribute('viewBox', `0 0 ${Math.max(1, total)} 100`);
    const points = line => line.map((count, at) => `${at},${97 - 94 * count / most}`).join(' ');
    const shapes = [shape('polyline', {points: points(lines.without)})];
    if (branch) {
        shapes.push(shape('polyline', {points: points(lines.with), class: 'with'}));
        shapes.push(upright(branch.at, 'branch', 0, 100));
    }
    for (let at = 1; at <= total; at++) if (data.steps[located(at)[0] - 1]?.k) shapes.push(upright(at, 'denied', 88, 100));
    chart.replaceChildren(...shapes, upright(position, 'here', 0, 100));
}

const upright = (at, name, y1, y2) => shape('line', {x1: at, x2: at, y1, y2, class: name});

function shape(tag, attributes) {
    const node = document.createElementNS('http://www.w3.org/2000/svg', tag);
    for (const [name, value] of Object.entries(attributes)) node.setAttribute(name, value);
    return node;
}

// ---- Playing.

const interval = () => 1000 / SPEEDS[speed];
const beat = () => Math.min(600, interval() * 0.9);
let due = 0;

function play(on = !playing) {
    if (on && position === length()) go(0, false);
    playing = on && length() > 0;
    element('play').classList.toggle('on', playing);
    element('play').setAttribute('aria-label', playing ? 'Pause' : 'Play');
    for (const id of ['answer', 'answer-with']) element(id).setAttribute('aria-live', playing ? 'off' : 'polite');
    due = performance.now() + interval();
    if (playing) requestAnimationFrame(frame); else share();
}

function frame(now) {
    if (!playing) return;
    if (now >= due) {
        due = Math.max(due + interval(), now);
        go(position + 1);
        if (position === length()) return play(false);
    }
    requestAnimationFrame(frame);
}

function setSpeed(to) {
    speed = Math.max(0, Math.min(SPEEDS.length - 1, to));
    element('speed').value = speed;
    document.documentElement.style.setProperty('--beat', (reduced.matches ? 0 : beat()) + 'ms');
}

function toDelivery(way) {
    for (let at = position + way; at >= 1 && at <= length(); at += way) {
        const [done, doneWith] = located(at);
        const [before, beforeWith] = located(at - 1);
        const delivered = (steps, now, then) => now > then && steps[now - 1].o;
        if (delivered(data.steps, done, before) || branch && delivered(branch.steps, doneWith, beforeWith)) return go(at);
    }
}

// ---- Keys, buttons, swipes, and the address, which names step and branch.

function swipes(sheet) {
    let begun = null;
    sheet.addEventListener('pointerdown', event => { begun = event.pointerType === 'mouse' ? null : event; });
    sheet.addEventListener('pointercancel', () => { begun = null; });
    sheet.addEventListener('pointerup', event => {
        if (!begun) return;
        const across = event.clientX - begun.clientX;
        const down = event.clientY - begun.clientY;
        begun = null;
        if (Math.abs(across) > 40 && Math.abs(across) > 2 * Math.abs(down)) by(across < 0 ? 1 : -1);
    });
}

function by(steps) {
    play(false);
    go(position + steps);
}

function to(target) {
    play(false);
    go(target);
}

const ACTS = {
    ' ': () => play(),
    ArrowLeft: () => by(-1),
    ArrowRight: () => by(1),
    Home: () => to(0),
    End: () => to(length()),
    n: () => { play(false); toDelivery(1); },
    p: () => { play(false); toDelivery(-1); },
    w: () => { if (branch) leave(); else if (data.branches.length) enter(data.branches[0]); },
    '+': () => setSpeed(speed + 1),
    '-': () => setSpeed(speed - 1),
};

document.addEventListener('keydown', event => {
    const act = ACTS[event.key];
    if (!act || event.ctrlKey || event.altKey || event.metaKey) return;
    const tag = event.target.tagName;
    const typing = tag === 'SELECT' || tag === 'INPUT' && event.target.type !== 'range';
    const pressing = event.key === ' ' && (tag === 'BUTTON' || tag === 'SUMMARY');
    if (typing || pressing) return;
    event.preventDefault();
    act();
});

const BUTTONS = {first: ACTS.Home, 'previous-delivery': ACTS.p, back: ACTS.ArrowLeft, play: () => play(), on: ACTS.ArrowRight,
    'next-delivery': ACTS.n, last: ACTS.End, leave};
for (const [id, act] of Object.entries(BUTTONS)) element(id).addEventListener('click', act);
element('slider').addEventListener('input', event => to(Number(event.target.value)));
element('step').addEventListener('change', event => to(at(Math.round(Number(event.target.value)) || 0)));
element('speed').addEventListener('change', event => setSpeed(Number(event.target.value)));
element('copy').addEventListener('click', async () => {
    const field = element('command');
    field.select();
    try {
        await navigator.clipboard.writeText(field.value);
        element('copy').textContent = 'Copied';
    } catch {
        element('copy').textContent = 'Press Ctrl-C';
    }
    setTimeout(() => { element('copy').textContent = 'Copy'; }, 2000);
});

function share() {
    const which = branch ? `&whatif=${data.branches.indexOf(branch) + 1}` : '';
    try {
        history.replaceState(null, '', `#step=${position}${which}`);
    } catch {
        // some browsers allow few changes in a while; the next one tells the step again
    }
}

function fromAddress() {
    const address = new URLSearchParams(location.hash.slice(1));
    const which = data.branches[Number(address.get('whatif')) - 1];
    const step = Number(address.get('step')) || 0;
    if (which && which !== branch) enter(which);
    if (!which && branch) leave();
    go(step, false);
}

// ---- The beginning.

const deliveries = data.steps.flatMap((step, made) => {
    const each = [];
    for (let i = 0; step.o && i < step.o.length; i += 5) each.push({step: made + 1, number: step.o[i], hopper: step.o[i + 4]});
    return each;
});

// of each line the steps before it, and how many it has
const spans = data.lines.map(() => ({first: 0, count: 0}));
data.steps.forEach((step, made) => {
    const span = spans[step.l];
    if (!span.count++) span.first = made;
});

const list = {here: null, items: data.lines.map(([number, words], line) => {
    const {first, count} = spans[line];
    const entry = item(`${number}: ${words}`, () => to(at(count ? first + 1 : first)));
    const last = count ? data.steps[first + count - 1] : null;
    if (last && last.k) entry.firstChild.classList.add('denied');
    return entry;
})};
document.querySelector('#list ol').append(...list.items);

element('branches').hidden = !data.branches.length;
document.querySelector('#branches ul').append(...data.branches.map(each => item(`${each.text}, after step ${each.at}`, () => enter(each))));
SPEEDS.forEach((steps, at) => {
    const option = made('option', `${steps} a second`);
    option.value = at;
    element('speed').append(option);
});
setSpeed(speed);
reduced.addEventListener('change', () => setSpeed(speed));
drawChart();
fromAddress();
window.addEventListener('hashchange', fromAddress);
