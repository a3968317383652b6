// Opens replays in Chromium (Debian: chromium, nodejs): plays and steps them by keys, buttons and touch, at several widths,
// light and dark, and times a full 8 x 8 floor. Pictures go to the folder that is named, to be looked at.
//
//     cd host && cargo build --release -p ceromby-tool && node tool/browser/check.mjs FOLDER

import assert from 'node:assert/strict';
import {execFileSync} from 'node:child_process';
import {mkdirSync, writeFileSync} from 'node:fs';
import {dirname, join, resolve} from 'node:path';
import {fileURLToPath} from 'node:url';
import {Browser, sleep} from './chromium.mjs';

const here = dirname(fileURLToPath(import.meta.url));
const program = process.env.CEROMBY ?? join(here, '../../target/release/ceromby');
const folder = resolve(process.argv[2] ?? 'pictures');
mkdirSync(folder, {recursive: true});

// a cross of ways into one hopper, a stop that makes a detour, what can't be read and what is refused
const DAY = `fresh 4 4 10 0,4,12 1000 250 50 200
book 4 1
book 0 2
book 12 3
rounds 3
book 4 4
book 0 5
book 12 6
rounds 6
book 4 7
book 0 8
stop 10
lift 4
rounds 6
stop 9
book 0 9
list
4 10 0 0
4 11 10 0
12 12 0 600
end
rounds 20
repair 9
until empty
`;
const HOSTILE = `</script><script>document.title = 'broken'; alert(1)</script>
<img src=x onerror=alert(2)>
fresh 2 1 1 0 100 30 10 20
load "<svg onload=alert(3)>"
`;

// a full floor that is filled again and again, 2,000 rounds
function busy() {
    const hoppers = [18, 21, 42, 45];
    const fill = Array.from({length: 64}, (_, tile) => tile).filter(tile => !hoppers.includes(tile));
    let number = 0;
    const book = tile => `book ${tile} ${++number}`;
    const lines = [`fresh 8 8 ${hoppers} ${fill} 1000 220 30 100`, ...fill.flatMap(tile => Array.from({length: 16}, () => book(tile)))];
    for (let twenty = 0; twenty < 100; twenty++) lines.push('rounds 20', ...fill.filter((_, at) => at % 2 === twenty % 2).map(book));
    return lines.join('\n') + '\n';
}

function page(name, list, ...words) {
    const file = join(folder, `${name}.html`);
    writeFileSync(join(folder, `${name}.txt`), list);
    const html = execFileSync(program, ['replay', `${name}.txt`, ...words], {cwd: folder, maxBuffer: 1 << 28});
    writeFileSync(file, html);
    console.log(`${name}: ${html.length} bytes`);
    return `file://${file}`;
}

// the floor at hand after a list, as the program reads it
function read(list, tiles) {
    const questions = Array.from({length: tiles}, (_, tile) => `read ${tile}`).join('\n');
    const run = () => execFileSync(program, ['--json'], {input: list + questions + '\n', maxBuffer: 1 << 28});
    let out;
    try { out = run(); } catch (refused) { out = refused.stdout; }
    return out.toString().trim().split('\n').slice(-tiles).map(line => JSON.parse(line).gave);
}

const browser = await Browser.start();

// what the page knows, and what is drawn of it
const STATE = `JSON.stringify(main.places.map(floor => floor && {...floor, canisters: [...floor.canisters].sort(([x], [y]) => x - y)}))`;
const DRAWN = `[...document.querySelectorAll('#without .canister:not(.delivered)')].length`;
const state = () => browser.run(STATE);
const at = () => browser.run('position');

async function clean(what) {
    assert.deepEqual(browser.faults, [], what);
    const elsewhere = browser.requests.filter(url => !url.startsWith('file://') && url !== 'about:blank');
    assert.deepEqual(elsewhere, [], what);
}

// nothing is wider than the screen, and no control is cut off
async function fits(what) {
    const [page, window] = await browser.run('[document.documentElement.scrollWidth, innerWidth]');
    assert.ok(page <= window, `${what}: ${page} pixels on ${window}`);
    const cut = await browser.run(`[...document.querySelectorAll('#controls *')].filter(node => {
        const {left, right} = node.getBoundingClientRect();
        return !node.closest('#chart') && (left < 0 || right > innerWidth);
    }).map(node => node.id || node.textContent)`);
    assert.deepEqual(cut, [], what);
}

// forwards by key, backwards by key, and by jumps: the same floors, and as many canisters drawn
async function stepped(url, list, tiles) {
    await browser.open(url);
    const steps = await browser.run('data.steps.length');
    const states = [await state()];
    for (let step = 1; step <= steps; step++) {
        await browser.press('ArrowRight');
        assert.equal(await at(), step);
        states.push(await state());
        assert.equal(await browser.run(DRAWN), await browser.run('main.places[main.place(0)]?.canisters.size ?? 0'));
    }
    for (let step = steps - 1; step >= 0; step--) {
        await browser.press('ArrowLeft');
        assert.equal(await state(), states[step], `back at ${step}`);
    }
    for (let jump = 0; jump < 50; jump++) {
        const to = (jump * 7919) % (steps + 1);
        await browser.run(`{ const slider = element('slider'); slider.value = ${to}; slider.dispatchEvent(new Event('input')); }`);
        assert.equal(await state(), states[to], `jumped to ${to}`);
    }
    await browser.press('End');
    const last = JSON.parse(await state())[0];
    read(list, tiles).forEach((tile, number) => {
        const canisters = last.canisters.filter(([, spot]) => spot[0] === number).map(([name, [, a, b]]) => ({number: name, a, b}));
        assert.deepEqual(canisters, tile.canisters, `tile ${number}`);
        assert.equal(last.heads[number] & 1, tile.running ? 1 : 0);
        assert.equal(last.heads[number] >> 7, tile.distance ?? 255);
    });
    await clean('stepping');
    console.log(`stepped: ${steps} steps forwards and backwards, 50 jumps, the last floor as read by the program`);
}

async function controlled(url) {
    await browser.look({width: 1280, height: 800});
    await browser.open(url);
    await browser.press('n');
    const delivery = await at();
    assert.ok(await browser.run('main.last().o.length > 0'));
    await browser.press('n');
    await browser.press('p');
    assert.equal(await at(), delivery);
    await browser.press('Home');
    assert.equal(await at(), 0);
    await browser.run('setSpeed(7)');
    await browser.press(' ');
    assert.equal(await browser.run('playing'), true);
    while (await browser.run('playing')) await sleep(50);
    assert.equal(await at(), await browser.run('length()'));
    for (const [id, position] of [['first', 0], ['on', 1], ['on', 2], ['back', 1], ['next-delivery', delivery]]) {
        await browser.click(`#${id}`);
        assert.equal(await at(), position, id);
    }
    await browser.click('#without .tile[data-tile="9"] .bed');
    assert.match(await browser.run(`element('tile-heading').textContent`), /^Tile 9$/);
    const wanted = `ceromby replay day.txt --what-if "stop 6" --at 12 --what-if "stop 9" --at ${delivery} > what-if.html`;
    assert.equal(await browser.run(`element('command').value`), wanted);
    await browser.run(`go(12); document.querySelector('#offer button').click()`);
    assert.equal(await browser.run('other.done'), 1);
    await browser.press('End');
    assert.equal(await browser.run('other.done'), await browser.run('branch.steps.length'));
    const shared = await browser.run('location.hash');
    await browser.open(url + shared);
    assert.equal(await browser.run('location.hash'), shared);
    await browser.press('w');
    assert.equal(await browser.run('branch'), null);
    await clean('keys and buttons');
    console.log('controlled: keys, buttons, playing, tile, what if, address');
}

async function touched(url) {
    await browser.look({width: 390, height: 844});
    await browser.open(`${url}#step=10`);
    await browser.swipe(300, 100, 250);
    assert.equal(await at(), 11);
    await browser.swipe(100, 300, 250);
    assert.equal(await at(), 10);
    await clean('touch');
    console.log('touched: a swipe on and one back');
}

async function pictured(url, full) {
    const views = [['1280-light', {width: 1280, height: 800}], ['1280-dark', {width: 1280, height: 800, dark: true}],
        ['390-light', {width: 390, height: 844}], ['390-dark', {width: 390, height: 844, dark: true}], ['360-light', {width: 360, height: 640}]];
    const addresses = [['step', `${url}#step=26`], ['what-if', `${url}#step=24&whatif=1`], ['full', `${full}#step=1500`]];
    for (const [name, view] of views) {
        await browser.look(view);
        for (const [what, address] of addresses) {
            await browser.open(address);
            await browser.run('choose(5)');
            await sleep(150);
            await fits(`${what} ${name}`);
            await browser.picture(join(folder, `${what}-${name}.png`));
        }
    }
    await clean('pictures');
    console.log(`pictured: ${views.length * addresses.length} in ${folder}, none wider than its screen`);
}

// docs/figures/replay.png
async function figured(url) {
    const [width, height] = [880, 780];
    await browser.look({width, height});
    await browser.send('Emulation.setScrollbarsHidden', {hidden: true});
    await browser.open(`${url}#step=23&whatif=1`);
    await browser.picture(join(folder, 'replay.png'), {x: 0, y: 0, width, height, scale: 0.8});
    await browser.send('Emulation.setScrollbarsHidden', {hidden: false});
}

// the script's share of a step, and what a frame costs while it plays; processor time, so that other programs don't count
async function timed(full) {
    await browser.look({width: 1280, height: 800});
    await browser.send('Performance.enable', {timeDomain: 'threadTicks'});
    await browser.open(`${full}#step=961`);
    const before = await spent('TaskDuration');
    const rounds = await browser.run(`(() => {
        let rounds = 0;
        while (rounds < 500) {
            go(position + 1);
            if (main.last().s) rounds++;
        }
        return rounds;
    })()`);
    const script = 1000 * (await spent('TaskDuration') - before) / rounds;
    console.log(`a round of a full 8 x 8 floor, its bookings included: ${script.toFixed(2)} ms of the page's thread`);
    const jump = await browser.run('{ go(0, false); const begun = performance.now(); go(length(), false); performance.now() - begun; }');
    console.log(`a jump over all ${await browser.run('length()')} steps: ${jump.toFixed(0)} ms`);
    for (const speed of [3, 5]) {
        await browser.run(`go(961, false), setSpeed(${speed})`);
        const before = await spent('TaskDuration');
        const frames = await browser.run(`new Promise(done => {
            play(true);
            let frames = 0;
            const end = performance.now() + 5000;
            const one = now => { frames++; if (now < end) requestAnimationFrame(one); else { play(false); done(frames); } };
            requestAnimationFrame(one);
        })`);
        const steps = await browser.run('SPEEDS[speed]');
        const each = 1000 * (await spent('TaskDuration') - before) / frames;
        console.log(`playing ${steps} steps a second: ${frames / 5} frames a second, of each ${each.toFixed(1)} ms of the page's thread`);
    }
}

async function spent(what) {
    const {metrics} = await browser.send('Performance.getMetrics');
    return metrics.find(({name}) => name === what).value;
}

async function nothing(url) {
    await browser.open(url);
    for (const key of ['ArrowRight', ' ', 'n', 'p', 'End', 'w']) await browser.press(key);
    assert.equal(await at(), 0);
    assert.equal(await browser.run(`element('answer').textContent`), 'before the first call');
    await clean('an empty list');
}

async function hostile(url) {
    await browser.open(`${url}#step=2`);
    assert.equal(await browser.run('document.title'), 'hostile.txt: replay');
    await browser.press('End');
    assert.match(await browser.run(`element('list').textContent`), /<img src=x onerror=alert\(2\)>/);
    await clean('a hostile list');
    console.log('hostile: texts are texts');
}

try {
    const day = page('day', DAY, '--what-if', 'stop 6', '--at', '12');
    const full = page('busy', busy());
    await browser.look({width: 1280, height: 800, still: true});
    await stepped(day, DAY, 16);
    await controlled(day);
    await touched(day);
    await nothing(page('empty', ''));
    await hostile(page('hostile', HOSTILE));
    await pictured(day, full);
    await figured(day);
    await timed(full);
} finally {
    await browser.stop();
}
