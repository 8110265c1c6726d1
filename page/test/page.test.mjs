// The live page in a real browser: what a person does with it, and no error in the console. `PICTURES=FOLDER` keeps pictures of it.
import assert from 'node:assert/strict';
import { execFileSync } from 'node:child_process';
import { mkdtempSync, readFileSync, rmSync, writeFileSync } from 'node:fs';
import { tmpdir } from 'node:os';
import { join } from 'node:path';
import test, { after, before, beforeEach } from 'node:test';
import { fileURLToPath, pathToFileURL } from 'node:url';
import { Browser } from './browser.mjs';
import { nests } from './nests.mjs';

const top = fileURLToPath(new URL('../..', import.meta.url)), page = pathToFileURL(join(top, 'target/js/page.html')).href,
  read = name => readFileSync(join(top, name), 'utf8');
const folder = process.env.PICTURES ?? mkdtempSync(join(tmpdir(), 'page-')), picture = name => process.env.PICTURES
  && browser.picture(join(folder, `${name}.png`));
let browser;
before(async () => { browser = await Browser.start(); });
after(async () => {
  await browser.end();
  if (!process.env.PICTURES) rmSync(folder, { recursive: true });
});
beforeEach(async () => {
  await browser.size(1440, 860);
  await browser.media('screen', { 'prefers-color-scheme': 'light' });
});
/** A test, after which the console must be quiet. */
const check = (name, run) => test(name, async () => {
  browser.errors = [];
  await run();
  assert.deepEqual(browser.errors, []);
});

const js = expression => browser.evaluate(expression),
  text = selector => js(`document.querySelector(${JSON.stringify(selector)})?.innerText ?? null`);
const list = selector =>
  js(`[...document.querySelectorAll(${JSON.stringify(selector)})].map(e => e.dataset.r ?? e.dataset.b ?? e.textContent).join(' ')`);
const example = (name, more = '') => browser.open(`${page}#example=${encodeURIComponent(name)}${more}`);
/** The text of an editor is replaced, as by a paste. */
const paste = (id, value) => {
  const set = `a.value = ${JSON.stringify(value)}; a.dispatchEvent(new Event('input'));`;
  return js(`(() => { const a = document.querySelector('#${id} textarea'); ${set} })()`);
};
/** The lines of the code, indented. */
const indented = "' '.repeat(parseInt(e.style.paddingLeft) || 0) + e.textContent";
const codeLines = `[...document.querySelectorAll('#code .w')].map(e => ${indented}).join('\\n')`;
/** A file of the command that fills the page. */
const view = (...files) => {
  const file = join(folder, `view-${files.length}-${files[0].replace(/\W/g, '-')}.html`);
  let status = 0;
  try { writeFileSync(file, execFileSync(process.execPath, [join(top, 'page/fill.mjs'), ...files.flatMap(name => [name, name])],
    { cwd: top, stdio: ['ignore', 'pipe', 'ignore'] })); } catch (error) {
    writeFileSync(file, error.stdout);
    ({ status } = error);
  }
  return { url: pathToFileURL(file).href, status };
};
const SWITCH = 'Rows, columns, a switch', SEARCH = 'Kerning search, a table', VALUES = 'Values and a try';

check('it opens with an example, its tree and its question', async () => {
  await browser.open(page);
  assert.equal(await js('document.title'), SWITCH);
  assert.match(await text('#told'),
    /^Accepted\. 15 blocks and 13 instructions became 46 rows with 4 labels\. Proved, with loops and switches: this tree runs as/);
  assert.equal(await js('document.querySelectorAll("#tree li").length'), 46);
  assert.equal(await js('document.querySelectorAll(".drawing .block").length'), 15);
  assert.match(await text('#asks'), /^FOR of row 41 asks\s+row < rowCount\s+yes\s*no$/);
  await picture('opened');
});

check('the code is what would be printed', async () => {
  await example(SWITCH);
  await browser.click('#tab-code');
  const lines = await js(codeLines);
  assert.equal(lines, read('page/examples/rows.js').trimEnd().replace('rows: for', 'L5: for').replace('switch',
    'L12: switch').replace('break;', 'break L12;').replace('continue rows', 'continue L5').replace('break rows', 'break L5'));
  await picture('code');
});

check('a run by buttons and keys', async () => {
  await example(SWITCH);
  for (const [choice, asks] of [[1, /^WHILE of row 38 asks/],
    [1, /^SWITCH of row 33 asks\s+glyphClass\(row, column\)\s+SPACE\s*END\s*default$/], [2, /^IF of row 23 asks/], [1, /^It returns\.$/]]) {
    await browser.click(`[data-answer="${choice}"]`);
    assert.match(await text('#asks'), asks);
  }
  assert.match(await text('#said'), /^Step 15 of 15: instruction 5\s+best$/);
  assert.equal(await list('#answers button'), '1 1 2 1');
  assert.equal(await js('[...document.querySelectorAll(".edge.taken title")].map(e => e.textContent).sort().join()'),
    '0 to 1: init,1 to 2: block,11 to 13: consequent,13 to 5: block,2 to 4: consequent,4 to 6: test,6 to 7: consequent,7 to 11: default');
  await browser.key('ArrowLeft', 37);
  assert.match(await text('#said'), /^Step 14 of 15/);
  assert.equal(await list('#tree li.now'), '19');
  assert.equal(await list('.block.now'), '13');
  await picture('run');
  await browser.click('[data-forget="2"]');
  assert.match(await text('#asks'), /^SWITCH/);
  await browser.key('1', 49);
  assert.match(await text('#asks'), /^FOR/);
  await browser.key('n', 78);
  assert.match(await text('#asks'), /^It returns/);
  await browser.click('[data-step="first"]');
  assert.match(await text('#said'), /^Before the first of/);
  assert.equal(await js('document.querySelector(\'[data-step="back"]\').disabled'), true);
});

check('keys of a source: refused by the parser, then accepted again', async () => {
  await example(SWITCH);
  await browser.click('#source textarea');
  await js('document.querySelector("#source textarea").setSelectionRange(99999, 99999)');
  await browser.type('if (');
  assert.match(await text('#told'),
    /^Source, line 20, column 5: Unexpected token\. The table is that of the last source that could be read\.$/);
  assert.ok(await js('document.querySelector("#graph .view").classList.contains("stale")'));
  assert.ok(await js('document.querySelectorAll("#source .bad").length'));
  await picture('typing');
  await browser.type('x) y();');
  assert.match(await text('#told'), /^Accepted\./);
  assert.equal(await js('document.querySelectorAll(".stale").length'), 0);
  await paste('source', 'while (a) { finally }');
  assert.match(await text('#told'), /^Source, line 1/);
  await paste('source', 'try { a(); } finally { b(); }');
  assert.match(await text('#told'), /finally is not lowered/);
  await paste('source', 'break;');
  assert.match(await text('#told'), /^Source, line 1, column 1:/);
  await paste('source', `x = ${'('.repeat(30000)}1${')'.repeat(30000)}`);
  assert.match(await text('#told'), /nested too deep/);
  await paste('source', `${'f();'.repeat(5000)}`);
  assert.match(await text('#told'), /too large/);
});

check('a refusal has its sentence, its advice and its place', async () => {
  await example(SEARCH);
  const table = read('examples/search.txt');
  await paste('table', table.replace('4 1 4 5 0 ', '4 1 4 4 0 '));
  await paste('table', table.replace('4 1 4 5 0 ', '4 1 4 2 0 '));
  assert.match(await text('#told'),
    /^Refused with 20 at block 2: No open statement ends where a break goes\. .*Let the Break name the fallthrough of/);
  assert.equal(await list('.block.refused'), '2');
  assert.ok(await js('document.querySelector("#tree").classList.contains("stale")'));
  assert.equal(await js('document.querySelector("#table .bad").textContent'), '2 2 5 3 3 4 4 0 7 66 126');
  await picture('refused');
  await paste('table', table.replace('0 1 9 1 2 5', '0 1 99 1 2 5'));
  assert.match(await text('#told'), /^Refused with 4 at word 8:/);
  assert.equal(await js('document.querySelector("#table .bad").textContent'), '99');
  await paste('table', table.replace('0 1 9 1', '0 1  9 1'));
  assert.match(await text('#told'), /^Refused with 50 at byte 105: .*Line 4, column 5\./);
  await paste('table', table.slice(0, 40));
  assert.match(await text('#told'), /the end of the text/);
  await paste('table', table);
  assert.match(await text('#told'), /^Accepted/);
});

check('a label is looked up, a row and a block select each other', async () => {
  await example(SEARCH);
  await browser.point('#tree li[data-r="4"] b');
  assert.equal(await list('.block.hot'), '2');
  assert.equal(await js('[...document.querySelectorAll("#source pre .hot")].map(e => e.textContent).join("|")'),
    'const pair = next(pairs);');
  await browser.click('.drawing [data-b="3"]');
  assert.equal(await list('#tree li.on, #tree li.hot'), '8 7 9');
  await browser.click('#tree li[data-r="14"] .label');
  assert.equal(await text('#only'), 'Statement 5: 13 rows');
  assert.equal(await js('document.querySelectorAll("#tree li").length'), 13);
  await browser.key('Escape', 27);
  assert.equal(await js('document.querySelectorAll("#tree li").length'), 19);
  await browser.click('#tree li[data-r="9"] .label');
  assert.equal(await text('#only'), 'Statement 5: 13 rows');
  await browser.click('#all');
  await js('document.querySelector("#tree").focus()');
  await browser.key('Escape', 27);
  for (let k = 0; k < 4; k++) await browser.key('ArrowDown', 40);
  assert.equal(await list('#tree li.on'), '14');
  assert.equal(await js('document.querySelector("#tree").getAttribute("aria-activedescendant")'), 'row-14');
  await browser.key('Enter', 13);
  assert.equal(await js('document.querySelectorAll("#tree li").length'), 13);
  await browser.key('Escape', 27);
  await js('document.querySelector("#source textarea").setSelectionRange(72, 72)');
  await js('document.querySelector("#source textarea").dispatchEvent(new Event("click", { bubbles: true }))');
  assert.equal(await list('#tree li.on'), '6 5');
});

check('an arrow crosses as many loops as its row says', async () => {
  for (const name of [SWITCH, SEARCH, 'component.txt, a table', 'switch.txt, a table']) {
    await example(name);
    const said = [...(await text('#tree')).matchAll(/over (\d+) loop/g)].reduce((sum, [, n]) => sum + Number(n), 0);
    const paths = await js('[...document.querySelectorAll(".ways [data-way] path:first-child")].map(path => path.getAttribute("d"))');
    assert.equal(paths.reduce((sum, d) => sum + d.split('a.26').length - 1, 0), said);
  }
});

check('both rules, the law, walking order', async () => {
  await example('switch.txt, a table');
  assert.match(await text('#told'), /By the Rust’s rule 1 row is another\.$/);
  assert.equal(await list('li.parted'), '1');
  await js('document.querySelector("[name=rule][value=build]").click()');
  assert.match(await text('#told'), /By JavaScript’s rule 1 row is another\.$/);
  await paste('table', read('examples/while.txt'));
  assert.match(await text('#told'), /Proved: this tree runs as the blocks do\. By JavaScript’s rule it is the same\.$/);
  const before = await js('document.querySelector("#table textarea").value');
  await paste('table', before.replace(/^0 (\d+ \d+ \d+ \d+ \d+)$/m, '0 $1'));
  await browser.click('#order');
  assert.match(await text('#told'), /^Accepted/);
});

check('the break out of a switch, by both rules', async () => {
  await example('A break out of a switch');
  await browser.click('#tab-code');
  const marked = () => js('[...document.querySelectorAll("#code li.parted .w")].map(e => e.textContent).join("|")');
  assert.equal(await marked(), 'break L3;');
  await browser.click('[name=rule][value=build] + span');
  assert.equal(await marked(), 'break;');
});

check('a text of the old form is brought into today’s', async () => {
  await browser.open(page);
  assert.equal(await js('document.querySelector("#old").hidden'), true);
  const lines = ['entry blocks instructions cases places identifiers', '0 1 0 0 1 1', 'first count code a b c d e id span',
    '0 0 3 0 0 0 0 0 7 0'];
  await paste('table', [...lines, 'id lvalue code p q span', 'test block', 'identifier', '0', 'named', '1', ''].join('\n'));
  assert.match(await text('#told'), /^Refused with 50/);
  await browser.click('#old');
  assert.match(await text('#told'), /^Accepted\. 1 block and 0 instructions became 2 rows/);
  assert.equal(await js('document.querySelector("#old").hidden'), true);
  await paste('table', '');
  assert.equal(await text('#told'), 'Type a small JavaScript, or paste a table.');
});

check('values: a tree with them is not run, and can be made without them', async () => {
  await example(VALUES);
  assert.match(await text('#tree'), /LOGICAL/);
  assert.match(await text('#tree'), /OPTIONAL/);
  assert.match(await text('#tree'), /COND/);
  assert.match(await text('#asks'), /^This tree is not run\. Row \d+ is \w+, which the runner leaves out\./);
  await paste('source', 'const x = a && b ? c : d?.e ?? f;\nif (x) g();');
  await browser.click('#tab-code');
  assert.equal(await js('[...document.querySelectorAll("#code .w")].map(e => e.textContent).join("\\n")'),
    'const x = a && b ? c : d?.e ?? f;\nif (x) {\ng();\n}\nreturn i11;'.replace(/i11/,
      await js('document.querySelector("#code li:last-child .w").textContent.slice(7, -1)')));
  await browser.click('#whole');
  assert.match(await text('#asks'), /^IF of row \d+ asks\s+x/);
});

check('all of it is in the address', async () => {
  await example(SEARCH);
  await browser.click('[data-forget="3"]');
  await js('document.querySelector("[name=rule][value=build]").click()');
  await browser.click('#tab-code');
  await browser.click('[data-step="first"]');
  await browser.click('[data-step="on"]');
  await browser.click('#link');
  await browser.until('/^#s=/.test(location.hash) && document.querySelector("#link").textContent !== "Copy link"');
  const [address, table, said, answers] = [await js('location.href'), await js('document.querySelector("#table textarea").value'),
    await text('#said'), await list('#answers button')];
  await browser.open(address);
  assert.equal(await js('document.querySelector("#table textarea").value'), table);
  assert.equal(await text('#said'), said);
  assert.equal(await list('#answers button'), answers);
  assert.equal(await js('document.querySelector("[name=rule]:checked").value'), 'build');
  assert.equal(await js('document.querySelector("#code").hidden'), false);
  for (const bad of ['s=', 's=%%%', 's=AAAA', 'example=none', 'step=x', `s=${'A'.repeat(2000)}`]) {
    await browser.open(`${page}#${bad}`);
    assert.equal(await js('document.title'), SWITCH);
  }
  await example(SEARCH, '&step=8');
  assert.match(await text('#said'), /^Step 8 of 13/);
});

check('the files of ./run view', async () => {
  const search = view('examples/search.txt', 'examples/search.js', 'examples/search.answers');
  assert.equal(search.status, 0);
  await browser.open(search.url);
  assert.equal(await js('document.title'), 'search.txt');
  assert.equal(await js('document.querySelector("#source textarea").value'), read('examples/search.js'));
  assert.equal(await list('#answers button'), '1 0 1 1 1 1 0');
  for (const [name, place] of [['4', '44'], ['15', null], ['50', null], ['short', null]]) {
    const refused = view(`viewer/cases/${name}.txt`);
    assert.equal(refused.status, 1);
    await browser.open(refused.url);
    assert.match(await text('#told'), /^Refused with/);
    if (place) assert.equal(await js('document.querySelector("#table .bad").textContent'), place);
  }
  const language = view('viewer/cases/29.txt');
  assert.equal(language.status, 0);
  await browser.open(language.url);
  assert.match(await text('#told'), /^Refused with 29/);
});

check('a hostile source, table and address do nothing', async () => {
  const elements = 'img, h1:not(header h1), iframe, object, base, form, link';
  const taken = `document.title !== 'markup.txt' || document.querySelectorAll('${elements}').length > 0 || document.scripts.length !== 3`;
  const { url } = view('viewer/cases/markup.txt', 'viewer/cases/markup.js', 'viewer/cases/markup.answers');
  await browser.open(url);
  assert.equal(await js(taken), false);
  assert.match(await text('#told'), /1 span of the table is not in this source\.$/);
  assert.match(await text('#tree'), /let found = "<\/script>/);
  await browser.click('#tab-code');
  assert.match(await text('#code'), /<\/script><script>/);
  const hostile = ['"</script><script>document.title=1</script><img src=x onerror=document.title=2>";',
    'while (`${"<h1>"}</textarea>`) { "<!--"; }', '\u202e\u0000'].join('\n');
  await paste('source', hostile);
  await js('document.querySelector("#lowers").click()');
  assert.equal(await js(taken), false);
  await paste('source', hostile.slice(0, -2));
  assert.equal(await js(taken), false);
  await paste('table', '<img src=x onerror="document.title=3">\n</script>');
  assert.equal(await js(taken), false);
  const policy = await js('document.querySelector("meta[http-equiv]").content');
  for (const part of ["default-src 'none'", "base-uri 'none'", "form-action 'none'", "require-trusted-types-for 'script'"])
    assert.ok(policy.includes(part));
  assert.ok(!policy.includes('unsafe-inline') && !policy.includes("'unsafe-eval'"));
  assert.equal(await js('(() => { try { document.body.innerHTML = "<b>"; return "markup"; } catch (error) { return error.name; } })()'),
    'TypeError');
  browser.errors = browser.errors.filter(error => !/TrustedHTML/.test(error)); // the line above
});

check('a thousand blocks', async () => {
  await browser.open(page);
  await paste('table', nests());
  assert.match(await text('#told'), /^Accepted\. 991 blocks and 0 instructions became 1,322 rows/);
  // in time of the page's own thread, since other programs may have the processors
  const spent = async () => (await browser.call('Performance.getMetrics')).metrics.find(({ name }) => name === 'TaskDuration').value,
    KEYS = 5;
  await browser.call('Performance.enable', { timeDomain: 'threadTicks' });
  const begun = await spent();
  for (let k = 0; k < KEYS; k++) {
    const change = `a.value = a.value.replace(/99\\d\\d/, '99${10 + k}'); a.dispatchEvent(new Event('input'));`;
    await js(`(() => { const a = document.querySelector('#table textarea'); ${change} document.body.offsetHeight; })()`);
  }
  const seconds = (await spent() - begun) / KEYS;
  console.log(`# a key at 991 blocks: ${(1000 * seconds).toFixed(0)} ms of its thread`);
  assert.ok(seconds < 0.3, String(seconds));
  assert.ok(await js('document.querySelectorAll("*").length') < 3000, 'what is seen is drawn, and no more');
  await picture('nests');
  await js('document.querySelector("#tree").scrollTop = 1e6');
  await browser.until('document.querySelector(\'#tree li[data-r="1320"]\')');
  await browser.click('#tree li[data-r="1320"] b');
  await browser.until('document.querySelector(\'.drawing [data-b="990"]\')');
  await js('document.querySelector("#tree").scrollTop = 0');
  await browser.until('document.querySelector(\'#tree li[data-r="119"] .label\')');
  await browser.click('#tree li[data-r="119"] .label');
  assert.match(await text('#only'), /120 rows$/);
  assert.equal(await js('document.querySelector(\'.ways [data-way="30"] path\').getAttribute("d").split("a.26").length - 1'), 29);
});

check('narrow, dark, and with large letters', async () => {
  await browser.size(400, 800);
  for (const name of [SWITCH, SEARCH, VALUES]) {
    await example(name);
    assert.equal(await js('document.documentElement.scrollWidth'), 400);
  }
  await picture('narrow');
  await browser.size(1440, 860);
  await browser.media('screen', { 'prefers-color-scheme': 'dark' });
  await example(SEARCH, '&step=8');
  assert.equal(await js('getComputedStyle(document.body).backgroundColor'), 'rgb(20, 23, 26)');
  await picture('dark');
  await js('document.documentElement.style.fontSize = "200%"');
  const rect = selector => `document.querySelector('${selector}').getBoundingClientRect()`;
  const [arrow, row] = [rect('.ways [data-way="9"] path'), rect('#tree li[data-r="9"]')];
  const aligned = `Math.abs(${arrow}.top - ${row}.top - ${row}.height / 2) < 5`;
  assert.ok(await js(aligned));
});

check('on paper: the graph and the code, and no empty page', async () => {
  await example(SEARCH, '&step=8');
  const pages = await browser.print(join(folder, 'search.pdf'));
  assert.ok(pages >= 1 && pages <= 2, String(pages));
  await browser.media('print');
  assert.equal(await js('[...document.querySelectorAll("button, textarea, input")].filter(e => e.getClientRects().length).length'), 0);
  assert.ok(await js('document.querySelector("#code").getClientRects().length'));
});

check('every example in every way, and many keys', async () => {
  const names = await js('[...document.querySelectorAll("#example option")].map(e => e.textContent).join("|")');
  for (const name of names.split('|')) {
    await example(name);
    for (const way of ['#tab-code', '#tab-tree', '[name=rule][value=build] + span', '#tab-code', '[name=rule][value=buildLanguage] + span',
      '#order']) await browser.click(way);
    assert.doesNotMatch(await text('#told'), /has failed/);
  }
  const failed = await js(`(async () => {
    let state = 99;
    const below = limit => { state ^= state << 13; state ^= state >>> 17; state ^= state << 5; return (state >>> 0) % limit; };
    const put = (id, change) => { const a = document.querySelector('#' + id + ' textarea'); a.value = change(a.value);
      a.dispatchEvent(new Event('input')); };
    const cut = text => { const at = below(text.length + 1); return [text.slice(0, at), text.slice(at + below(3))]; };
    const said = () => document.querySelector('#told').textContent;
    for (let k = 0; k < 250; k++) {
      if (k % 50 === 0) { const e = document.querySelector('#example'); e.selectedIndex = k / 50; e.dispatchEvent(new Event('change')); }
      if (k % 2) put('table', text => { const [a, b] = cut(text); return a + '0123456789 \\n'[below(12)] + b; });
      else put('source', text => { const [a, b] = cut(text);
        return a + ['{', '}', '(', ')', ';', ' x ', 'break;', '&&', 'if (a) ', '"', '?.'][below(11)] + b; });
      const buttons = [...document.querySelectorAll('[data-answer], [data-step], .label, [data-tab], [data-forget]')];
      buttons[below(buttons.length)]?.click();
      if (/has failed/.test(said())) return said() + ' at ' + k;
    }
    return '';
  })()`);
  assert.equal(failed, '');
});
