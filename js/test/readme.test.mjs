// The examples of README.md print what stands below them.
import assert from 'node:assert/strict';
import { execFileSync } from 'node:child_process';
import { mkdirSync, mkdtempSync, readFileSync, readdirSync, rmSync, writeFileSync } from 'node:fs';
import { tmpdir } from 'node:os';
import { join } from 'node:path';
import test from 'node:test';
import { fileURLToPath } from 'node:url';

const readme = readFileSync(new URL('../README.md', import.meta.url), 'utf8');
const examples = [...readme.matchAll(/```js\n([^`]*(?:`[^`\n]+`[^`]*)*)```\n\nprints\n\n```text\n([\s\S]*?)```/g)];

test('README.md has three examples', () => assert.equal(examples.length, 3));
examples.forEach(([, code, printed], k) => test(`example ${k + 1}`, () => {
  const folder = mkdtempSync(join(tmpdir(), 'reactive-'));
  try { // a user's project, in which the tarball is installed
    const installed = join(folder, 'node_modules/reactive-build'), made = fileURLToPath(new URL('../../target/js/', import.meta.url));
    mkdirSync(installed, { recursive: true });
    execFileSync('tar', ['-xzf', join(made, readdirSync(made).find(name => name.endsWith('.tgz'))), '-C', installed,
      '--strip-components=1']);
    writeFileSync(join(folder, 'example.mjs'), code);
    assert.equal(execFileSync(process.execPath, ['example.mjs'], { cwd: folder, encoding: 'utf8' }), printed);
  } finally { rmSync(folder, { recursive: true }); }
}));
