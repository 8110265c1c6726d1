// node page/make.mjs FILE: the live page in one file, of this folder and of the package in target/js/package. esbuild and acorn are
// Debian's.
import { execFileSync } from 'node:child_process';
import { createHash } from 'node:crypto';
import { readFileSync, writeFileSync } from 'node:fs';
import { fileURLToPath } from 'node:url';
import { data } from './data.mjs';

const here = name => readFileSync(new URL(name, import.meta.url), 'utf8'), example = name => here(`../examples/${name}`);
const examples = {
  'Rows, columns, a switch': { source: here('examples/rows.js') },
  'A break out of a switch': { source: here('examples/leave.js') },
  'Retry: do, throw, a label': { source: here('examples/retry.js'), values: false },
  'Values and a try': { source: here('examples/values.js') },
  'Kerning search, a table': { table: example('search.txt'), source: example('search.js'),
    answers: example('search.answers').split('\n').slice(1, -1).map(Number) },
  ...Object.fromEntries(['while', 'switch', 'component'].map(name => [`${name}.txt, a table`, { table: example(`${name}.txt`) }])),
};

const acorn = '/usr/share/nodejs/acorn/';
const bundle = execFileSync('esbuild', ['--bundle', '--minify', '--charset=utf8', '--format=iife', '--target=es2022',
  '--legal-comments=none', fileURLToPath(new URL('app.js', import.meta.url))],
  { encoding: 'utf8', env: { ...process.env, NODE_PATH: '/usr/share/nodejs' }, maxBuffer: 1 << 26 });
const { version } = JSON.parse(readFileSync(`${acorn}package.json`, 'utf8'));
const licences = ['/*! build_reactive_function, proved:', here('../LICENSE'), 'The Rust that was translated:', here('../NOTICE'),
  `acorn ${version}, the parser of JavaScript:`,
  here('acorn-licence.txt'), '*/\n'].join('\n');
const script = `'use strict';\n${licences}${bundle.replace(/<\/script/gi, '<\\/script').replace(/<!--/g, '<\\!--')}`,
  style = here('page.css');
const sum = text => `'sha256-${createHash('sha256').update(text).digest('base64')}'`;
const policy = [`default-src 'none'; style-src ${sum(style)}; script-src ${sum(script)} 'wasm-unsafe-eval'`,
  "base-uri 'none'; form-action 'none'; require-trusted-types-for 'script'"].join('; ');
const parts = { POLICY: policy, STYLE: style, SCRIPT: script, EXAMPLES: data(examples) };
writeFileSync(process.argv[2], here('page.html').replace(/@([A-Z]+)@/g, (_, name) => parts[name]));
