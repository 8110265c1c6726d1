// node page/test/picture.mjs FILE: the page's picture for README: a run at its step before the last.
import { pathToFileURL } from 'node:url';
import { Browser } from './browser.mjs';

const browser = await Browser.start();
await browser.size(1440, 860);
await browser.media('screen', { 'prefers-color-scheme': 'light' });
await browser.open(`${pathToFileURL('target/js/page.html').href}#example=Rows,%20columns,%20a%20switch`);
for (const answer of [1, 1, 2, 1]) await browser.click(`[data-answer="${answer}"]`);
await browser.click('[data-step="back"]');
await browser.picture(process.argv[2]);
await browser.end();
