// What the page holds as a part of an address: JSON, deflated, in base 64 for addresses.
const MOST = 64000, MOST_UNPACKED = 4000000;

const through = (bytes, stream) => new Response(new Blob([bytes]).stream().pipeThrough(stream)).arrayBuffer().then(buffer =>
  new Uint8Array(buffer));

/** `s=…`, or null where that is too long for an address. */
export async function pack(what) {
  const packed = await through(new TextEncoder().encode(JSON.stringify(what)), new CompressionStream('deflate-raw'));
  if (packed.length > MOST) return null;
  let text = '';
  for (const byte of packed) text += String.fromCharCode(byte);
  return `s=${btoa(text).replace(/\+/g, '-').replace(/\//g, '_').replace(/=+$/, '')}`;
}

/** What was packed, or null where it is nothing that was. */
export async function unpack(text) {
  try {
    const bytes = Uint8Array.from(atob(text.replace(/-/g, '+').replace(/_/g, '/')), c => c.charCodeAt(0));
    const reader = new Blob([bytes]).stream().pipeThrough(new DecompressionStream('deflate-raw')).getReader(), parts = [];
    for (let length = 0, part = await reader.read(); !part.done; part = await reader.read()) {
      parts.push(part.value);
      if ((length += part.value.length) > MOST_UNPACKED) return null;
    }
    const what = JSON.parse(await new Blob(parts).text());
    return typeof what === 'object' ? what : null;
  } catch { return null; }
}
