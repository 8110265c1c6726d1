function Kerning({ pair, table }) {
  const found = table?.get(pair) ?? fallback(pair);
  const label = found > 0 && isShown ? 'wide' : 'narrow';
  for (const glyph of pair) {
    if (!glyph) continue;
    draw(glyph, found || 0);
  }
  try {
    save(label);
  } catch (error) {
    report(error);
  }
  return label;
}
