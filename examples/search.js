let found;
while (another(pairs)) {
  const pair = next(pairs);
  if (matches(pair, glyph)) {
    found = pair;
    break;
  }
}
return found;
