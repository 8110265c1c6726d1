do {
  connect();
  if (isReady()) {
    break;
  }
  attempts++;
} while (attempts < most);
if (!isReady()) {
  throw new Error('no answer');
}
read: {
  const first = next();
  if (first === END) {
    break read;
  }
  keep(first);
}
return result();
