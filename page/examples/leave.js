loop: while (more()) {
  switch (next()) {
    case END:
      break loop;
    case SPACE:
      break;
    default:
      keep();
  }
}
return kept;
