let found = "</script><script>document.title = 'taken'</script>";
while (another("<img src=x onerror='document.title=1'>")) {  // ' " & < >
  const pair = "é…𝒳"; /* <!-- */
  return `</style></pre></title><h1>${pair}</h1>`;
}
