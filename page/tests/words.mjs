// The words of a command of node.

/** The words, which `fits` says of whether they are the command's. `usage` is printed where --help is one, or they are not. */
export function takeWords(usage, fits) {
  const given = process.argv.slice(2);
  if (given.includes("--help") || given.includes("-h")) {
    console.log(`usage: ${usage}`);
    process.exit(0);
  }
  if (fits(given)) return given;
  console.error(`usage: ${usage}\nnot taken: ${given.join(" ") || "no words"}`);
  process.exit(2);
}
