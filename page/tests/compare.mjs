// Compares a module with the proved program in node. At the first difference it says what was
// unlike, and exits with status 1.
import fs from "node:fs";
import path from "node:path";
import { compare } from "./comparing.mjs";
import { chosen } from "./chosen.mjs";
import { Program } from "./native.mjs";
import { takeWords } from "./words.mjs";

const [moduleFile, ssz, schemas, values = "60", seed = "7"] = takeWords(
  "compare.mjs MODULE SSZ SCHEMAS.json [VALUES [SEED]]: the schemas are page/out's",
  (given) => given.length >= 3 && given.length <= 5 && given.slice(0, 3).every((it) => fs.existsSync(it))
    && given.slice(3).every((it) => /^\d+$/.test(it)));
const here = path.dirname(new URL(import.meta.url).pathname), text = (name) => fs.readFileSync(name, "utf8");
const program = new Program(ssz);
try {
  const all = chosen(JSON.parse(text(schemas)), text(path.join(here, "forms.json")));
  console.log(await compare(fs.readFileSync(moduleFile), program, all, Number(values), Number(seed)));
} catch (why) {
  console.log(why.stack);
  process.exitCode = 1;
} finally {
  program.end();
}
