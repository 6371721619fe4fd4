// The proved program in a folder of its own, where its files are.
import fs from "node:fs";
import os from "node:os";
import path from "node:path";
import { execFileSync } from "node:child_process";

export class Program {
  constructor(program) {
    this.program = path.resolve(program);
    this.folder = fs.mkdtempSync(path.join(os.tmpdir(), "ssz-compare-"));
  }

  put(files) {
    for (const [name, content] of Object.entries(files)) fs.writeFileSync(path.join(this.folder, name), content);
  }

  /** What it prints, with files of these contents beside it. */
  run(words, files = {}) {
    this.put(files);
    const how = { cwd: this.folder, encoding: "utf8", stdio: ["ignore", "pipe", "inherit"], maxBuffer: 1 << 29 };
    try {
      return execFileSync(this.program, words, how);
    } catch (why) {
      return why.stdout;
    }
  }

  /** The replies to the lines of a script. */
  script(schema, lines) {
    return this.run(["run", schema, "script"], { script: `${lines.join("\n")}\n` }).split("\n");
  }

  end() {
    fs.rmSync(this.folder, { recursive: true });
  }
}
