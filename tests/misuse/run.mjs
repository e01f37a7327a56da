// Runs the wrong uses of the tables for JavaScript. run.py passes them by standard input, and compares what this prints.
import { readFileSync } from "node:fs";
import { resolve } from "node:path";

const vulfsjor = await import(resolve(process.argv[2]));
const { given, rows } = JSON.parse(readFileSync(0, "utf8"));
const names = Object.keys(vulfsjor).join();
const outcomes = {};
for (const [place, code] of Object.entries(rows)) {
  try {
    const body = `return (async ({ ${names} }) => { ${given}\nreturn (${code}); })(all)`;
    const value = await new Function("all", "require", body)(vulfsjor, process.getBuiltinModule);
    outcomes[place] = typeof value === "boolean" ? (value ? "right" : "false") : String(value);
  } catch (error) {
    outcomes[place] = `${error.name}: ${error.message}`;
  }
}
console.log(JSON.stringify(outcomes));
