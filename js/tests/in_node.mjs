// The tests that need no browser, in one process, which starts and compiles the modules once.
import { readdirSync } from "node:fs";

const OTHERS = ["browsers.test.mjs", "bundlers.test.mjs", "demo.test.mjs"]; // in_browsers.mjs has them
for (const name of readdirSync(new URL(".", import.meta.url))) {
  if (name.endsWith(".test.mjs") && !OTHERS.includes(name)) await import(`./${name}`);
}
