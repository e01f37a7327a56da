// Bundles a module and those that it imports into one classic script, for a worker from a blob:
// URL. It knows only the forms of imports and exports that this package uses, and refuses others.
import { readFileSync } from "node:fs";
import { dirname, resolve } from "node:path";

const IMPORT = /^import (?:\{([^}]*)\}|\* as (\w+)) from "([^"]+)";$/gm;
const EXPORT = /^export (?=(?:async )?(?:function\*?|class|const) (\w+))/gm;
const LIST = /^export \{([^}]*)\};$/gm;

const namesIn = (list) => list.split(",").map((name) => name.trim()).filter((name) => name !== "");

/**
 * The script of the module in this file. The modules that leftOut names export nothing in it.
 */
export function bundle(file, leftOut = []) {
  const numbers = new Map();
  const parts = [];
  const add = (path) => {
    if (numbers.has(path)) return numbers.get(path);
    const exported = [];
    const source = leftOut.includes(path) ? "" : readFileSync(path, "utf8");
    const text = source
      .replace(IMPORT, (_, list, whole, from) => {
        const number = add(resolve(dirname(path), from));
        return `const ${whole ?? `{ ${namesIn(list).join(", ")} }`} = module${number};`;
      })
      .replace(EXPORT, (_, name) => {
        exported.push(name);
        return "";
      })
      .replace(LIST, (_, list) => {
        exported.push(...namesIn(list));
        return "";
      })
      .replaceAll("import.meta.url", "location.href");
    const lists = [...source.matchAll(IMPORT), ...source.matchAll(LIST)].map(([, list]) => list);
    if (/^\s*(import|export)\b(?!\()|\bimport\.meta/m.test(text) ||
        lists.some((list) => /\bas\b/.test(list))) {
      throw new Error(`bundle: an unknown form in ${path}`);
    }
    const number = numbers.size;
    numbers.set(path, number);
    const names = exported.join(", ");
    parts.push(`const module${number} = (() => {\n${text}\nreturn { ${names} };\n})();\n`);
    return number;
  };
  add(resolve(file));
  return `"use strict";\n${parts.join("")}`;
}

/** The same script without comments that have lines of their own, indentation and empty lines. */
export function stripCommentsAndIndentation(script) {
  return script.replace(/^ *\/\*\*?[^]*?\*\/$|^ *\/\/.*$/gm, "").replace(/^\s+/gm, "");
}
