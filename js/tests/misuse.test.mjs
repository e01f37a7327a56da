// The wrong uses of tests/misuse, by its runner.
import assert from "node:assert/strict";
import { spawnSync } from "node:child_process";
import { join } from "node:path";
import test from "node:test";
import { top } from "./common.mjs";

test("wrong uses", (context) => {
  const words = [join(top, "../tests/misuse/run.py"), "js", join(top, "index.js")];
  const { error, status, stdout, stderr } = spawnSync("python3", words, { encoding: "utf8" });
  if (error?.code === "ENOENT") return context.skip("no python3");
  assert.equal(status, 0, stdout + stderr);
});
