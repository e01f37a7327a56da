// The tests of browsers and bundlers, in one process, which starts Chromium once.
import "./browsers.test.mjs";
import "./bundlers.test.mjs";
import "./demo.test.mjs";
