// The root of a tree of two levels, incrementally.
import { Hasher } from "./hashers.js";
import { TREE } from "./whole_module.js";

export class TreeHash extends Hasher {
  constructor(options) {
    super(TREE, "TreeHash", options, arguments.length - 1);
  }
}
