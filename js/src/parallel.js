// Incremental hashes of BLAKE2bp and BLAKE2sp.
import { Hasher } from "./hashers.js";
import { BLAKE2BP, BLAKE2SP } from "./whole_module.js";

export class Blake2bp extends Hasher {
  constructor(options) {
    super(BLAKE2BP, "Blake2bp", options, arguments.length - 1);
  }
}

export class Blake2sp extends Hasher {
  constructor(options) {
    super(BLAKE2SP, "Blake2sp", options, arguments.length - 1);
  }
}
