/** Options: an object, whose members have known names. */

import { BadInput } from "./errors.js";
import { shown } from "./shown.js";

/** That options are an object, each member of which has one of some names. */
export function checkNames(options, names) {
  if (typeof options !== "object" || options === null || Array.isArray(options)) {
    throw new BadInput(`options: ${shown(options)} in the place of an object`);
  }
  for (const name of Object.keys(options)) {
    if (!names.includes(name)) {
      throw new BadInput(`unknown option ${shown(name)}: one of ${names.join(", ")}`);
    }
  }
}

/** The value of an option that is true or false. */
export function truth(name) {
  return (value) => {
    if (typeof value !== "boolean") {
      throw new BadInput(`${name}: ${shown(value)} is neither true nor false`);
    }
    return value;
  };
}
