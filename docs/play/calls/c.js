/** The call in C that gives an answer. */

import { FILLS, RULES } from "../commands.js";
import { pointCount, noFigures } from "../drawing.js";

/** Arrays of the paths of a group, and its struct. */
function group(/** @type {string} */ name, /** @type {number[][][]} */ paths, type = "contours") {
  const count = paths.reduce((sum, path) => sum + path.length, 0);
  if (!count) return [`    const polyover_${type} ${name} = {NULL, 0, NULL, 0};`];
  let end = 0;
  const ends = paths.map((path) => (end += path.length));
  return [
    `    const int64_t ${name}_points[] = {`,
    ...paths.map((path) => `        ${path.flat().map(literal).join(", ")},`),
    "    };",
    `    const size_t ${name}_ends[] = {${ends.join(", ")}};`,
    `    const polyover_${type} ${name} = {${name}_points, ${2 * count}, ${name}_ends, ${ends.length}};`,
  ];
}

/** A number as C takes it in an array of 64 bits. */
const literal = (/** @type {number | bigint} */ value) =>
  Math.abs(Number(value)) > 2147483647 ? `INT64_C(${value})` : `${value}`;

/** The options of an overlay. */
function lookOf(/** @type {import("../commands.js").Asked} */ asked) {
  const words = [
    ...(asked.clockwise ? [".direction = 1"] : []),
    ...(asked.keep ? [".keep = 1"] : []),
    ...(asked.valid ? [] : [".touching = 1"]),
    ...(asked.solver === "rounds" ? [".solver = POLYOVER_ROUNDS"] : []),
    ...(asked.minimumArea ? [`.min_area_low = UINT64_C(${asked.minimumArea})`] : []),
  ];
  return `    const polyover_options options = {${words.join(", ") || "0"}};`;
}

function clipOptions(/** @type {import("../commands.js").Asked} */ asked) {
  const words = [
    ...(asked.invert ? [".invert = 1"] : []),
    ...(asked.boundary ? [".boundary = 1"] : []),
    ...(asked.solver === "rounds" ? [".solver = POLYOVER_ROUNDS"] : []),
  ];
  return `    const polyover_clip_options options = {${words.join(", ") || "0"}};`;
}

/** What prints the points of an answer. */
const PRINTED = [
  "    for (size_t at = 0; at < counts.coordinates; at += 2) {",
  '        printf("%lld %lld\\n", (long long)coordinates[at], (long long)coordinates[at + 1]);',
  "    }",
];

/** Room for shapes, a call that fills it, and what prints their points. */
const shapes = (/** @type {string} */ call, /** @type {number} */ room, links = "") => [
  `    int64_t coordinates[${2 * room}];`,
  `    size_t contour_ends[${room}], shape_ends[${room}]${links ? ", link_count" : ""};`,
  ...(links ? [`    polyover_link links[${room}];`] : []),
  "    polyover_counts counts;",
  `    polyover_status status = ${call},`,
  `        coordinates, ${2 * room}, contour_ends, ${room}, shape_ends, ${room},`,
  `        ${links}&counts${links && ", &link_count"});`,
  "    if (status != POLYOVER_OK) return 1;",
  ...PRINTED,
];

/** The lines that locate some points: in contours that are joined by exclusive or, or in a prepared shape. */
const located = (asked, /** @type {string} */ fill, /** @type {number} */ count) =>
  asked.fill === "evenodd"
    ? [
        "    size_t unresolved;",
        `    polyover_status status = polyover_locate(&subject, points, ${2 * count},`,
        `        locations, ${count}, &unresolved);`,
        "    if (status != POLYOVER_OK) return 1;",
      ]
    : [
        "    polyover_exact shape;",
        `    if (polyover_prepare_exact(${fill}, &subject, &shape) != POLYOVER_OK) return 1;`,
        `    polyover_status status = polyover_exact_locate(&shape, points, ${2 * count},`,
        `        locations, ${count});`,
        "    polyover_exact_free(&shape);",
        "    if (status != POLYOVER_OK) return 1;",
      ];

/** The begin of a call that tells relations. */
const related = (asked, /** @type {string} */ fill, /** @type {string} */ solver) =>
  asked.of === "contours" ? `polyover_relate_exact(${fill}` : `polyover_relate(${fill}, ${solver}`;

/** The lines of a program in C. */
export function cOf(/** @type {import("../state.js").Drawing} */ { figures, asked }) {
  const rule = RULES[asked.rule].c;
  const fill = FILLS[asked.fill].c;
  const solver = asked.solver === "rounds" ? "POLYOVER_ROUNDS" : "POLYOVER_SNAPPED";
  const room = 64 + 8 * pointCount({ ...noFigures(), ...figures });
  const both = [...group("subject", figures.subject), ...group("clip", figures.clip)];
  const lines = [...group("subject", figures.subject), ...group("lines", figures.line, "paths")];
  const of = (/** @type {string} */ words) => `polyover_${asked.command}(${words}`;
  const parts = {
    overlay: () => [...both, lookOf(asked), ...shapes(of(`${rule}, ${fill}, &options, &subject, &clip`), room)],
    hierarchy: () => [
      ...both,
      lookOf(asked),
      ...shapes(of(`${rule}, ${fill}, &options, &subject, &clip`), room, `links, ${room}, `),
    ],
    simplify: () => [
      ...group("subject", figures.subject),
      lookOf(asked),
      ...shapes(of(`${fill}, &options, &subject`), room),
    ],
    relate: () => [
      ...both,
      "    polyover_relations relations;",
      `    if (${related(asked, fill, solver)}, &subject, &clip, &relations) != POLYOVER_OK) return 1;`,
      '    printf("%u\\n", relations);',
    ],
    clip: () => [
      ...lines,
      clipOptions(asked),
      `    int64_t coordinates[${2 * room}];`,
      `    size_t path_ends[${room}];`,
      "    polyover_path_counts counts;",
      `    polyover_status status = ${of(`${fill}, &options, &subject, &lines`)},`,
      `        coordinates, ${2 * room}, path_ends, ${room}, &counts);`,
      "    if (status != POLYOVER_OK) return 1;",
      ...PRINTED,
    ],
    slice: () => [...lines, ...shapes(of(`${fill}, ${solver}, &subject, &lines`), room)],
    tiles: () => [
      ...group("subject", figures.subject),
      "    polyover_result result;",
      `    polyover_status status = polyover_tiles_result(${fill}, ${solver}, &subject,`,
      `        ${literal(asked.width)}, ${literal(asked.height)}, &result);`,
      "    if (status != POLYOVER_OK) return 1;",
      "    for (size_t at = 0; at < result.coordinate_count; at += 2) {",
      '        printf("%lld %lld\\n", (long long)result.coordinates[at], (long long)result.coordinates[at + 1]);',
      "    }",
      "    polyover_free(&result);",
    ],
    locate: () => [
      ...group("subject", figures.subject),
      `    const int64_t points[] = {${figures.point.flat(2).map(literal).join(", ") || "0"}};`,
      `    polyover_location locations[${figures.point.length || 1}];`,
      ...located(asked, fill, figures.point.length),
      `    for (size_t at = 0; at < ${figures.point.length}; at++) printf("%u\\n", locations[at]);`,
    ],
    edges: () => [
      ...both,
      `    int64_t coordinates[${4 * room}];`,
      `    uint8_t fills[${room}];`,
      "    size_t count;",
      `    polyover_status status = ${of(`${fill}, ${solver}, &subject, &clip,`)}`,
      `        coordinates, ${4 * room}, fills, ${room}, &count);`,
      "    if (status != POLYOVER_OK) return 1;",
      "    for (size_t at = 0; at < 4 * count; at += 4) {",
      '        printf("%lld %lld %lld %lld %u\\n", (long long)coordinates[at], (long long)coordinates[at + 1],',
      "            (long long)coordinates[at + 2], (long long)coordinates[at + 3], fills[at / 4]);",
      "    }",
    ],
  };
  const head = ["#include <stdio.h>", '#include "polyover.h"', "", "int main(void) {"];
  return [...head, ...parts[asked.command](), "    return 0;", "}", ""].join("\n");
}
