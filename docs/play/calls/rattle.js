/** The call in Rattle that gives an answer. */

import { FILLS, RULES } from "../commands.js";

/** A list of points. */
const points = (/** @type {number[][]} */ path) =>
  `[${path.map(([x, y]) => `IntPoint::new(${x}, ${y})`).join(", ")}]`;

const solverOf = (asked) => (asked.solver === "rounds" ? "Solver::ABSOLUTE" : "Solver::SNAPPED");
const predicatesOf = (asked) => (asked.of === "contours" ? "ExactPredicates" : "PredicateOverlay");
const fillOf = (asked) => `FillRule::${FILLS[asked.fill].program}`;
const ruleOf = (asked) => `OverlayRule::${RULES[asked.rule].program}`;

/** A line for each contour, which adds it to a builder. */
const added = (figures, kinds) =>
  kinds.flatMap((kind) => {
    const type = kind === "clip" ? "ShapeType::Clip" : "ShapeType::Subject";
    return figures[kind].map((path) => `overlay.add_contour(&${points(path)}, ${type})?;`);
  });

/** The options of an overlay. */
function lookOf(/** @type {import("../commands.js").Asked} */ asked) {
  const fields = [
    ...(asked.clockwise ? ["output_direction: ContourDirection::Clockwise,"] : []),
    ...(asked.keep ? ["preserve_output_collinear: true,"] : []),
    ...(asked.minimumArea ? [`min_output_area: ${asked.minimumArea},`] : []),
    ...(asked.valid && (asked.clockwise || asked.keep || asked.minimumArea) ? ["ogc: true,"] : []),
  ];
  const start = asked.valid ? "IntOverlayOptions::ogc()" : "IntOverlayOptions::default()";
  if (!fields.length) return [`let options = ${start};`];
  const lines = [...fields, "..IntOverlayOptions::default()"].map((field) => `    ${field}`);
  return ["let options = IntOverlayOptions {", ...lines, "};"];
}

const builder = (figures, asked, kinds, options) => [
  ...options,
  `let mut overlay = Overlay::<i64, Global>::new_custom(alloc, 16, options, ${solverOf(asked)})?;`,
  ...added(figures, kinds),
];

const strings = (figures) => [
  "let mut overlay = StringOverlay::<i64, Global>::new(alloc, 16)?;",
  ...figures.subject.map((path) => `overlay.add_shape_contour(&${points(path)})?;`),
  ...figures.line.map((path) => `overlay.add_string_path(&${points(path)})?;`),
];

/** The lines that make a list of contours under a name. */
const listed = (/** @type {string} */ name, /** @type {number[][][]} */ paths) => [
  `let mut ${name} = Vec::new(alloc);`,
  ...paths.flatMap((path) => [
    "let mut contour = Vec::new(alloc);",
    ...path.map(([x, y]) => `contour.push(IntPoint::new(${x}, ${y}))?;`),
    `${name}.push(contour)?;`,
  ]),
];

/** The lines that locate points in a list of contours that are joined by exclusive or. */
const located = (figures) => [
  `let points: [IntPoint<i64>; ${figures.point.length}] = ${points(figures.point.flat())};`,
  "shape.locate_points(alloc, &points)",
];

/** The lines that locate points in a prepared shape. */
const preparedLocated = (figures, asked) => [
  `let prepared = ExactShape::new(alloc, &shape, ${fillOf(asked)})?;`,
  "let mut places = Vec::new(alloc);",
  ...figures.point.map(([point]) => `places.push(prepared.locate(${points([point]).slice(1, -1)}))?;`),
  "Ok(places)",
];

const PLAIN = ["let options = IntOverlayOptions::default();"];
const SHAPES = "IntShapes<i64, Global>";

/** Of each command: what it answers, what it uses, and its lines. */
const PARTS = {
  overlay: (figures, asked) => ({
    answers: SHAPES,
    lines: [
      ...builder(figures, asked, ["subject", "clip"], lookOf(asked)),
      `overlay.overlay(${ruleOf(asked)}, ${fillOf(asked)})`,
    ],
  }),
  hierarchy: (figures, asked) => ({
    answers: "FlatShapeHierarchy<i64, Global>",
    lines: [
      ...builder(figures, asked, ["subject", "clip"], lookOf(asked)),
      `overlay.overlay_hierarchy(${ruleOf(asked)}, ${fillOf(asked)})`,
    ],
  }),
  simplify: (figures, asked) => ({
    answers: SHAPES,
    lines: [
      ...listed("contours", figures.subject),
      ...lookOf(asked),
      `let mut overlay = Overlay::<i64, Global>::new_custom(alloc, 16, options, ${solverOf(asked)})?;`,
      `overlay.simplify_source(&contours, ${fillOf(asked)})`,
    ],
  }),
  relate: (figures, asked) => ({
    answers: "Relations",
    lines: [
      `let mut overlay = ${predicatesOf(asked)}::<i64, Global>::new(alloc, 16)?;`,
      `overlay.fill_rule = ${fillOf(asked)};`,
      ...(asked.of === "contours" ? [] : [`overlay.solver = ${solverOf(asked)};`]),
      ...added(figures, ["subject", "clip"]),
      "overlay.relations()",
    ],
  }),
  clip: (figures, asked) => ({
    answers: "Vec<IntPath<i64, Global>, Global>",
    lines: [
      ...strings(figures),
      `let rule = ClipRule { invert: ${asked.invert}, boundary_included: ${asked.boundary} };`,
      `overlay.clip_string_lines_with_solver(${fillOf(asked)}, rule, ${solverOf(asked)})`,
    ],
  }),
  slice: (figures, asked) => ({
    answers: SHAPES,
    lines: [
      ...strings(figures),
      `let view = overlay.build_graph_view_with_solver(${fillOf(asked)}, ${solverOf(asked)})?;`,
      "match view {",
      "    Some(graph) => graph.extract_shapes(StringRule::Slice),",
      "    None => Ok(Vec::new(alloc)),",
      "}",
    ],
  }),
  tiles: (figures, asked) => ({
    answers: SHAPES,
    lines: [
      ...listed("shape", figures.subject),
      `let grid = Grid { width: ${asked.width}, height: ${asked.height} };`,
      "// (a cell of at least 1 by 1, and at most 1,000 lines in each direction: `grid_fits` tells)",
      `slice_by_grid_with_solver(alloc, &shape, grid, ${fillOf(asked)}, ${solverOf(asked)})`,
    ],
  }),
  locate: (figures, asked) => ({
    answers: "Vec<PointLocation, Global>",
    lines: [
      ...listed("shape", figures.subject),
      ...(asked.fill === "evenodd" ? located(figures) : preparedLocated(figures, asked)),
    ],
  }),
  edges: (figures, asked) => ({
    answers: "Vec<DataVectorEdge<i64, ()>, Global>",
    lines: [
      ...builder(figures, asked, ["subject", "clip"], PLAIN),
      `overlay.build_separate_vectors(${fillOf(asked)})`,
    ],
  }),
};

/** Where each name is found. */
const PATHS = {
  ClipRule: "i_overlay::string::clip::ClipRule",
  ContourDirection: "i_overlay::overlay::ContourDirection",
  DataVectorEdge: "i_overlay::vector::edge::DataVectorEdge",
  ExactPredicates: "overlay_predicates::exact_predicates::ExactPredicates",
  ExactShape: "overlay_located::exact_shape::ExactShape",
  FillRule: "i_overlay::fill_rule::FillRule",
  FlatShapeHierarchy: "i_overlay::hierarchy::FlatShapeHierarchy",
  Grid: "i_overlay::tiles::Grid",
  IntOverlayOptions: "i_overlay::overlay::IntOverlayOptions",
  IntPath: "i_overlay::i_shape::int::path::IntPath",
  IntPoint: "i_overlay::i_float::int::point::IntPoint",
  IntShapes: "i_overlay::i_shape::int::shape::IntShapes",
  "shape.locate_points": "i_overlay::point_location::IntPointContainment",
  Overlay: "i_overlay::overlay::Overlay",
  OverlayError: "i_overlay::error::OverlayError",
  OverlayRule: "i_overlay::overlay_rule::OverlayRule",
  PointLocation: "i_overlay::point_location::PointLocation",
  PredicateOverlay: "i_overlay::relate::PredicateOverlay",
  Relations: "i_overlay::relate::Relations",
  ShapeType: "i_overlay::overlay::ShapeType",
  slice_by_grid_with_solver: "i_overlay::tiles::slice_by_grid_with_solver",
  Solver: "i_overlay::solver::Solver",
  StringOverlay: "i_overlay::string::overlay::StringOverlay",
  StringRule: "i_overlay::string::rule::StringRule",
  Global: "std::alloc::Global",
};

/** The lines of a function in Rattle. */
export function rattleOf(/** @type {import("../state.js").Drawing} */ { figures, asked }) {
  const { answers, lines } = PARTS[asked.command](figures, asked);
  const body = [
    "/// The answer.",
    `pub fn answer(alloc: Global) -> Result<${answers}, OverlayError> {`,
    ...lines.map((line) => `    ${line}`),
    "}",
  ];
  const text = body.join("\n");
  const isUsed = (/** @type {string} */ name) => new RegExp(`(^|[^A-Za-z_.])${name}\\b`, "m").test(text);
  const uses = Object.entries(PATHS).filter(([name]) => isUsed(name)).map(([, path]) => `use ${path};`);
  return [...uses, "", ...body, ""].join("\n");
}
