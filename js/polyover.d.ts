/** Boolean operations on polygons with whole coordinates, by the library for C as WebAssembly. */

/** The coordinates of an answer: BigInts where any that were given are. */
export type Coordinate = number | bigint;
/** A point of an answer: x to the right, y up. */
export type Point<N extends Coordinate = number> = [x: N, y: N];
/** A typed array of coordinates. */
export type Numbers = BigInt64Array | Int32Array | Float64Array;
/** Counts of points or contours up to the end of each path or shape. */
export type Ends = readonly number[] | Uint32Array | BigUint64Array | BigInt64Array | Int32Array;
/** A geometry, a feature or a collection of GeoJSON, as other packages have types of it too. */
export interface GeoJSON {
  type: string;
  coordinates?: unknown;
  geometries?: unknown;
  geometry?: unknown;
  features?: unknown;
  properties?: unknown;
  id?: unknown;
  bbox?: unknown;
}
export interface MultiPolygon {
  type: "MultiPolygon";
  coordinates: number[][][][];
}
export interface MultiLineString {
  type: "MultiLineString";
  coordinates: number[][][];
}

/** A contour, which the edge from its last point to its first closes, or an open path: its points, x before y. */
export type Path = readonly (readonly Coordinate[])[];
/** What a call takes as contours or as lines. */
export type Paths = Iterable<Path> | Flat | GeoJSON;
/** The same, but for geometries. */
export type ListedPaths = Iterable<Path> | Flat;
/** What a call takes as points. */
export type Points = Path | Numbers | GeoJSON;

export type Rule = "subject" | "clip" | "intersect" | "union" | "difference" | "inverse_difference" | "xor";
export type Fill = "evenodd" | "nonzero" | "positive" | "negative";
/** How edges that cross are split: by snap rounding, or in rounds, which needles may refuse with `NotSettled`. */
export type Solver = "snapped" | "rounds";
/** How relations are told, and points located: in the contours as they are given, or an arrangement by a solver. */
export type RelationSolver = "exact" | Solver;
/** The form of an answer that is no shapes or paths; that of the first group, or lists, where none is named. */
export type PlainForm = "lists" | "arrays";
/** The form of an answer; that of the first group where none is named. */
export type Form = PlainForm | "geojson";
export type Location = "outside" | "inside" | "boundary";
/** Of which module the library is made; "unknown" where it does not tell. */
export type Built = "proved" | "unproved" | "unknown";

export interface SolverOptions {
  /** "snapped" if it is not given. */
  solver?: Solver;
}
export interface FillOptions extends SolverOptions {
  /** "nonzero" if it is not given. A geometry is its region under each rule. */
  fill?: Fill;
}
export interface RelateOptions {
  /** "nonzero" if it is not given. A geometry is its region under each rule. */
  fill?: Fill;
  /** "exact" if it is not given; with another one it is told of an arrangement, of relations at the finest scale. */
  solver?: RelationSolver;
}
export interface AnswerOptions<F extends Form> {
  answer?: F;
}
export interface LookOptions extends FillOptions {
  /** Outlines run clockwise, and holes the other way. */
  clockwise?: boolean;
  /** Points of the answer on one line with their two neighbours are kept. */
  keep?: boolean;
  /** A contour may visit a point twice; if not, shapes are valid polygons by OGC. */
  touching?: boolean;
  /** Contours of a smaller area are left out: a whole number; of `scaled` any number in squares of the floats' unit. */
  minimumArea?: number | bigint;
}
export interface OverlayOptions extends LookOptions {
  /** "union" if it is not given. */
  rule?: Rule;
}
/** Contours of these shapes may touch themselves always. */
export type VectorsOptions = Omit<OverlayOptions, "touching">;
export interface TraceOptions extends FillOptions {
  /** The edges where it holds on one side alone; all if it is not given. */
  rule?: Rule;
  /** Whether the paths are closed, which they are if it is not given. */
  closed?: boolean;
}
/** What an arrangement is asked for: the fill rule and the solver are its own. */
export type ArrangedOptions = Omit<OverlayOptions, "fill" | "solver">;
export type SliceOptions = FillOptions & Pick<LookOptions, "clockwise" | "minimumArea">;
export interface ClipOptions extends FillOptions {
  /** The parts outside are kept, in place of those inside. */
  invert?: boolean;
  /** The parts along the boundary are kept too. */
  boundary?: boolean;
}

/** Shapes: each has its outline first, and then its holes. */
export type Shapes<N extends Coordinate = number> = Point<N>[][][];
/** The shape to which the hole belongs, the place of the hole among all contours, and the shape that lies in it. */
export type Link = [parentShape: number, parentContour: number, childShape: number];
/** Two ends, and the sum of the filled sides: 1 subject left, 2 subject right, 4 clip left, 8 clip right. */
export type Edge<N extends Coordinate = number> = [from: Point<N>, to: Point<N>, sides: number];
export interface FlatEdges {
  /** Four numbers for each edge: x and y of its first end, and of its second. */
  coordinates: Numbers;
  /** The sum of the filled sides of each edge. */
  fills: Uint8Array;
}
/** Shapes by the steps of their contours, each with the sum of its filled sides. */
export type Vectors<N extends Coordinate = number> = Edge<N>[][][];
export interface FlatVectors {
  shapes: FlatShapes;
  /** For each point in order the sum of the filled sides of the step that begins there. */
  fills: Uint8Array;
}
/** A given step on which an edge lies: paths and their steps are counted from 0. */
export interface Source {
  side: "subject" | "clip";
  path: number;
  step: number;
  /** Whether it was cut into pieces. */
  cut: boolean;
  /** Whether it runs against the edge. */
  reversed: boolean;
}
/** An edge, and the given steps on which it lies. */
export type TracedEdge<N extends Coordinate = number> = [...edge: Edge<N>, sources: Source[]];
export interface FlatTraced extends FlatEdges {
  /** How many sources there are up to the last one of each edge. */
  sourceEnds: Uint32Array;
  /** Five numbers for each source: 0 for the subject or 1, path, step, and 1 if it was cut, and if it is reversed. */
  sources: Uint32Array;
}
export interface Relations {
  intersects: boolean;
  interiorsIntersect: boolean;
  touches: boolean;
  pointIntersects: boolean;
  within: boolean;
  disjoint: boolean;
  covers: boolean;
}

/** The form of what was given. */
export type FormOf<P> = P extends Flat ? "arrays" : P extends { type: string } ? "geojson" : "lists";
/** The coordinates of what was given. */
export type NumberOf<P> = P extends readonly []
  ? never
  : P extends Flat
  ? Coordinate
  : P extends Iterable<readonly (readonly (infer N)[])[]>
  ? Extract<N, Coordinate>
  : number;
export interface ShapesAs<N extends Coordinate> {
  lists: Shapes<N>;
  arrays: FlatShapes;
  geojson: MultiPolygon;
}
export interface LinesAs<N extends Coordinate> {
  lists: Point<N>[][];
  arrays: Flat;
  geojson: MultiLineString;
}
export interface EdgesAs<N extends Coordinate> {
  lists: Edge<N>[];
  arrays: FlatEdges;
}
export interface VectorsAs<N extends Coordinate> {
  lists: Vectors<N>;
  arrays: FlatVectors;
}
export interface TracedAs<N extends Coordinate> {
  lists: TracedEdge<N>[];
  arrays: FlatTraced;
}
export interface LinksAs {
  lists: Link[];
  /** Three numbers for each link. */
  arrays: Uint32Array;
  geojson: Link[];
}
export interface LocationsAs {
  lists: Location[];
  /** A number for each point: its place in `LOCATIONS`. */
  arrays: Uint8Array;
}
export interface TruthsAs {
  lists: boolean[];
  /** A number for each point: 1 is true. */
  arrays: Uint8Array;
}
/** The form of edges of what was given. */
export type PlainFormOf<P> = P extends Flat ? "arrays" : "lists";
/** The form of locations of points. */
export type FormOfPoints<P> = P extends Numbers ? "arrays" : "lists";

/** Contours or open paths in two arrays. */
export class Flat implements Iterable<Point<Coordinate>[]> {
  /** Raises BadInput where the arrays are of another kind, or the ends do not rise to the number of points. */
  constructor(coordinates: Numbers, ends: Ends);
  /** The points, x before y in a row. */
  readonly coordinates: Numbers;
  /** How many points there are up to the end of each path. */
  readonly ends: Uint32Array;
  /** How many paths there are. */
  get length(): number;
  /** The points of a path. */
  path(number: number): Point<Coordinate>[];
  [Symbol.iterator](): Iterator<Point<Coordinate>[]>;
}

/** Shapes in arrays. */
export class FlatShapes implements Iterable<Point<Coordinate>[][]> {
  constructor(contours: Flat, shapeEnds: Ends);
  readonly contours: Flat;
  /** How many contours there are up to the end of each shape. */
  readonly shapeEnds: Uint32Array;
  /** How many shapes there are. */
  get length(): number;
  [Symbol.iterator](): Iterator<Point<Coordinate>[][]>;
}

/** The calls. */
export class Polyover {
  /** Over a `WebAssembly.Instance` of the module; `load` makes it. */
  constructor(instance: { readonly exports: object });
  /** Whether the library is made of the proved module. */
  built(): Built;
  /** The same calls on floats: each less the origin's, times the scale, and rounded. Raises BadInput. */
  scaled(scale: number, origin?: readonly number[]): Polyover;
  /** The shapes round the region where the rules hold of two groups of contours. */
  overlay<P extends Paths, Q extends Paths = [], F extends Form = FormOf<P>>(
    subject: P,
    clip?: Q,
    options?: OverlayOptions & AnswerOptions<F>,
  ): ShapesAs<NumberOf<P> | NumberOf<Q>>[F];
  /** The same shapes, and a link for each shape in a hole of another one. */
  hierarchy<P extends Paths, Q extends Paths = [], F extends Form = FormOf<P>>(
    subject: P,
    clip?: Q,
    options?: OverlayOptions & AnswerOptions<F>,
  ): { shapes: ShapesAs<NumberOf<P> | NumberOf<Q>>[F]; links: LinksAs[F] };
  /** The shapes round the same region, each contour by its steps, with the sum of the filled sides of each. */
  vectors<P extends Paths, Q extends Paths = [], F extends PlainForm = PlainFormOf<P>>(
    subject: P,
    clip?: Q,
    options?: VectorsOptions & AnswerOptions<F>,
  ): VectorsAs<NumberOf<P> | NumberOf<Q>>[F];
  /** The shapes round what the contours fill; one simple contour stays as it is given, or is reversed. */
  simplify<P extends Paths, F extends Form = FormOf<P>>(
    subject: P,
    options?: LookOptions & AnswerOptions<F>,
  ): ShapesAs<NumberOf<P>>[F];
  /** Which relations hold of the contours as they are given: nothing is rounded. */
  relate(subject: Paths, clip: Paths, options?: RelateOptions): Relations;
  /** Whether the relation holds, as `relate` tells it, in less time. */
  relateOne(relation: keyof Relations, subject: Paths, clip: Paths, options?: RelateOptions): boolean;
  /** The parts of open paths inside the shape, or as the options say. */
  clip<P extends Paths, Q extends Paths, F extends Form = FormOf<P>>(
    shape: P,
    lines: Q,
    options?: ClipOptions & AnswerOptions<F>,
  ): LinesAs<NumberOf<P> | NumberOf<Q>>[F];
  /** The shapes into which open paths cut a shape. */
  slice<P extends Paths, Q extends Paths, F extends Form = FormOf<P>>(
    shape: P,
    lines: Q,
    options?: SliceOptions & AnswerOptions<F>,
  ): ShapesAs<NumberOf<P> | NumberOf<Q>>[F];
  /**
   * The shapes into which the cells of a grid cut a shape, each in one cell. A node of the grid is at the origin.
   * Raises BadInput where a side is below 1, or more than 1,000 lines cross the shape in a direction.
   */
  tiles<P extends Paths, F extends Form = FormOf<P>>(
    shape: P,
    width: Coordinate,
    height: Coordinate,
    options?: FillOptions & AnswerOptions<F>,
  ): ShapesAs<NumberOf<P>>[F];
  /**
   * Where each point lies in contours, which are joined by exclusive or, or in the region that a geometry covers.
   * NotResolved comes where a contour that is given in lists or arrays meets itself.
   */
  locate<P extends Points, F extends PlainForm = FormOfPoints<P>>(
    shape: Paths,
    points: P,
    options?: AnswerOptions<F>,
  ): LocationsAs[F];
  /** The shape that the contours fill as they are given, made ready to be asked again and again where points lie. */
  prepare(shape: Paths, options?: RelateOptions): Prepared;
  /** Two groups of contours, whose edges are split where they meet once, to be asked for any overlay of them. */
  arrangement<P extends Paths, Q extends Paths = []>(
    subject: P,
    clip?: Q,
    options?: FillOptions,
  ): Arrangement<NumberOf<P> | NumberOf<Q>, FormOf<P>>;
  /** The edges of the arrangement, in order. */
  edges<P extends Paths, Q extends Paths = [], F extends PlainForm = PlainFormOf<P>>(
    subject: P,
    clip?: Q,
    options?: FillOptions & AnswerOptions<F>,
  ): EdgesAs<NumberOf<P> | NumberOf<Q>>[F];
  /** The edges of the arrangement, all or by a rule, each with the given steps on which it lies. */
  trace<P extends ListedPaths, Q extends ListedPaths = [], F extends PlainForm = PlainFormOf<P>>(
    subject: P,
    clip?: Q,
    options?: TraceOptions & AnswerOptions<F>,
  ): TracedAs<NumberOf<P> | NumberOf<Q>>[F];
  /** Whether `locate` takes the contours. */
  isResolved(shape: Paths): boolean;
}

/** A shape that is asked again and again where points lie. */
export class Prepared {
  private constructor();
  /** Where each point lies. */
  locate<P extends Points, F extends PlainForm = FormOfPoints<P>>(
    points: P,
    options?: AnswerOptions<F>,
  ): LocationsAs[F];
  /** Whether each point lies inside; on the boundary it does not. */
  contains<P extends Points, F extends PlainForm = FormOfPoints<P>>(points: P, options?: AnswerOptions<F>): TruthsAs[F];
  /** Gives its memory back, which else happens some time after nothing refers to it: it is not to be asked any more. */
  free(): void;
}

/** Two groups of contours, arranged once: each answer is that of the call with its name. */
export class Arrangement<N extends Coordinate, G extends Form> {
  private constructor();
  /** The shapes round the region where the rules hold. */
  overlay<F extends Form = G>(options?: ArrangedOptions & AnswerOptions<F>): ShapesAs<N>[F];
  /** The same shapes, and a link for each shape in a hole of another one. */
  hierarchy<F extends Form = G>(
    options?: ArrangedOptions & AnswerOptions<F>,
  ): { shapes: ShapesAs<N>[F]; links: LinksAs[F] };
  /** The edges, in order. No polygons of a geometry are joined for them. */
  edges<F extends PlainForm = G extends "arrays" ? "arrays" : "lists">(options?: AnswerOptions<F>): EdgesAs<N>[F];
  /** Gives its memory back, which else happens some time after nothing refers to it: it is not to be asked any more. */
  free(): void;
}

/** An arrangement in a worker: each call answers a promise of what `Arrangement`'s answers. */
export class RemoteArrangement<N extends Coordinate, G extends Form> {
  private constructor();
  overlay<F extends Form = G>(options?: ArrangedOptions & AnswerOptions<F>): Promise<ShapesAs<N>[F]>;
  hierarchy<F extends Form = G>(
    options?: ArrangedOptions & AnswerOptions<F>,
  ): Promise<{ shapes: ShapesAs<N>[F]; links: LinksAs[F] }>;
  edges<F extends PlainForm = G extends "arrays" ? "arrays" : "lists">(
    options?: AnswerOptions<F>,
  ): Promise<EdgesAs<N>[F]>;
  /** Gives its memory back: it is not to be asked any more. */
  free(): void;
}

/** A prepared shape in a worker: each call answers a promise of what `Prepared`'s answers. */
export class RemotePrepared {
  private constructor();
  locate<P extends Points, F extends PlainForm = FormOfPoints<P>>(
    points: P,
    options?: AnswerOptions<F>,
  ): Promise<LocationsAs[F]>;
  contains<P extends Points, F extends PlainForm = FormOfPoints<P>>(
    points: P,
    options?: AnswerOptions<F>,
  ): Promise<TruthsAs[F]>;
  /** Gives its memory back: it is not to be asked any more. */
  free(): void;
}

/** The calls in a worker: each answers a promise of what `Polyover`'s answers, or is rejected with its error. */
export class RemotePolyover {
  /** The same calls on floats, in the same worker. */
  scaled(scale: number, origin?: readonly number[]): RemotePolyover;
  /** Ends the worker, and with it a call that runs: promises that wait are rejected with WorkerEnded. */
  end(): void;
  built(): Promise<Built>;
  overlay<P extends Paths, Q extends Paths = [], F extends Form = FormOf<P>>(
    subject: P,
    clip?: Q,
    options?: OverlayOptions & AnswerOptions<F>,
  ): Promise<ShapesAs<NumberOf<P> | NumberOf<Q>>[F]>;
  hierarchy<P extends Paths, Q extends Paths = [], F extends Form = FormOf<P>>(
    subject: P,
    clip?: Q,
    options?: OverlayOptions & AnswerOptions<F>,
  ): Promise<{ shapes: ShapesAs<NumberOf<P> | NumberOf<Q>>[F]; links: LinksAs[F] }>;
  vectors<P extends Paths, Q extends Paths = [], F extends PlainForm = PlainFormOf<P>>(
    subject: P,
    clip?: Q,
    options?: VectorsOptions & AnswerOptions<F>,
  ): Promise<VectorsAs<NumberOf<P> | NumberOf<Q>>[F]>;
  simplify<P extends Paths, F extends Form = FormOf<P>>(
    subject: P,
    options?: LookOptions & AnswerOptions<F>,
  ): Promise<ShapesAs<NumberOf<P>>[F]>;
  relate(subject: Paths, clip: Paths, options?: RelateOptions): Promise<Relations>;
  relateOne(relation: keyof Relations, subject: Paths, clip: Paths, options?: RelateOptions): Promise<boolean>;
  clip<P extends Paths, Q extends Paths, F extends Form = FormOf<P>>(
    shape: P,
    lines: Q,
    options?: ClipOptions & AnswerOptions<F>,
  ): Promise<LinesAs<NumberOf<P> | NumberOf<Q>>[F]>;
  slice<P extends Paths, Q extends Paths, F extends Form = FormOf<P>>(
    shape: P,
    lines: Q,
    options?: SliceOptions & AnswerOptions<F>,
  ): Promise<ShapesAs<NumberOf<P> | NumberOf<Q>>[F]>;
  tiles<P extends Paths, F extends Form = FormOf<P>>(
    shape: P,
    width: Coordinate,
    height: Coordinate,
    options?: FillOptions & AnswerOptions<F>,
  ): Promise<ShapesAs<NumberOf<P>>[F]>;
  locate<P extends Points, F extends PlainForm = FormOfPoints<P>>(
    shape: Paths,
    points: P,
    options?: AnswerOptions<F>,
  ): Promise<LocationsAs[F]>;
  prepare(shape: Paths, options?: RelateOptions): Promise<RemotePrepared>;
  arrangement<P extends Paths, Q extends Paths = []>(
    subject: P,
    clip?: Q,
    options?: FillOptions,
  ): Promise<RemoteArrangement<NumberOf<P> | NumberOf<Q>, FormOf<P>>>;
  edges<P extends Paths, Q extends Paths = [], F extends PlainForm = PlainFormOf<P>>(
    subject: P,
    clip?: Q,
    options?: FillOptions & AnswerOptions<F>,
  ): Promise<EdgesAs<NumberOf<P> | NumberOf<Q>>[F]>;
  trace<P extends ListedPaths, Q extends ListedPaths = [], F extends PlainForm = PlainFormOf<P>>(
    subject: P,
    clip?: Q,
    options?: TraceOptions & AnswerOptions<F>,
  ): Promise<TracedAs<NumberOf<P> | NumberOf<Q>>[F]>;
  isResolved(shape: Paths): Promise<boolean>;
}

export interface LoadOptions {
  /**
   * Where the module is (a text or a `URL`), its bytes (a buffer or a typed array), or a `WebAssembly.Module`; the file
   * beside this one if it is not given.
   */
  wasm?: string | object;
  /** Whether the calls run in a worker. */
  worker?: boolean;
}
/**
 * The calls, once the module is loaded. Rejected with LibraryMissing where it cannot be, and with BadInput for options
 * that are unknown.
 */
export function load(options?: LoadOptions & { worker?: false }): Promise<Polyover>;
export function load(options: LoadOptions & { worker: true }): Promise<RemotePolyover>;

/** The words for where a point lies, in the order of their numbers. */
export const LOCATIONS: readonly Location[];
/** Shapes as a geometry of GeoJSON. */
export function multiPolygon(shapes: Iterable<Iterable<Path>>): MultiPolygon;
/** Paths as a geometry of GeoJSON. */
export function multiLineString(paths: Iterable<Path>): MultiLineString;

/** A call does not answer; each of the others is one. */
export class PolyoverError extends Error {}
/** Memory was refused. */
export class OutOfMemory extends PolyoverError {}
/** After 64 rounds of splitting edges still meet in points that are no ends. */
export class NotSettled extends PolyoverError {}
/** The edges count 2^31 or more. */
export class TooManyEdges extends PolyoverError {}
/** A contour of a shape in which points are located meets itself. */
export class NotResolved extends PolyoverError {
  /** Its number, from 1. */
  readonly contour: number;
}
/** What was given cannot be asked. */
export class BadInput extends PolyoverError {}
/** The module of WebAssembly is not there, or cannot be loaded. */
export class LibraryMissing extends PolyoverError {}
/** The worker was ended before it answered. */
export class WorkerEnded extends PolyoverError {}

/** The classes of errors by their names. */
export const ERRORS: {
  readonly PolyoverError: typeof PolyoverError;
  readonly OutOfMemory: typeof OutOfMemory;
  readonly NotSettled: typeof NotSettled;
  readonly TooManyEdges: typeof TooManyEdges;
  readonly NotResolved: typeof NotResolved;
  readonly BadInput: typeof BadInput;
  readonly LibraryMissing: typeof LibraryMissing;
  readonly WorkerEnded: typeof WorkerEnded;
};
