// What polyover.d.ts says of the calls: `tsc --strict --noEmit` takes it, but for the lines that are expected to fail.
// It takes no library of a browser or of Node.
import { BadInput, ERRORS, Flat, FlatShapes, load, multiPolygon, NotResolved } from "../polyover.js";
import { Polyover as Calls, Prepared as PreparedOf } from "../polyover.js";
import type { Built, Edge, Link, Location, MultiPolygon, Polyover, Prepared, Relations } from "../polyover.js";
import type { FlatTraced, FlatVectors, RemotePolyover, RemotePrepared, Shapes, Source, TracedEdge, Vectors } from
  "../polyover.js";

const square = [[0, 0], [4, 0], [4, 4], [0, 4]];

// (as types of GeoJSON elsewhere are)
interface Other {
  type: "MultiPolygon";
  coordinates: number[][][][];
  bbox?: [number, number, number, number];
}

export async function asked(): Promise<unknown[]> {
  const polyover: Polyover = await load();
  const lists: Shapes = polyover.overlay([square], [square], { rule: "xor", fill: "evenodd", minimumArea: 3n });
  const arrays: FlatShapes = polyover.overlay(new Flat(new Int32Array(8), [4]));
  const named: FlatShapes = polyover.simplify([square], { answer: "arrays", solver: "rounds" });
  const geometry: MultiPolygon = polyover.scaled(100).overlay({ type: "Polygon", coordinates: [] });
  const other: Other = polyover.scaled(100).overlay(geometry as Other);
  const found: { shapes: Shapes; links: Link[] } = polyover.hierarchy([square]);
  const relations: Relations = polyover.relate([square], arrays.contours);
  const exact: Relations = polyover.relate([square], [square], { solver: "exact" });
  const one: boolean = polyover.relateOne("within", [square], [square], { solver: "exact" });
  const arranged: Relations = polyover.relate([square], [square], { fill: "evenodd", solver: "rounds" });
  const places: Location[] = polyover.locate([square], [[1, 1]]);
  const numbers: Uint8Array = polyover.locate([square], new Float64Array(2));
  const big: Shapes<bigint> = polyover.overlay([[[0n, 0n], [4n, 0n], [4n, 4n]]]);
  const edges: Edge[] = polyover.edges([square]);
  const traced: TracedEdge[] = polyover.trace([square], [square], { rule: "xor", closed: false });
  const [, , , [source]] = traced[0];
  const on: Source = source;
  const flatly: FlatTraced = polyover.trace(arrays.contours, [square], { solver: "rounds" });
  const vectors: Vectors = polyover.vectors([square], [], { rule: "subject", keep: true });
  const filled: FlatVectors = polyover.vectors([square], [], { answer: "arrays" });
  const parts: Flat = polyover.clip(arrays.contours, [square], { invert: true });
  const tiles: Shapes = polyover.tiles([square], 2, 2n);
  const is: boolean = polyover.isResolved([square]);
  const prepared: Prepared = polyover.prepare([square], { fill: "evenodd", solver: "rounds" });
  const asked: Location[] = prepared.locate([[1, 1]]);
  const inside: Uint8Array = prepared.contains(new Int32Array(2));
  const truths: boolean[] = prepared.contains(new Int32Array(2), { answer: "lists" });
  prepared.free();
  const both = polyover.arrangement([square], [square], { fill: "evenodd" });
  const shared: Shapes = both.overlay({ rule: "intersect", keep: true });
  const linked: { shapes: FlatShapes; links: Uint32Array } = both.hierarchy({ answer: "arrays" });
  const between: Edge[] = both.edges();
  const within: Edge[] = polyover.edges(geometry);
  const halves: Shapes = polyover.slice([square], [square], { clockwise: true, minimumArea: 3 });
  both.free();
  const remote: RemotePolyover = await load({ worker: true });
  const later: Shapes = await remote.overlay([square], [], { touching: true });
  const farVectors: FlatVectors = await remote.vectors(arrays.contours);
  const farTraced: TracedEdge<bigint>[] = await remote.trace([[[0n, 0n], [1n, 1n]]]);
  const far: RemotePrepared = await remote.prepare(arrays.contours);
  const answered: boolean[] = await far.contains({ type: "Point", coordinates: [1, 1] });
  const farBoth = await remote.arrangement(arrays.contours);
  const farShapes: FlatShapes = await farBoth.overlay();
  remote.end();
  const built: Built = polyover.built();
  const kind: typeof BadInput = ERRORS.BadInput;
  const bytes: Polyover = await load({ wasm: new Uint8Array(8) });
  const there: Polyover = await load({ wasm: "./polyover.wasm", worker: false });
  new Calls({ exports: {} });

  // @ts-expect-error: there is no such rule
  polyover.overlay([square], [], { rule: "join" });
  // @ts-expect-error: nor is an overlay told without a solver
  polyover.overlay([square], [], { solver: "exact" });
  // @ts-expect-error: and no such option
  polyover.simplify([square], { ogc: true });
  // @ts-expect-error: nor is a geometry one without a type
  polyover.overlay({ coordinates: [] });
  // @ts-expect-error: `prepare` makes prepared shapes
  new PreparedOf();
  // @ts-expect-error: which split by a fill rule and a solver alone
  polyover.prepare([square], { answer: "lists" });
  // @ts-expect-error: an arrangement has a fill rule of its own
  both.overlay({ fill: "evenodd" });
  // @ts-expect-error: a geometry has no steps of its own
  polyover.trace(geometry);
  // @ts-expect-error: and contours with filled sides may touch themselves always
  polyover.vectors([square], [], { touching: true });
  // @ts-expect-error: GeoJSON has no edges
  polyover.edges([square], [], { answer: "geojson" });
  // @ts-expect-error: nor words of points
  prepared.contains([[1, 1]], { answer: "geojson" });
  // @ts-expect-error: contours are lists of points, in a list
  polyover.overlay(square);
  // @ts-expect-error: a module is no number
  await load({ wasm: 3 });
  // @ts-expect-error: and a name that is wrong is none
  await load({ wrker: true });
  // @ts-expect-error: nor is there such an error
  ERRORS.Missing;

  return [
    ...[asked, inside, truths, answered, lists, named, other, found, relations, places, numbers, edges, parts, is],
    ...[traced, on, flatly, vectors, filled, farVectors, farTraced],
    ...[exact, arranged, shared, linked, between, within, halves, farShapes],
    ...[tiles, later, big, built, kind, bytes, there, multiPolygon(lists)],
  ];
}

export function told(fault: unknown): string {
  return fault instanceof NotResolved ? `${fault.contour}` : fault instanceof BadInput ? fault.message : "";
}
